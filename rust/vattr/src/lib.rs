//! Attributes of a document collection, in memory, for search, sorting and grouping: the library of `attr.h` as safe Rust.
//!
//! An [`Engine`] belongs to the thread that writes. It hands out [`Reader`]s, each of which answers queries in one thread at a time,
//! without a lock. A [`Guard`] keeps a reader at one commit.
//!
//! ```
//! use vattr::{Engine, Sizes};
//!
//! # fn main() -> Result<(), vattr::Error> {
//! let mut engine = Engine::open("year:single:long", Sizes { readers: 1, ..Sizes::default() })?;
//! let reader = engine.reader()?;
//! engine.feed("{\"put\":\"id:music:song::1\",\"fields\":{\"year\":1969}}\n")?;
//! engine.commit()?;
//! let hits = std::thread::spawn(move || reader.hits("[1960;1969]")).join().unwrap()?;
//! assert_eq!(hits, [1]);
//! # Ok(())
//! # }
//! ```
//!
//! A reader moves to another thread, and two threads never have it at once:
//!
//! ```compile_fail,E0277
//! fn shares<T: Sync>() {}
//! shares::<vattr::Reader>();
//! ```
//!
//! A guard ends before its reader is given back:
//!
//! ```compile_fail,E0505
//! # let mut engine = vattr::Engine::open("a:single:long", vattr::Sizes::default()).unwrap();
//! let reader = engine.reader().unwrap();
//! let guard = reader.hold().unwrap();
//! engine.take_back(reader);
//! drop(guard);
//! ```
//!
//! No call may be made from a signal handler, or in the child of a fork of a process with threads, which only unsafe code can bring about.
#![warn(missing_docs)]
mod engine;
mod error;
mod reader;

pub use engine::{Counts, Engine, OtherEngine, Sizes, Told};
pub use error::{Code, Error};
pub use reader::{Answer, Group, Grouping, Guard, Item, Order, Reader, Score, Totals, Value};

/// The `ATTR_VERSION` of the library that runs.
pub fn version() -> u32 {
    // SAFETY: the call takes nothing.
    unsafe { vattr_sys::attr_version() }
}

/// A text as a leaf of a query: in quotes, with its own quotes and backslashes escaped, so that no text can become another query.
pub fn quoted(text: &str) -> String {
    let mut leaf = String::with_capacity(text.len() + 2);
    leaf.push('"');
    for c in text.chars() {
        if c == '"' || c == '\\' {
            leaf.push('\\');
        }
        leaf.push(c);
    }
    leaf.push('"');
    leaf
}
