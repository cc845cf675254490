//! The engine and its writer.
use crate::error::Error;
use crate::reader::Reader;
use std::fmt;
use std::ptr;
use std::sync::atomic::{AtomicU64, Ordering};
use vattr_sys as sys;

/// What a call of the writer told: `struct attr_told`.
pub type Told = sys::attr_told;
/// Numbers for a monitor: `struct attr_numbers`.
pub type Counts = sys::attr_numbers;

/// How large an engine is: `struct attr_sizes`.
#[derive(Clone, Copy, Debug, PartialEq, Eq)]
pub struct Sizes {
    /// From 1 to 1,023; with `wide` to 8,191.
    pub buffers: u32,
    /// Of each buffer, from 8,192 to 65,536; `buffers * words` is at most 67,108,864.
    pub words: u32,
    /// From 0 to 64.
    pub readers: u32,
    /// More and smaller buffers.
    pub wide: bool,
    /// Keeps the documents of a frequent value as a bit vector.
    pub dense: bool,
}

impl Default for Sizes {
    /// 256 buffers of 8,192 words (16 MiB), and four readers.
    fn default() -> Sizes {
        Sizes { buffers: 256, words: 8192, readers: 4, wide: false, dense: false }
    }
}

/// The engine: one thread feeds, commits, compacts, and hands readers out.
pub struct Engine {
    handle: sys::attr_engine,
    number: u64,
}

// SAFETY: the library binds a handle to no thread. Each call takes the engine for itself, and what moves it to another thread orders the
// calls.
unsafe impl Send for Engine {}

/// The reader is of another engine, and is given back as it was.
#[derive(Debug)]
pub struct OtherEngine(pub Reader);

impl fmt::Display for OtherEngine {
    fn fmt(&self, f: &mut fmt::Formatter<'_>) -> fmt::Result {
        f.write_str("the reader is of another engine")
    }
}

impl std::error::Error for OtherEngine {}

impl fmt::Debug for Engine {
    fn fmt(&self, f: &mut fmt::Formatter<'_>) -> fmt::Result {
        f.debug_struct("Engine").field("number", &self.number).finish_non_exhaustive()
    }
}

fn came(code: i32, told: Told) -> Result<Told, Error> {
    if code == sys::ATTR_OK {
        Ok(told)
    } else {
        Err(Error::of_writer(code, &told))
    }
}

impl Engine {
    /// Opens an engine of the attributes that the text names: `name:kind:value` each, with commas between them.
    ///
    /// # Panics
    /// Where the library is of another minor version than this crate.
    pub fn open(attributes: &str, sizes: Sizes) -> Result<Engine, Error> {
        static MADE: AtomicU64 = AtomicU64::new(1);
        assert_eq!(crate::version() / 1000, sys::ATTR_VERSION / 1000, "libvattr has another version than the crate vattr");
        let Sizes { buffers, words, readers, wide, dense } = sizes;
        let sizes = sys::attr_sizes { buffers, words, readers, wide: wide.into(), dense: dense.into() };
        let (mut at, mut place) = (ptr::null_mut(), 0);
        // SAFETY: the text has that length, and the other pointers are of one struct each.
        let code = unsafe { sys::attr_open(attributes.as_ptr(), attributes.len(), &sizes, &mut at, &mut place) };
        if code != sys::ATTR_OK {
            return Err(Error::of_attributes(code, place));
        }
        Ok(Engine { handle: sys::attr_engine { at }, number: MADE.fetch_add(1, Ordering::Relaxed) })
    }

    /// Applies lines of JSON up to one that is refused: the error has its line and, as `next`, where the line behind it begins.
    pub fn feed(&mut self, lines: impl AsRef<[u8]>) -> Result<Told, Error> {
        let (lines, mut told) = (lines.as_ref(), Told::default());
        // SAFETY: the handle is open until the engine is dropped, and the lines have that length.
        let code = unsafe { sys::attr_feed(&mut self.handle, lines.as_ptr(), lines.len(), &mut told) };
        came(code, told)
    }

    /// Commits what was applied: from then on answers are of this commit.
    pub fn commit(&mut self) -> Result<Told, Error> {
        let mut told = Told::default();
        // SAFETY: the handle is open.
        let code = unsafe { sys::attr_commit(&mut self.handle, &mut told) };
        came(code, told)
    }

    /// Goes so many keys on in a compaction; 256 after each commit serve well.
    pub fn compact(&mut self, keys: u32) -> Result<Told, Error> {
        let mut told = Told::default();
        // SAFETY: the handle is open.
        let code = unsafe { sys::attr_compact(&mut self.handle, keys, &mut told) };
        came(code, told)
    }

    /// Puts the documents of a save in, each by a put.
    pub fn load(&mut self, save: impl AsRef<[u8]>) -> Result<Told, Error> {
        let (save, mut told) = (save.as_ref(), Told::default());
        // SAFETY: the handle is open, and the save has that length.
        let code = unsafe { sys::attr_load(&mut self.handle, save.as_ptr(), save.len(), &mut told) };
        came(code, told)
    }

    /// Numbers for a monitor.
    pub fn counts(&mut self) -> Counts {
        let mut counts = Counts::default();
        // SAFETY: the handle is open.
        unsafe { sys::attr_counts(&mut self.handle, &mut counts) };
        counts
    }

    /// Hands a reader out.
    pub fn reader(&mut self) -> Result<Reader, Error> {
        let mut at = ptr::null_mut();
        // SAFETY: the handle is open.
        let code = unsafe { sys::attr_reader_open(&mut self.handle, &mut at) };
        if code != sys::ATTR_OK {
            return Err(Error::new(code));
        }
        Ok(Reader::new(sys::attr_reader { at }, self.number))
    }

    /// Takes a reader of this engine back, so that it can be handed out again.
    pub fn take_back(&mut self, reader: Reader) -> Result<Result<(), Error>, OtherEngine> {
        if reader.engine() != self.number {
            return Err(OtherEngine(reader));
        }
        // SAFETY: both handles are open, the reader's is of this engine, and nobody has it after this.
        let code = unsafe { sys::attr_reader_return(&mut self.handle, reader.into_handle()) };
        Ok(if code == sys::ATTR_OK { Ok(()) } else { Err(Error::new(code)) })
    }
}

impl Drop for Engine {
    /// Closes the engine; its readers may go on at the last commit.
    fn drop(&mut self) {
        // SAFETY: the handle is open, and nobody has it after this.
        unsafe { sys::attr_close(sys::attr_engine { at: self.handle.at }) }
    }
}
