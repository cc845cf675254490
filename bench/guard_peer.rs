//! What `bench/guard` compares with, in plain Rust. Each run prints the nanoseconds that it took.
//! Usage: guard_peer add LOOPS | copy LOOPS | own READERS LOOPS | full READERS LOOPS | chain READERS LOOPS | KIND READERS LOOPS COMMITS. By
//! `own` each thread loads a word that no other thread has. By `full` and `chain` threads add numbers in registers and touch no memory:
//! four additions that do not wait for one another, which fill a processor, or four that do, which leave most of it free. These three show
//! what the processors give to so many threads. KIND is rwlock, arc, or one of six that do what the running
//! memory does: packed and padded make guards, packed-again and padded-again load the root under a hold that is kept, and packed-again-64 and
//! padded-again-64 take a new hold after 64 loads. Packed words stand side by side, as the formats have them, so that the root, the newest
//! hold's name and eight holds share what a processor takes in at once. Padded words do not.
use std::arch::asm;
use std::collections::VecDeque;
use std::hint::black_box;
use std::sync::atomic::{AtomicBool, AtomicU64, Ordering::SeqCst};
use std::sync::{Arc, Mutex, RwLock};
use std::thread;
use std::time::Instant;

/// Two additions to one word that no one else uses.
fn adds(loops: u64) {
    let word = AtomicU64::new(0);
    for _ in 0..loops {
        word.fetch_add(2, SeqCst);
        word.fetch_sub(2, SeqCst);
    }
    black_box(word.load(SeqCst));
}

/// A copy of 34 words by atomic loads.
fn copies(loops: u64) {
    let words: Vec<AtomicU64> = (0..34).map(AtomicU64::new).collect();
    let mut into = [0u64; 34];
    for _ in 0..loops {
        for (word, from) in into.iter_mut().zip(black_box(&words)) {
            *word = from.load(SeqCst);
        }
        black_box(&mut into);
    }
}

/// Readers that look so often, beside a writer where there are commits; with commits they look until the last one.
fn beside(readers: u64, loops: u64, commits: u64, look: impl Fn() -> u64 + Sync, commit: impl Fn(u64) + Sync) -> u64 {
    let done = AtomicBool::new(false);
    let looks = AtomicU64::new(0);
    thread::scope(|scope| {
        for _ in 0..readers {
            scope.spawn(|| {
                let mut count = 0;
                while if commits == 0 { count < loops } else { !done.load(SeqCst) } {
                    black_box(look());
                    count += 1;
                }
                looks.fetch_add(count, SeqCst);
            });
        }
        if commits > 0 {
            scope.spawn(|| {
                for number in 0..commits {
                    commit(number);
                }
                done.store(true, SeqCst);
            });
        }
    });
    looks.load(SeqCst)
}

/// Threads that each load a word of their own so often.
fn owns(readers: u64, loops: u64) -> u64 {
    thread::scope(|scope| {
        for _ in 0..readers {
            scope.spawn(|| {
                let word = AtomicU64::new(0);
                let (word, mut seen) = (black_box(&word), 0u64);
                for _ in 0..loops {
                    seen = seen.wrapping_add(word.load(SeqCst));
                }
                black_box(seen);
            });
        }
    });
    readers * loops
}

/// Threads that each make four additions in registers so often, independent ones or each after the other.
fn sums(readers: u64, loops: u64, independent: bool) -> u64 {
    thread::scope(|scope| {
        for _ in 0..readers {
            scope.spawn(|| {
                let (mut a, mut b, mut c, mut d) = (0u64, 0u64, 0u64, 0u64);
                for _ in 0..loops {
                    // SAFETY: the instructions change these registers alone.
                    unsafe {
                        if independent {
                            asm!("add {a}, 1", "add {b}, 1", "add {c}, 1", "add {d}, 1",
                                a = inout(reg) a, b = inout(reg) b, c = inout(reg) c, d = inout(reg) d, options(nomem, nostack));
                        } else {
                            asm!("add {a}, 1", "add {a}, 1", "add {a}, 1", "add {a}, 1", a = inout(reg) a, options(nomem, nostack));
                        }
                    }
                }
                black_box(a + b + c + d);
            });
        }
    });
    readers * loops
}

/// The named words of the running memory: the root, the newest hold, and the counts of 16 holds.
struct Named {
    words: Vec<AtomicU64>,
    stride: usize,
    open: Mutex<(u64, VecDeque<usize>)>,
}

impl Named {
    fn new(stride: usize) -> Named {
        let words: Vec<AtomicU64> = (0..18 * stride + 16).map(|_| AtomicU64::new(0)).collect();
        let named = Named { words, stride, open: Mutex::new((0, VecDeque::from([0]))) };
        for hold in 1..16 {
            named.at(2 + hold).store(1, SeqCst);
        }
        named
    }

    fn at(&self, i: usize) -> &AtomicU64 {
        &self.words[i * self.stride]
    }

    /// The root, loaded so often under a guard, which is given back.
    fn guard(&self, looks: u64) -> u64 {
        loop {
            let hold = (self.at(1).load(SeqCst) % 65536) as usize;
            let open = self.at(2 + hold).fetch_add(2, SeqCst) % 2 == 0;
            let mut root = 0;
            if open {
                for _ in 0..looks {
                    root = black_box(self.at(0).load(SeqCst));
                }
            }
            self.at(2 + hold).fetch_sub(2, SeqCst);
            if open {
                return root;
            }
        }
    }

    /// A commit, the next generation, and the oldest holds closed that are not in use.
    fn commit(&self, number: u64) {
        let mut open = self.open.lock().unwrap();
        let (generation, queue) = &mut *open;
        self.at(0).store(number + 1, SeqCst);
        *generation += 1;
        let newest = *queue.back().unwrap();
        if self.at(2 + newest).load(SeqCst) == 0 {
            self.at(1).store(*generation * 65536 + newest as u64, SeqCst);
        } else if let Some(hold) = (0..16).find(|hold| !queue.contains(hold)) {
            self.at(2 + hold).fetch_sub(1, SeqCst);
            self.at(1).store(*generation * 65536 + hold as u64, SeqCst);
            queue.push_back(hold);
        }
        while queue.len() > 1 && self.at(2 + queue[0]).compare_exchange(0, 1, SeqCst, SeqCst).is_ok() {
            queue.pop_front();
        }
    }
}

/// How far words stand apart that share nothing.
const APART: usize = 16;

fn named(words: &[String], readers: u64, loops: u64, commits: u64) -> u64 {
    let stride = if words[0].starts_with("padded") { APART } else { 1 };
    let named = Named::new(stride);
    let commit = |n| named.commit(n);
    if words[0].ends_with("again") {
        beside(readers, loops, commits, || named.at(0).load(SeqCst), commit)
    } else if words[0].ends_with("again-64") {
        beside(readers, loops / 64, commits, || named.guard(64), commit) * 64
    } else {
        beside(readers, loops, commits, || named.guard(1), commit)
    }
}

fn main() {
    let words: Vec<String> = std::env::args().skip(1).collect();
    let number = |i: usize| words.get(i).and_then(|word| word.parse::<u64>().ok()).unwrap_or(0);
    let start = Instant::now();
    let looks = match words.first().map(String::as_str) {
        Some("add") => {
            adds(number(1));
            number(1)
        }
        Some("copy") => {
            copies(number(1));
            number(1)
        }
        Some("own") => owns(number(1), number(2)),
        Some("full") => sums(number(1), number(2), true),
        Some("chain") => sums(number(1), number(2), false),
        Some("rwlock") => {
            let root = RwLock::new(0u64);
            beside(number(1), number(2), number(3), || *root.read().unwrap(), |n| *root.write().unwrap() = n)
        }
        Some("arc") => {
            let root = Arc::new(AtomicU64::new(0));
            beside(number(1), number(2), number(3), || Arc::clone(&root).load(SeqCst), |n| root.store(n, SeqCst))
        }
        Some(kind) if kind.starts_with("packed") || kind.starts_with("padded") => named(&words, number(1), number(2), number(3)),
        _ => panic!("guard_peer add LOOPS | copy LOOPS | KIND READERS LOOPS COMMITS"),
    };
    println!("{looks} looks {} ns", start.elapsed().as_nanos());
}
