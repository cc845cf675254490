//! The job over std's maps under a reader-writer lock, which a batch takes whole.
use std::collections::{BTreeMap, BTreeSet};
use std::sync::RwLock;
use std::sync::atomic::{AtomicBool, Ordering::Relaxed};
use std::thread;
use std::time::{Duration, Instant};

const BATCH: u64 = 100;
const DOCUMENTS: u64 = 50_000;
const NUMBERS: u64 = 5_000;

fn mixed(x: u64) -> u64 {
    let mut x = x.wrapping_add(0x9e37_79b9_7f4a_7c15);
    x = (x ^ (x >> 30)).wrapping_mul(0xbf58_476d_1ce4_e5b9);
    x = (x ^ (x >> 27)).wrapping_mul(0x94d0_49bb_1331_11eb);
    x ^ (x >> 31)
}

fn document_of(i: u64) -> u32 {
    if i <= DOCUMENTS { i as u32 } else { 1 + (mixed(i) % DOCUMENTS) as u32 }
}

fn number_of(i: u64) -> i64 {
    (mixed(i ^ 0xabcdef) % NUMBERS) as i64
}

#[derive(Default)]
struct Maps {
    docs: BTreeMap<u32, i64>,
    post: BTreeMap<i64, BTreeSet<u32>>,
}

fn batch(maps: &RwLock<Maps>, from: u64, to: u64) {
    let mut maps = maps.write().unwrap();
    for i in from..=to {
        let (document, number) = (document_of(i), number_of(i));
        if let Some(before) = maps.docs.insert(document, number) {
            if before == number {
                continue;
            }
            if let Some(set) = maps.post.get_mut(&before) {
                set.remove(&document);
                if set.is_empty() {
                    maps.post.remove(&before);
                }
            }
        }
        maps.post.entry(number).or_default().insert(document);
    }
}

fn ask(maps: &RwLock<Maps>, number: i64, into: &mut Vec<u32>) -> usize {
    into.clear();
    if let Some(set) = maps.read().unwrap().post.get(&number) {
        into.extend(set.iter().copied());
    }
    into.len()
}

fn main() {
    let words: Vec<String> = std::env::args().skip(1).collect();
    let word = |i: usize, other: &str| words.get(i).cloned().unwrap_or(other.to_string());
    let (mode, first) = (word(0, "load"), word(1, "100000").parse::<u64>().unwrap());
    let seconds = Duration::from_secs_f64(word(2, "1").parse().unwrap());
    let (is_load, is_mixed) = (mode == "load", mode == "mixed");
    let readers = if is_load { 0 } else { first };
    let maps = RwLock::new(Maps::default());
    let stop = AtomicBool::new(false);
    let mut done = 0;
    let mut begin = Instant::now();
    if !is_load {
        for i in (0..DOCUMENTS).step_by(BATCH as usize) {
            batch(&maps, i + 1, i + BATCH);
        }
        begin = Instant::now();
    }
    let mut took = Duration::ZERO;
    let (mut asks, mut found) = (0u64, 0u64);
    thread::scope(|scope| {
        let threads: Vec<_> = (0..readers)
            .map(|i| {
                let (maps, stop) = (&maps, &stop);
                scope.spawn(move || {
                    let (mut asks, mut found, mut seed, mut into) = (0u64, 0u64, mixed(i + 7), Vec::with_capacity(4096));
                    while !stop.load(Relaxed) {
                        found += ask(maps, (mixed(seed) % NUMBERS) as i64, &mut into) as u64;
                        seed += 1;
                        asks += 1;
                    }
                    (asks, found)
                })
            })
            .collect();
        if is_load {
            while done < first {
                batch(&maps, done + 1, done + BATCH);
                done += BATCH;
            }
        } else if is_mixed {
            while begin.elapsed() < seconds {
                batch(&maps, DOCUMENTS + done + 1, DOCUMENTS + done + BATCH);
                done += BATCH;
            }
        } else {
            thread::sleep(seconds);
        }
        took = begin.elapsed();
        stop.store(true, Relaxed);
        for thread in threads {
            let (a, f) = thread.join().unwrap();
            asks += a;
            found += f;
        }
    });
    println!("{done} {asks} {found} {:.6}", took.as_secs_f64());
}
