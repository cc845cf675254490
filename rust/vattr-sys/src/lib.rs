//! The calls, structs and codes of `attr.h`, as they stand there. The crate `vattr` is the safe wrapper over them; THE RULES at the head of
//! `attr.h` are what a caller of this crate has to keep.
#![no_std]
#![allow(non_camel_case_types)]
use core::ffi::c_void;

/// The version of `attr.h` that this crate is written for. A library of another minor version has other calls or structs.
pub const ATTR_VERSION: u32 = 2000;

pub const ATTR_OK: i32 = 0;
pub const ATTR_MEMORY: i32 = 1;
pub const ATTR_BOUNDS: i32 = 2;
pub const ATTR_ATTRIBUTES: i32 = 3;
pub const ATTR_NO_TEXT: i32 = 4;
pub const ATTR_NO_READER: i32 = 5;
pub const ATTR_LOST: i32 = 6;
pub const ATTR_FULL: i32 = 7;
pub const ATTR_COMMITS_SPENT: i32 = 8;
pub const ATTR_OPERATIONS_SPENT: i32 = 9;
pub const ATTR_NO_DOCUMENT: i32 = 10;
pub const ATTR_SYNTAX: i32 = 11;
pub const ATTR_NO_FIELD: i32 = 12;
pub const ATTR_WRONG_TYPE: i32 = 13;
pub const ATTR_OUT_OF_RANGE: i32 = 14;
pub const ATTR_TOO_DEEP: i32 = 15;
pub const ATTR_NOT_JSON: i32 = 21;
pub const ATTR_NO_OPERATION: i32 = 22;
pub const ATTR_BAD_ID: i32 = 23;
pub const ATTR_BAD_VALUE: i32 = 24;
pub const ATTR_UNSUPPORTED: i32 = 25;
pub const ATTR_TOO_MANY_ITEMS: i32 = 26;
pub const ATTR_LINE_TOO_LONG: i32 = 27;
pub const ATTR_BAD_SAVE: i32 = 31;
pub const ATTR_OTHER_SAVE: i32 = 32;

/// The writer's handle.
#[repr(C)]
#[derive(Debug)]
pub struct attr_engine {
    pub at: *mut c_void,
}

/// A reader's handle.
#[repr(C)]
#[derive(Debug)]
pub struct attr_reader {
    pub at: *mut c_void,
}

/// How large an engine is.
#[repr(C)]
#[derive(Clone, Copy, Debug, Default, PartialEq, Eq)]
pub struct attr_sizes {
    pub buffers: u32,
    pub words: u32,
    pub readers: u32,
    pub wide: u32,
    pub dense: u32,
}

/// What a call of the writer tells.
#[repr(C)]
#[derive(Clone, Copy, Debug, Default, PartialEq, Eq)]
pub struct attr_told {
    pub line: u64,
    pub place: u64,
    pub next: u64,
    pub operations: u32,
    pub skipped: u32,
    pub commit: u32,
    pub width: u32,
    pub active: u32,
    pub held: u32,
    pub oldest: u32,
    pub is_held: u32,
    pub keys: u32,
    pub finished: u32,
    pub buffer: u32,
}

/// Numbers for a monitor.
#[repr(C)]
#[derive(Clone, Copy, Debug, Default, PartialEq, Eq)]
pub struct attr_numbers {
    pub skipped: u64,
    pub used_words: u64,
    pub dead_words: u64,
    pub held_words: u64,
    pub operations: u32,
    pub commit: u32,
    pub committed: u32,
    pub oldest: u32,
    pub is_held: u32,
    pub active: u32,
    pub held: u32,
    pub buffers: u32,
    pub words: u32,
    pub readers: u32,
}

/// What a reader's call tells.
#[repr(C)]
#[derive(Clone, Copy, Debug, Default, PartialEq, Eq)]
pub struct attr_answer {
    pub commit: u32,
    pub operations: u32,
    pub count: u64,
    pub place: u64,
}

/// A document of the answer to a dot product.
#[repr(C)]
#[derive(Clone, Copy, Debug, Default, PartialEq, Eq)]
pub struct attr_score {
    pub score: i64,
    pub document: u32,
    pub exact: u32,
}

/// One item of a document.
#[repr(C)]
#[derive(Clone, Copy, Debug, Default, PartialEq, Eq)]
pub struct attr_item_told {
    pub number: i64,
    pub length: u64,
    pub weight: i32,
    pub is_text: u32,
}

/// The totals of the numbers of some documents.
#[repr(C)]
#[derive(Clone, Copy, Debug, Default, PartialEq, Eq)]
pub struct attr_totals_told {
    pub count: u64,
    pub low: u64,
    pub high: i64,
    pub least: i64,
    pub greatest: i64,
}

/// A value, and how many documents have it.
#[repr(C)]
#[derive(Clone, Copy, Debug, Default, PartialEq, Eq)]
pub struct attr_group_told {
    pub number: i64,
    pub length: u64,
    pub documents: u64,
    pub is_text: u32,
    pub zero: u32,
}

extern "C" {
    pub fn attr_message(code: i32, into: *mut u8, room: usize) -> usize;
    pub fn attr_version() -> u32;
    pub fn attr_open(attributes: *const u8, length: usize, sizes: *const attr_sizes, out: *mut *mut c_void, place: *mut u64) -> i32;
    pub fn attr_close(engine: attr_engine);
    pub fn attr_feed(engine: *mut attr_engine, lines: *const u8, length: usize, told: *mut attr_told) -> i32;
    pub fn attr_commit(engine: *mut attr_engine, told: *mut attr_told) -> i32;
    pub fn attr_compact(engine: *mut attr_engine, keys: u32, told: *mut attr_told) -> i32;
    pub fn attr_load(engine: *mut attr_engine, bytes: *const u8, length: usize, told: *mut attr_told) -> i32;
    pub fn attr_counts(engine: *mut attr_engine, numbers: *mut attr_numbers);
    pub fn attr_reader_open(engine: *mut attr_engine, out: *mut *mut c_void) -> i32;
    pub fn attr_reader_return(engine: *mut attr_engine, reader: attr_reader) -> i32;
    pub fn attr_reader_close(reader: attr_reader);
    pub fn attr_hold(reader: *mut attr_reader, answer: *mut attr_answer) -> i32;
    pub fn attr_release(reader: *mut attr_reader) -> i32;
    pub fn attr_ask(reader: *mut attr_reader, text: *const u8, length: usize, answer: *mut attr_answer) -> i32;
    pub fn attr_count(reader: *mut attr_reader, text: *const u8, length: usize, answer: *mut attr_answer) -> i32;
    pub fn attr_hits(reader: *mut attr_reader, first: usize, into: *mut u32, room: usize) -> usize;
    pub fn attr_scores(reader: *mut attr_reader, first: usize, into: *mut attr_score, room: usize) -> usize;
    pub fn attr_items(reader: *mut attr_reader, document: u32, field: u32, answer: *mut attr_answer) -> i32;
    pub fn attr_item(reader: *mut attr_reader, number: usize, item: *mut attr_item_told) -> i32;
    pub fn attr_item_text(reader: *mut attr_reader, number: usize, into: *mut u8, room: usize) -> usize;
    pub fn attr_save(reader: *mut attr_reader, answer: *mut attr_answer) -> i32;
    pub fn attr_saved(reader: *mut attr_reader, first: usize, into: *mut u8, room: usize) -> usize;
    pub fn attr_sort(
        reader: *mut attr_reader,
        field: u32,
        descending: u32,
        first: usize,
        into: *mut u32,
        room: usize,
        answer: *mut attr_answer,
    ) -> i32;
    pub fn attr_totals(reader: *mut attr_reader, field: u32, totals: *mut attr_totals_told, answer: *mut attr_answer) -> i32;
    pub fn attr_best(
        reader: *mut attr_reader,
        text: *const u8,
        length: usize,
        into: *mut attr_score,
        room: usize,
        answer: *mut attr_answer,
    ) -> i32;
    pub fn attr_longs(
        reader: *mut attr_reader,
        field: u32,
        documents: *const u32,
        count: usize,
        numbers: *mut i64,
        numbers_room: usize,
        present: *mut u8,
        present_room: usize,
        answer: *mut attr_answer,
    ) -> i32;
    pub fn attr_group(reader: *mut attr_reader, field: u32, by_count: u32, most: usize, answer: *mut attr_answer) -> i32;
    pub fn attr_terms(reader: *mut attr_reader, text: *const u8, length: usize, most: usize, answer: *mut attr_answer) -> i32;
    pub fn attr_group_at(reader: *mut attr_reader, number: usize, group: *mut attr_group_told) -> i32;
    pub fn attr_group_text(reader: *mut attr_reader, number: usize, into: *mut u8, room: usize) -> usize;
    pub fn attr_documents(reader: *mut attr_reader, first: u32, into: *mut u32, room: usize, answer: *mut attr_answer) -> i32;
}
