//! The declarations of `include/rkyv_btree.h` and the types of `bindings/types.json`. `tools/header.py --write` writes this file.
#![allow(dead_code)]
use std::mem::size_of;

pub const OK: u32 = 0;
pub const OUT_OF_RANGE: u32 = 1;
pub const MISALIGNED: u32 = 2;
pub const BAD_KIND: u32 = 3;
pub const INVALID_LENGTH: u32 = 4;
pub const BAD_ENTRY: u32 = 5;
pub const TOO_DEEP: u32 = 6;
pub const LENGTH_MISMATCH: u32 = 7;
pub const TOO_LONG: u32 = 8;
pub const OUT_OF_ORDER: u32 = 9;
pub const NOT_OPEN: u32 = 16;
pub const BAD_TYPE: u32 = 17;
pub const NOT_FOUND: u32 = 18;
pub const BAD_CURSOR: u32 = 19;
pub const BAD_VALUE: u32 = 20;
pub const MISSING: u32 = 21;
pub const LENGTH_OVERFLOW: u32 = 32;
pub const POSITION_OVERFLOW: u32 = 33;
pub const OFFSET_OVERFLOW: u32 = 34;
pub const NO_MEMORY: u32 = 35;
pub const BAD_ITEM: u32 = 36;
pub const NOT_INCREASING: u32 = 37;
pub const NO_ROOM: u32 = 38;
pub const NO_HEADER: u32 = 48;
pub const OTHER_VERSION: u32 = 49;
pub const OTHER_TYPE: u32 = 50;
pub const U32_TO_U32: u32 = 1;
pub const U32_TO_U64: u32 = 2;
pub const U32_TO_TEXT: u32 = 3;
pub const U64_TO_U32: u32 = 4;
pub const U64_TO_U64: u32 = 5;
pub const U64_TO_TEXT: u32 = 6;
pub const TEXT_TO_U32: u32 = 7;
pub const TEXT_TO_U64: u32 = 8;
pub const TEXT_TO_TEXT: u32 = 9;
pub const U32_TO_I64: u32 = 10;
pub const U64_TO_I64: u32 = 11;
pub const I64_TO_U32: u32 = 12;
pub const I64_TO_U64: u32 = 13;
pub const I64_TO_I64: u32 = 14;
pub const I64_TO_TEXT: u32 = 15;
pub const TEXT_TO_I64: u32 = 16;
pub const U32_TO_BYTES: u32 = 17;
pub const U64_TO_BYTES: u32 = 18;
pub const I64_TO_BYTES: u32 = 19;
pub const TEXT_TO_BYTES: u32 = 20;
pub const BYTES_TO_U32: u32 = 21;
pub const BYTES_TO_U64: u32 = 22;
pub const BYTES_TO_I64: u32 = 23;
pub const BYTES_TO_TEXT: u32 = 24;
pub const BYTES_TO_BYTES: u32 = 25;
pub const U32_SET: u32 = 26;
pub const U64_SET: u32 = 27;
pub const I64_SET: u32 = 28;
pub const TEXT_SET: u32 = 29;
pub const BYTES_SET: u32 = 30;

/// A type of keys or of values.
#[derive(Clone, Copy, Debug, PartialEq, Eq)]
pub enum Type {
    U32,
    U64,
    I64,
    Text,
    Bytes,
    Empty,
}

impl Type {

    /// Returns its name.
    pub const fn name(self) -> &'static str {
        match self {
            Type::U32 => "u32",
            Type::U64 => "u64",
            Type::I64 => "i64",
            Type::Text => "text",
            Type::Bytes => "bytes",
            Type::Empty => "empty",
        }
    }

    /// Returns its size and its alignment in an archive.
    pub const fn layout(self) -> (u64, u64) {
        match self {
            Type::U32 => (4, 4),
            Type::U64 => (8, 8),
            Type::I64 => (8, 8),
            Type::Text => (8, 4),
            Type::Bytes => (8, 4),
            Type::Empty => (0, 1),
        }
    }
}

/// Returns the number of the type of a map. No map has keys of the empty type.
pub const fn number_of(key: Type, value: Type) -> u32 {
    match (key, value) {
        (Type::U32, Type::U32) => U32_TO_U32,
        (Type::U32, Type::U64) => U32_TO_U64,
        (Type::U32, Type::Text) => U32_TO_TEXT,
        (Type::U64, Type::U32) => U64_TO_U32,
        (Type::U64, Type::U64) => U64_TO_U64,
        (Type::U64, Type::Text) => U64_TO_TEXT,
        (Type::Text, Type::U32) => TEXT_TO_U32,
        (Type::Text, Type::U64) => TEXT_TO_U64,
        (Type::Text, Type::Text) => TEXT_TO_TEXT,
        (Type::U32, Type::I64) => U32_TO_I64,
        (Type::U64, Type::I64) => U64_TO_I64,
        (Type::I64, Type::U32) => I64_TO_U32,
        (Type::I64, Type::U64) => I64_TO_U64,
        (Type::I64, Type::I64) => I64_TO_I64,
        (Type::I64, Type::Text) => I64_TO_TEXT,
        (Type::Text, Type::I64) => TEXT_TO_I64,
        (Type::U32, Type::Bytes) => U32_TO_BYTES,
        (Type::U64, Type::Bytes) => U64_TO_BYTES,
        (Type::I64, Type::Bytes) => I64_TO_BYTES,
        (Type::Text, Type::Bytes) => TEXT_TO_BYTES,
        (Type::Bytes, Type::U32) => BYTES_TO_U32,
        (Type::Bytes, Type::U64) => BYTES_TO_U64,
        (Type::Bytes, Type::I64) => BYTES_TO_I64,
        (Type::Bytes, Type::Text) => BYTES_TO_TEXT,
        (Type::Bytes, Type::Bytes) => BYTES_TO_BYTES,
        (Type::U32, Type::Empty) => U32_SET,
        (Type::U64, Type::Empty) => U64_SET,
        (Type::I64, Type::Empty) => I64_SET,
        (Type::Text, Type::Empty) => TEXT_SET,
        (Type::Bytes, Type::Empty) => BYTES_SET,
        (Type::Empty, _) => 0,
    }
}

/// The codes of errors that are at a position.
pub const AT_POSITION: [u32; 5] = [OUT_OF_RANGE, MISALIGNED, BAD_KIND, BAD_ENTRY, TOO_DEEP];
/// The codes of errors that are at an entry.
pub const AT_ENTRY: [u32; 3] = [OUT_OF_ORDER, BAD_ITEM, NOT_INCREASING];

#[repr(C)]
#[derive(Clone, Copy, Debug, Default, PartialEq, Eq)]
pub struct Refusal {
    pub code: u32,
    pub at: i64,
    pub found: u64,
    pub allowed: u64,
}

#[repr(C)]
#[derive(Clone, Copy, Debug, Default, PartialEq, Eq)]
pub struct Item {
    pub number: u64,
    pub start: u32,
    pub len: u32,
}

#[repr(C)]
#[derive(Clone, Copy, Debug, Default, PartialEq, Eq)]
pub struct Entry {
    pub key: Item,
    pub value: Item,
}

#[repr(C)]
#[derive(Clone, Copy, Debug, Default, PartialEq, Eq)]
pub struct Piece {
    pub pos: u32,
    pub start: u32,
    pub len: u32,
}

#[repr(C)]
#[derive(Clone, Copy, Debug)]
pub struct Column {
    pub data: *const u8,
    pub data_len: usize,
    pub offsets: *const u8,
    pub offsets_len: usize,
    pub offset_size: u32,
}

#[repr(C)]
#[derive(Clone, Copy, Debug)]
pub struct Map {
    pub data: *const u8,
    pub data_len: usize,
    pub pos: u32,
    pub kind: u32,
}

#[repr(C)]
#[derive(Clone, Copy, Debug)]
pub struct Edit {
    pub data: *mut u8,
    pub data_len: usize,
    pub pos: u32,
    pub kind: u32,
}

#[repr(C)]
#[derive(Clone, Copy, Debug, Default, PartialEq, Eq)]
pub struct Step {
    pub node: u32,
    pub index: u32,
}

#[repr(C)]
#[derive(Clone, Copy, Debug, Default, PartialEq, Eq)]
pub struct Cursor {
    pub node: u32,
    pub next: u32,
    pub end: u32,
    pub depth: u32,
    pub stops: u32,
    pub stop: Step,
    pub path: [Step; 32],
}

const _: () = assert!(size_of::<Refusal>() == 32);
const _: () = assert!(size_of::<Item>() == 16);
const _: () = assert!(size_of::<Entry>() == 32);
const _: () = assert!(size_of::<Piece>() == 12);
const _: () = assert!(size_of::<Column>() == 40);
const _: () = assert!(size_of::<Map>() == 24);
const _: () = assert!(size_of::<Edit>() == 24);
const _: () = assert!(size_of::<Step>() == 8);
const _: () = assert!(size_of::<Cursor>() == 284);

unsafe extern "C" {
    pub fn rkyv_btree_open(
        map: *mut Map,
        kind: u32,
        data: *const u8,
        data_len: usize,
        why: *mut Refusal,
    ) -> u32;
    pub fn rkyv_btree_open_strict(
        map: *mut Map,
        kind: u32,
        data: *const u8,
        data_len: usize,
        why: *mut Refusal,
    ) -> u32;
    pub fn rkyv_btree_len(
        map: *const Map,
        len: *mut u32,
    ) -> u32;
    pub fn rkyv_btree_get_number(
        map: *const Map,
        key: u64,
        entry: *mut Entry,
    ) -> u32;
    pub fn rkyv_btree_get_text(
        map: *const Map,
        key: *const u8,
        key_len: usize,
        entry: *mut Entry,
    ) -> u32;
    pub fn rkyv_btree_find_number(
        kind: u32,
        data: *const u8,
        data_len: usize,
        key: u64,
        entry: *mut Entry,
        why: *mut Refusal,
    ) -> u32;
    pub fn rkyv_btree_find_text(
        kind: u32,
        data: *const u8,
        data_len: usize,
        key: *const u8,
        key_len: usize,
        entry: *mut Entry,
        why: *mut Refusal,
    ) -> u32;
    pub fn rkyv_btree_find_number_in(
        kind: u32,
        size: u64,
        pieces: *const Piece,
        pieces_len: usize,
        data: *const u8,
        data_len: usize,
        key: u64,
        buffer: *mut u8,
        buffer_len: usize,
        value: *mut Item,
        why: *mut Refusal,
    ) -> u32;
    pub fn rkyv_btree_find_text_in(
        kind: u32,
        size: u64,
        pieces: *const Piece,
        pieces_len: usize,
        data: *const u8,
        data_len: usize,
        key: *const u8,
        key_len: usize,
        buffer: *mut u8,
        buffer_len: usize,
        value: *mut Item,
        why: *mut Refusal,
    ) -> u32;
    pub fn rkyv_btree_first(
        map: *const Map,
        cursor: *mut Cursor,
    ) -> u32;
    pub fn rkyv_btree_seek_number(
        map: *const Map,
        key: u64,
        cursor: *mut Cursor,
    ) -> u32;
    pub fn rkyv_btree_seek_text(
        map: *const Map,
        key: *const u8,
        key_len: usize,
        cursor: *mut Cursor,
    ) -> u32;
    pub fn rkyv_btree_next(
        map: *const Map,
        cursor: *mut Cursor,
        entries: *mut Entry,
        entries_len: usize,
        written: *mut usize,
    ) -> u32;
    pub fn rkyv_btree_open_edit(
        edit: *mut Edit,
        kind: u32,
        why: *mut Refusal,
    ) -> u32;
    pub fn rkyv_btree_read_edit(
        map: *mut Map,
        edit: *const Edit,
    ) -> u32;
    pub fn rkyv_btree_set_number(
        edit: *mut Edit,
        key: u64,
        value: u64,
    ) -> u32;
    pub fn rkyv_btree_set_text(
        edit: *mut Edit,
        key: *const u8,
        key_len: usize,
        value: u64,
    ) -> u32;
    pub fn rkyv_btree_build_bound(
        kind: u32,
        entries_len: usize,
        texts_len: usize,
        bound: *mut usize,
    ) -> u32;
    pub fn rkyv_btree_build(
        kind: u32,
        entries: *const Entry,
        entries_len: usize,
        texts: *const u8,
        texts_len: usize,
        out: *mut u8,
        out_len: usize,
        archive_len: *mut usize,
        why: *mut Refusal,
    ) -> u32;
    pub fn rkyv_btree_build_strict(
        kind: u32,
        entries: *const Entry,
        entries_len: usize,
        texts: *const u8,
        texts_len: usize,
        out: *mut u8,
        out_len: usize,
        archive_len: *mut usize,
        why: *mut Refusal,
    ) -> u32;
    pub fn rkyv_btree_build_arrays(
        kind: u32,
        len: usize,
        keys: *const Column,
        values: *const Column,
        out: *mut u8,
        out_len: usize,
        archive_len: *mut usize,
        why: *mut Refusal,
    ) -> u32;
    pub fn rkyv_btree_build_arrays_strict(
        kind: u32,
        len: usize,
        keys: *const Column,
        values: *const Column,
        out: *mut u8,
        out_len: usize,
        archive_len: *mut usize,
        why: *mut Refusal,
    ) -> u32;
    pub fn rkyv_btree_write_header(
        kind: u32,
        out: *mut u8,
        out_len: usize,
        header_len: *mut usize,
    ) -> u32;
    pub fn rkyv_btree_check_header(
        kind: u32,
        data: *const u8,
        data_len: usize,
        why: *mut Refusal,
    ) -> u32;
    pub fn rkyv_btree_type_name(
        kind: u32,
        out: *mut u8,
        out_len: usize,
    ) -> usize;
    pub fn rkyv_btree_strerror(
        code: u32,
        out: *mut u8,
        out_len: usize,
    ) -> usize;
}
