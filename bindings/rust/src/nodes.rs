//! The nodes of an archive, as docs/FORMAT.md lays them out, for code that reads some of its bytes.
use crate::error::Error;
use crate::raw::{self, Type};
use std::ops::Range;

const ENTRIES: usize = 5;
/// More levels than any archive has that the library opens.
pub const LEVELS: u32 = 32;
/// How many bytes a map has itself: the last ones of its archive.
pub const ROOT: u64 = 8;
/// The offset of a pointer to nothing.
const ABSENT: i32 = 1;

/// A key or a value: a number, or the place of a text or of bytes.
#[derive(Clone, Copy, Debug, PartialEq, Eq)]
pub enum Cell {
    Number(u64),
    Signed(i64),
    Text { start: i64, len: u32 },
    Bytes { start: i64, len: u32 },
}

/// A node. A leaf has no children; of an inner node a child that is absent is `None`.
pub struct Node {
    pub keys: Vec<Cell>,
    pub values: Vec<Cell>,
    pub children: Vec<Option<i64>>,
}

/// Where the parts of a node are in an archive of `size` bytes.
#[derive(Clone, Copy)]
pub struct Layout {
    key: Type,
    value: Type,
    pub size: u64,
    keys_at: u64,
    values_at: u64,
    len_at: u64,
    align: u64,
    pub leaf_size: u64,
    inner_size: u64,
}

/// Returns the error with a code that is at a position.
fn refused(code: u32, at: i64) -> Error {
    Error::refused(raw::Refusal { code, at, ..raw::Refusal::default() })
}

/// Returns the number whose bytes are those of `data` from `at` on, the least first.
fn number(data: &[u8], at: u64, bytes: u64) -> u64 {
    let part = data.get(at as usize..(at + bytes) as usize).unwrap_or_default();
    part.iter().rev().fold(0, |number, byte| number << 8 | u64::from(*byte))
}

fn offset(data: &[u8], at: u64) -> i32 {
    number(data, at, 4) as u32 as i32
}

impl Layout {
    pub fn new(key: Type, value: Type, size: u64) -> Layout {
        let ((key_size, key_align), (value_size, value_align)) = (key.layout(), value.layout());
        let (entries, both) = (ENTRIES as u64, key_align.max(value_align));
        let keys_at = key_align;
        let values_at = (keys_at + entries * key_size).next_multiple_of(value_align);
        let len_at = (values_at + entries * value_size).next_multiple_of(both).next_multiple_of(4);
        let align = both.max(4);
        Layout {
            key,
            value,
            size,
            keys_at,
            values_at,
            len_at,
            align,
            leaf_size: (len_at + 4).next_multiple_of(align),
            inner_size: (len_at + 4 * entries + 4).next_multiple_of(align),
        }
    }

    /// Returns where the map's own bytes begin.
    ///
    /// # Errors
    ///
    /// If the archive is shorter than they are, or longer than any can be.
    pub fn root_at(&self) -> Result<u64, Error> {
        match self.size.checked_sub(ROOT) {
            _ if self.size > u64::from(u32::MAX) => Err(refused(raw::TOO_LONG, 0)),
            None => Err(refused(raw::OUT_OF_RANGE, 0)),
            Some(at) => Ok(at),
        }
    }

    /// Returns the position of the root node and the number of entries, of the map's own bytes.
    pub fn root(&self, own: &[u8]) -> (i64, u64) {
        ((self.size - ROOT) as i64 + i64::from(offset(own, 0)), number(own, 4, 4))
    }

    /// Returns a position at which a leaf has room.
    ///
    /// # Errors
    ///
    /// If it has none there, or the position isn't a multiple of the alignment.
    pub fn checked(&self, pos: i64) -> Result<u64, Error> {
        match u64::try_from(pos) {
            Ok(at) if at + self.leaf_size <= self.size => match at % self.align {
                0 => Ok(at),
                _ => Err(refused(raw::MISALIGNED, pos)),
            },
            _ => Err(refused(raw::OUT_OF_RANGE, pos)),
        }
    }

    /// Returns how many bytes a node has, whose first byte is `kind`.
    ///
    /// # Errors
    ///
    /// If the byte is no kind, or the archive ends before the node does.
    pub fn size_of(&self, kind: u8, pos: u64) -> Result<u64, Error> {
        let size = match kind {
            0 => self.leaf_size,
            1 => self.inner_size,
            _ => {
                let found = u64::from(kind);
                return Err(Error::refused(raw::Refusal { code: raw::BAD_KIND, at: pos as i64, found, allowed: 1 }));
            }
        };
        (pos + size <= self.size).then_some(size).ok_or_else(|| refused(raw::OUT_OF_RANGE, pos as i64))
    }

    /// Returns the node at a position whose bytes are `data`.
    ///
    /// # Errors
    ///
    /// If it is a leaf with more entries than a node has.
    pub fn node(&self, pos: u64, data: &[u8]) -> Result<Node, Error> {
        let is_inner = data.first() == Some(&1);
        let len = if is_inner { ENTRIES as u64 } else { number(data, self.len_at, 4) };
        if len > ENTRIES as u64 {
            let why = raw::Refusal { code: raw::INVALID_LENGTH, at: 0, found: len, allowed: ENTRIES as u64 };
            return Err(Error::refused(why));
        }
        let offsets = (0..=ENTRIES as u64).map(|n| self.len_at + 4 * n).map(|at| (at, offset(data, at)));
        let child = |(at, offset)| (offset != ABSENT).then_some((pos + at) as i64 + i64::from(offset));
        Ok(Node {
            keys: cells(self.key, pos, data, self.keys_at, len),
            values: cells(self.value, pos, data, self.values_at, len),
            children: if is_inner { offsets.map(child).collect() } else { Vec::new() },
        })
    }

    /// Returns the part of the archive that a text is, or bytes.
    ///
    /// # Errors
    ///
    /// If they aren't within the archive.
    pub fn bytes_at(&self, start: i64, len: u32) -> Result<Range<u64>, Error> {
        let end = start + i64::from(len);
        match (u64::try_from(start), u64::try_from(end)) {
            (Ok(start), Ok(end)) if end <= self.size => Ok(start..end),
            _ => Err(refused(raw::OUT_OF_RANGE, start)),
        }
    }
}

/// Returns the first `len` keys or values of a node, which begin at `at`.
fn cells(kind: Type, pos: u64, data: &[u8], at: u64, len: u64) -> Vec<Cell> {
    let size = kind.layout().0;
    let places = (0..len).map(|n| at + n * size);
    let pointed = places.clone().map(|place| {
        let start = (pos + place) as i64 + i64::from(offset(data, place));
        (start, number(data, place + 4, 4) as u32)
    });
    match kind {
        Type::U32 | Type::U64 => places.map(|place| Cell::Number(number(data, place, size))).collect(),
        Type::Empty => places.map(|_| Cell::Number(0)).collect(),
        Type::I64 => places.map(|place| Cell::Signed(number(data, place, size) as i64)).collect(),
        Type::Text => pointed.map(|(start, len)| Cell::Text { start, len }).collect(),
        Type::Bytes => pointed.map(|(start, len)| Cell::Bytes { start, len }).collect(),
    }
}

/// Returns a text.
///
/// # Errors
///
/// If its bytes, which are at `start`, aren't UTF-8.
pub fn decoded(start: u64, data: Vec<u8>) -> Result<String, Error> {
    String::from_utf8(data).map_err(|_| refused(raw::BAD_ENTRY, start as i64))
}
