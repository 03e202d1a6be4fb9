mod blocks;
mod entries;
mod pieces;

use crate::error::Error;
use crate::field::sealed::Query;
use crate::field::{AsKey, Field, Nothing};
use crate::header::check_type;
use crate::map::type_number;
use crate::raw;
use crate::top::{Kept, Top, TopError};
use blocks::Blocks;
pub use entries::{RemoteKeys, RemoteRange};
use pieces::{Pieces, Step};
use std::fmt;
use std::fs::File;
use std::io::{self, Read, Seek, SeekFrom};
use std::ops::{Range, RangeBounds};
use std::slice;

/// How many of the first bytes are read for a header.
const FIRST: u64 = 4096;

/// What reads parts of an archive that lies elsewhere: a file, or a closure that takes a position and a buffer.
pub trait ReadRange {
    /// Why a part isn't read.
    type Error;

    /// Fills the buffer with the archive's bytes from a position on.
    ///
    /// All bytes must be those of one archive. If the object can change, it must fail when it has.
    ///
    /// # Errors
    ///
    /// If it doesn't have all of these bytes.
    fn read_range(&mut self, position: u64, buffer: &mut [u8]) -> Result<(), Self::Error>;
}

impl<E, F: FnMut(u64, &mut [u8]) -> Result<(), E>> ReadRange for F {
    type Error = E;

    fn read_range(&mut self, position: u64, buffer: &mut [u8]) -> Result<(), E> {
        self(position, buffer)
    }
}

impl ReadRange for File {
    type Error = io::Error;

    fn read_range(&mut self, position: u64, buffer: &mut [u8]) -> io::Result<()> {
        self.seek(SeekFrom::Start(position))?;
        self.read_exact(buffer)
    }
}

/// Why a lookup over parts fails.
#[derive(Debug, Clone, Copy, PartialEq, Eq)]
pub enum RemoteError<E> {
    /// A part isn't read.
    Read(E),
    /// What the lookup reads has a fault.
    Archive(Error),
}

impl<E> From<Error> for RemoteError<E> {
    fn from(error: Error) -> RemoteError<E> {
        RemoteError::Archive(error)
    }
}

impl<E: fmt::Display> fmt::Display for RemoteError<E> {
    fn fmt(&self, f: &mut fmt::Formatter<'_>) -> fmt::Result {
        match self {
            RemoteError::Read(error) => error.fmt(f),
            RemoteError::Archive(error) => error.fmt(f),
        }
    }
}

impl<E: std::error::Error + 'static> std::error::Error for RemoteError<E> {
    fn source(&self) -> Option<&(dyn std::error::Error + 'static)> {
        match self {
            RemoteError::Read(error) => Some(error),
            RemoteError::Archive(error) => Some(error),
        }
    }
}

/// An archive that lies elsewhere, in which keys are looked up by a few reads of parts.
///
/// A lookup validates what it reads, and so promises what [`find`](crate::find) does. It reads in blocks, of which those last used are kept.
///
/// # Examples
///
/// ```
/// let bytes = rkyv_btree::Builder::new().entry("apple", 3u32).entry("pear", 5).build()?;
/// let read = |position: u64, buffer: &mut [u8]| {
///     let start = position as usize;
///     bytes.get(start..start + buffer.len()).map(|part| buffer.copy_from_slice(part)).ok_or("the archive is shorter")
/// };
/// let mut prices = rkyv_btree::Remote::new(read, bytes.len() as u64);
/// assert_eq!(prices.get::<&str, u32>("pear"), Ok(Some(5)));
/// assert_eq!(prices.get::<&str, u32>("fig"), Ok(None));
/// # Ok::<(), rkyv_btree::Error>(())
/// ```
pub struct Remote<R> {
    reader: R,
    size: u64,
    blocks: Blocks,
    top: Kept,
    /// What a lookup needs beside the pieces. The text that it finds is there.
    room: Vec<u8>,
    /// The texts that the last `get_many` found.
    texts: Vec<u8>,
}

/// How far a lookup goes in what is at hand.
enum Reached {
    Found(raw::Item),
    Absent,
    Missing(Range<u64>),
}

impl<R: ReadRange> Remote<R> {
    /// Returns the archive of `size` bytes that `reader` reads, in blocks of 16 KiB, of which 8 MiB are kept. Nothing is read yet.
    pub fn new(reader: R, size: u64) -> Remote<R> {
        Remote::with_blocks(reader, size, 16384, 512)
    }

    /// Returns the same with blocks of `block` bytes, of which up to `most` are kept between two lookups. A block has at least one byte.
    pub fn with_blocks(reader: R, size: u64, block: u32, most: usize) -> Remote<R> {
        let blocks = Blocks::new(size, block, most);
        Remote { reader, size, blocks, top: Kept::default(), room: vec![0; 4096], texts: Vec::new() }
    }

    /// Returns the same with a sidecar of the archive, with which a lookup reads less. It must be that of this archive.
    ///
    /// # Errors
    ///
    /// If it is that of an archive of another type or size. Nothing else is compared.
    pub fn with_top<'k, K: Field<'k>, V: Field<'k>>(mut self, top: Top) -> Result<Remote<R>, TopError> {
        self.top = top.pieces_of(type_number::<K, V>(), self.size)?;
        Ok(self)
    }

    /// Reads the header of a typed file of a map. No other call reads a header. Up to 4096 bytes are read for it; one that is longer
    /// counts as none, as an untyped archive has.
    ///
    /// # Errors
    ///
    /// What the reader fails with, or that the header is that of another type or another version.
    pub fn check_type<'k, K: Field<'k>, V: Field<'k>>(&mut self) -> Result<(), RemoteError<R::Error>> {
        let first = self.part(0..self.size.min(FIRST)).map_err(RemoteError::Read)?;
        Ok(check_type(type_number::<K, V>(), &first)?)
    }

    /// Reads the header of a typed file of a set, as `check_type` does that of a map.
    ///
    /// # Errors
    ///
    /// As of `check_type`.
    pub fn check_set_type<'k, K: Field<'k>>(&mut self) -> Result<(), RemoteError<R::Error>> {
        self.check_type::<K, Nothing>()
    }

    /// Returns the value of a key. A text is borrowed until the next lookup.
    ///
    /// # Errors
    ///
    /// What the reader fails with, or the first fault in what the lookup reads. A later lookup reads again.
    pub fn get<'s, K: Field<'s>, V: Field<'s>>(&'s mut self, key: impl AsKey<K>) -> Result<Option<V>, RemoteError<R::Error>> {
        let mut pieces = Pieces::default();
        let found = loop {
            match self.reach(type_number::<K, V>(), key.query(), &mut pieces)? {
                Reached::Found(value) => break Some(value),
                Reached::Absent => break None,
                Reached::Missing(part) => {
                    self.read(slice::from_ref(&part))?;
                    pieces.add_of(&mut self.blocks, &part);
                }
            }
        };
        self.blocks.shrink();
        Ok(found.map(|value| V::read(&self.room, value)))
    }

    /// Returns whether a set has a key.
    ///
    /// # Errors
    ///
    /// As of `get`.
    pub fn contains<'s, K: Field<'s>>(&'s mut self, key: impl AsKey<K>) -> Result<bool, RemoteError<R::Error>> {
        Ok(self.get::<K, Nothing>(key)?.is_some())
    }

    /// Returns of each of the keys whether a set has it, in the order of the keys. All lookups go on together, as those of `get_many`.
    ///
    /// # Errors
    ///
    /// As of `get`, for the first of them that fails.
    pub fn contains_many<'s, K: Field<'s>, Q: AsKey<K>>(
        &'s mut self,
        keys: impl IntoIterator<Item = Q>,
    ) -> Result<Vec<bool>, RemoteError<R::Error>> {
        let found = self.get_many::<K, Nothing, Q>(keys)?;
        Ok(found.iter().map(Option::is_some).collect())
    }

    /// Returns the values of keys, in the order of the keys. All lookups go on together: each block is read once for all of them. Texts
    /// are borrowed until the next lookup.
    ///
    /// # Errors
    ///
    /// As of `get`, for the first of them that fails.
    pub fn get_many<'s, K: Field<'s>, V: Field<'s>, Q: AsKey<K>>(
        &'s mut self,
        keys: impl IntoIterator<Item = Q>,
    ) -> Result<Vec<Option<V>>, RemoteError<R::Error>> {
        let keys: Vec<Q> = keys.into_iter().collect();
        let mut found = vec![None; keys.len()];
        let mut searches: Vec<(usize, Pieces)> = (0..keys.len()).map(|at| (at, Pieces::default())).collect();
        self.texts.clear();
        while !searches.is_empty() {
            let (mut waiting, mut parts) = (Vec::new(), Vec::new());
            for (at, mut pieces) in searches {
                match self.reach(type_number::<K, V>(), keys[at].query(), &mut pieces)? {
                    Reached::Found(value) => found[at] = Some(self.kept(value)),
                    Reached::Absent => {}
                    Reached::Missing(part) => {
                        parts.push(part);
                        waiting.push((at, pieces));
                    }
                }
            }
            self.read(&parts)?;
            for ((_, pieces), part) in waiting.iter_mut().zip(&parts) {
                pieces.add_of(&mut self.blocks, part);
            }
            self.blocks.shrink();
            searches = waiting;
        }
        let texts = &self.texts;
        Ok(found.into_iter().map(|value| value.map(|value| V::read(texts, value))).collect())
    }

    /// Returns an iterator over the entries whose keys are within the bounds. It validates the nodes that it reads, and that the keys
    /// increase. Its texts are `String`s. It makes one read for each block, so a long range wants larger blocks.
    ///
    /// # Errors
    ///
    /// An item is what the reader fails with, or the first fault in what is read. It is the last item.
    ///
    /// # Examples
    ///
    /// ```
    /// let bytes = rkyv_btree::Builder::new().entry("apple", 3u32).entry("pear", 5).build()?;
    /// let read = |position: u64, buffer: &mut [u8]| {
    ///     let start = position as usize;
    ///     bytes.get(start..start + buffer.len()).map(|part| buffer.copy_from_slice(part)).ok_or("the archive is shorter")
    /// };
    /// let mut prices = rkyv_btree::Remote::new(read, bytes.len() as u64);
    /// let from_b: Result<Vec<_>, _> = prices.range::<&str, u32, _>("b"..).collect();
    /// assert_eq!(from_b, Ok(vec![("pear".to_string(), 5)]));
    /// # Ok::<(), rkyv_btree::Error>(())
    /// ```
    pub fn range<'r, K: Field<'r>, V: Field<'r>, Q: AsKey<K>>(&'r mut self, bounds: impl RangeBounds<Q>) -> RemoteRange<'r, R, K, V> {
        RemoteRange::new(self, bounds)
    }

    /// Returns an iterator over the keys of a set that are within the bounds. It validates what `range` does, and its texts are `String`s.
    ///
    /// # Errors
    ///
    /// As of `range`.
    pub fn keys<'r, K: Field<'r>, Q: AsKey<K>>(&'r mut self, bounds: impl RangeBounds<Q>) -> RemoteKeys<'r, R, K> {
        RemoteKeys::new(self, bounds)
    }

    /// Returns what reads the parts.
    pub fn into_reader(self) -> R {
        self.reader
    }

    /// Looks a key up as far as its pieces and those of the sidecar go, which are added.
    fn reach(&mut self, kind: u32, query: Query<'_>, pieces: &mut Pieces) -> Result<Reached, Error> {
        loop {
            match pieces.step(kind, self.size, query, &mut self.room) {
                Step::Found(value) => return Ok(Reached::Found(value)),
                Step::Absent => return Ok(Reached::Absent),
                Step::Room(len) => self.room.resize(len, 0),
                Step::Missing(part) => match self.top.with(part.start, part.end) {
                    Some((at, piece)) => pieces.add(at, piece, &part),
                    None => return Ok(Reached::Missing(part)),
                },
                Step::Refused(refusal) => return Err(Error::refused(refusal)),
            }
        }
    }

    /// Moves the text of a value from the room to those of `get_many`.
    fn kept(&mut self, value: raw::Item) -> raw::Item {
        let (from, start) = (value.start as usize, self.texts.len());
        self.texts.extend_from_slice(&self.room[from..from + value.len as usize]);
        raw::Item { start: start as u32, ..value }
    }

    fn read(&mut self, parts: &[Range<u64>]) -> Result<(), RemoteError<R::Error>> {
        self.blocks.read(&mut self.reader, parts, !self.top.is_empty()).map_err(RemoteError::Read)
    }

    /// Returns the bytes of a part.
    fn part(&mut self, part: Range<u64>) -> Result<Vec<u8>, R::Error> {
        if let Some((at, piece)) = self.top.with(part.start, part.end) {
            return Ok(piece[(part.start - at) as usize..(part.end - at) as usize].to_vec());
        }
        self.blocks.read(&mut self.reader, slice::from_ref(&part), !self.top.is_empty())?;
        let mut data = Vec::new();
        self.blocks.copy(part.start, part.end, &mut data);
        self.blocks.shrink();
        Ok(data)
    }
}
