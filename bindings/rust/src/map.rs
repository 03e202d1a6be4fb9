use crate::error::Error;
use crate::field::sealed::{Passed, Query, Stored};
use crate::field::{AsKey, Field};
use crate::header::check_type;
use crate::raw;
use std::cmp::Ordering;
use std::fmt;
use std::iter::FusedIterator;
use std::marker::PhantomData;
use std::ops::{Bound, Index, RangeBounds};
use std::ptr;

const BATCH: usize = 32;

/// Returns the number that the header has for a map's type.
pub(crate) const fn type_number<'a, K: Field<'a>, V: Field<'a>>() -> u32 {
    raw::number_of(K::TYPE, V::TYPE)
}

/// A map in a buffer, which is borrowed and so doesn't change.
#[derive(Clone, Copy)]
pub struct Map<'a, K, V> {
    raw: raw::Map,
    data: &'a [u8],
    of: PhantomData<(K, V)>,
}

// SAFETY: reading calls write through no pointer of the map, and the buffer is a shared borrow.
unsafe impl<K, V> Send for Map<'_, K, V> {}
// SAFETY: the same.
unsafe impl<K, V> Sync for Map<'_, K, V> {}

type Open = unsafe extern "C" fn(*mut raw::Map, u32, *const u8, usize, *mut raw::Refusal) -> u32;

impl<'a, K: Field<'a>, V: Field<'a>> Map<'a, K, V> {
    /// Validates a whole archive, whose own bytes are the last eight. A typed file must be of the map's type.
    ///
    /// # Errors
    ///
    /// The bytes are a typed file of another type or another version, or the first fault for which they are no map.
    pub fn open(data: &'a [u8]) -> Result<Map<'a, K, V>, Error> {
        check_type(type_number::<K, V>(), data)?;
        Map::open_untyped(data)
    }

    /// Validates a whole archive, and looks at no header. So an untyped archive is opened whose first bytes are those of a header by
    /// chance, as those of a text can be.
    ///
    /// # Errors
    ///
    /// The first fault for which the bytes are no map.
    pub fn open_untyped(data: &'a [u8]) -> Result<Map<'a, K, V>, Error> {
        Map::open_by(data, raw::rkyv_btree_open)
    }

    /// Validates a whole archive whose keys increase. A lookup in it finds each key, and a range has all that is in it.
    ///
    /// # Errors
    ///
    /// The bytes are a typed file of another type or another version, or the first fault for which they are no such map.
    pub fn open_strict(data: &'a [u8]) -> Result<Map<'a, K, V>, Error> {
        check_type(type_number::<K, V>(), data)?;
        Map::open_strict_untyped(data)
    }

    /// Validates a whole archive whose keys increase, and looks at no header.
    ///
    /// # Errors
    ///
    /// The first fault for which the bytes are no such map.
    pub fn open_strict_untyped(data: &'a [u8]) -> Result<Map<'a, K, V>, Error> {
        Map::open_by(data, raw::rkyv_btree_open_strict)
    }

    /// Returns the map that the library has opened in `data`.
    pub(crate) fn of(raw: raw::Map, data: &'a [u8]) -> Map<'a, K, V> {
        Map { raw, data, of: PhantomData }
    }

    fn open_by(data: &'a [u8], open: Open) -> Result<Map<'a, K, V>, Error> {
        let mut raw = raw::Map { data: ptr::null(), data_len: 0, pos: 0, kind: 0 };
        let mut why = raw::Refusal::default();
        // SAFETY: pointer and length are those of one slice, which is borrowed as long as the map is there.
        let code = unsafe { open(&mut raw, type_number::<K, V>(), data.as_ptr(), data.len(), &mut why) };
        match code {
            raw::OK => Ok(Map::of(raw, data)),
            _ => Err(Error::refused(raw::Refusal { code, ..why })),
        }
    }

    /// Returns the number of entries.
    pub fn len(&self) -> usize {
        let mut len = 0;
        // SAFETY: the map is open.
        unsafe { raw::rkyv_btree_len(&self.raw, &mut len) };
        len as usize
    }

    /// Returns whether there are no entries.
    pub fn is_empty(&self) -> bool {
        self.len() == 0
    }

    /// Returns the value of a key. If the keys don't increase, a key may be there and not be found.
    pub fn get(&self, key: impl AsKey<K>) -> Option<V> {
        self.get_key_value(key).map(|entry| entry.1)
    }

    /// Returns the map's own key that is equal to a key, and its value. If the keys don't increase, a key may be there and not be found.
    pub fn get_key_value(&self, key: impl AsKey<K>) -> Option<(K, V)> {
        let mut entry = raw::Entry::default();
        let code = match key.query().passed() {
            // SAFETY: the map is open.
            Passed::Number(number) => unsafe {
                raw::rkyv_btree_get_number(&self.raw, number, &mut entry)
            },
            // SAFETY: the map is open, and the bytes are borrowed during the call.
            Passed::Bytes(bytes) => unsafe {
                raw::rkyv_btree_get_text(&self.raw, bytes.as_ptr(), bytes.len(), &mut entry)
            },
        };
        (code == raw::OK).then(|| (K::read(self.data, entry.key), V::read(self.data, entry.value)))
    }

    /// Returns whether the map has a key.
    pub fn contains_key(&self, key: impl AsKey<K>) -> bool {
        self.get(key).is_some()
    }

    /// Returns an iterator over the entries, in their order.
    pub fn iter(&self) -> Iter<'a, K, V> {
        let mut cursor = raw::Cursor::default();
        // SAFETY: the map is open.
        unsafe { raw::rkyv_btree_first(&self.raw, &mut cursor) };
        Iter { entries: Entries::at(*self, cursor), left: self.len() }
    }

    /// Returns an iterator over the keys, in the order of the entries.
    pub fn keys(&self) -> Keys<'a, K, V> {
        Keys { iter: self.iter() }
    }

    /// Returns an iterator over the values, in the order of the entries.
    pub fn values(&self) -> Values<'a, K, V> {
        Values { iter: self.iter() }
    }

    /// Returns an iterator over the entries whose keys are within the bounds, if the keys increase.
    pub fn range<Q: AsKey<K>, R: RangeBounds<Q>>(&self, range: R) -> Range<'a, K, V, Q, R> {
        let mut cursor = raw::Cursor::default();
        match range.start_bound() {
            // SAFETY: the map is open.
            Bound::Unbounded => unsafe {
                raw::rkyv_btree_first(&self.raw, &mut cursor);
            },
            Bound::Included(key) | Bound::Excluded(key) => match key.query().passed() {
                // SAFETY: the map is open.
                Passed::Number(number) => unsafe {
                    raw::rkyv_btree_seek_number(&self.raw, number, &mut cursor);
                },
                // SAFETY: the map is open, and the bytes are borrowed during the call.
                Passed::Bytes(bytes) => unsafe {
                    raw::rkyv_btree_seek_text(&self.raw, bytes.as_ptr(), bytes.len(), &mut cursor);
                },
            },
        }
        Range { entries: Entries::at(*self, cursor), range, of: PhantomData }
    }
}

impl<'a, K: Field<'a>, Q: AsKey<K>> Index<Q> for Map<'a, K, &'a str> {
    type Output = str;

    /// Returns the text of a key.
    ///
    /// # Panics
    ///
    /// If the key isn't found.
    fn index(&self, key: Q) -> &str {
        self.get(key).expect("no such key")
    }
}

impl<'a, K: Field<'a>, Q: AsKey<K>> Index<Q> for Map<'a, K, &'a [u8]> {
    type Output = [u8];

    /// Returns the bytes of a key.
    ///
    /// # Panics
    ///
    /// If the key isn't found.
    fn index(&self, key: Q) -> &[u8] {
        self.get(key).expect("no such key")
    }
}

impl<'a, K: Field<'a> + fmt::Debug, V: Field<'a> + fmt::Debug> fmt::Debug for Map<'a, K, V> {
    fn fmt(&self, f: &mut fmt::Formatter<'_>) -> fmt::Result {
        f.debug_map().entries(self.iter()).finish()
    }
}

impl<'a, K: Field<'a>, V: Field<'a>> IntoIterator for Map<'a, K, V> {
    type Item = (K, V);
    type IntoIter = Iter<'a, K, V>;

    fn into_iter(self) -> Iter<'a, K, V> {
        self.iter()
    }
}

impl<'a, K: Field<'a>, V: Field<'a>> IntoIterator for &Map<'a, K, V> {
    type Item = (K, V);
    type IntoIter = Iter<'a, K, V>;

    fn into_iter(self) -> Iter<'a, K, V> {
        self.iter()
    }
}

/// The entries of a map from a cursor on, as the library writes them.
struct Entries<'a, K, V> {
    map: Map<'a, K, V>,
    cursor: raw::Cursor,
    batch: [raw::Entry; BATCH],
    next: usize,
    end: usize,
}

impl<'a, K: Field<'a>, V: Field<'a>> Entries<'a, K, V> {
    fn at(map: Map<'a, K, V>, cursor: raw::Cursor) -> Entries<'a, K, V> {
        Entries { map, cursor, batch: [raw::Entry::default(); BATCH], next: BATCH, end: BATCH }
    }

    /// Takes the next entry. A batch that isn't full was the last.
    fn next_entry(&mut self) -> Option<raw::Entry> {
        if self.next == self.end {
            if self.end < BATCH {
                return None;
            }
            self.next = 0;
            self.end = 0;
            // SAFETY: the map is open, and pointer and length are those of one array.
            unsafe {
                raw::rkyv_btree_next(
                    &self.map.raw,
                    &mut self.cursor,
                    self.batch.as_mut_ptr(),
                    BATCH,
                    &mut self.end,
                )
            };
        }
        let entry = *self.batch.get(self.next).filter(|_| self.next < self.end)?;
        self.next += 1;
        Some(entry)
    }
}

/// The entries of a map, in their order.
pub struct Iter<'a, K, V> {
    entries: Entries<'a, K, V>,
    left: usize,
}

impl<'a, K: Field<'a>, V: Field<'a>> Iterator for Iter<'a, K, V> {
    type Item = (K, V);

    fn next(&mut self) -> Option<(K, V)> {
        let entry = self.entries.next_entry()?;
        self.left -= 1;
        let data = self.entries.map.data;
        Some((K::read(data, entry.key), V::read(data, entry.value)))
    }

    fn size_hint(&self) -> (usize, Option<usize>) {
        (self.left, Some(self.left))
    }
}

impl<'a, K: Field<'a>, V: Field<'a>> ExactSizeIterator for Iter<'a, K, V> {}

impl<'a, K: Field<'a>, V: Field<'a>> FusedIterator for Iter<'a, K, V> {}

/// The keys of a map, in the order of the entries.
pub struct Keys<'a, K, V> {
    iter: Iter<'a, K, V>,
}

impl<'a, K: Field<'a>, V: Field<'a>> Iterator for Keys<'a, K, V> {
    type Item = K;

    fn next(&mut self) -> Option<K> {
        self.iter.next().map(|entry| entry.0)
    }

    fn size_hint(&self) -> (usize, Option<usize>) {
        self.iter.size_hint()
    }
}

impl<'a, K: Field<'a>, V: Field<'a>> ExactSizeIterator for Keys<'a, K, V> {}

impl<'a, K: Field<'a>, V: Field<'a>> FusedIterator for Keys<'a, K, V> {}

/// The values of a map, in the order of the entries.
pub struct Values<'a, K, V> {
    iter: Iter<'a, K, V>,
}

impl<'a, K: Field<'a>, V: Field<'a>> Iterator for Values<'a, K, V> {
    type Item = V;

    fn next(&mut self) -> Option<V> {
        self.iter.next().map(|entry| entry.1)
    }

    fn size_hint(&self) -> (usize, Option<usize>) {
        self.iter.size_hint()
    }
}

impl<'a, K: Field<'a>, V: Field<'a>> ExactSizeIterator for Values<'a, K, V> {}

impl<'a, K: Field<'a>, V: Field<'a>> FusedIterator for Values<'a, K, V> {}

/// The entries of a map between two bounds, in their order.
pub struct Range<'a, K, V, Q, R> {
    entries: Entries<'a, K, V>,
    range: R,
    of: PhantomData<Q>,
}

/// Compares a key of a map with a query.
fn compare(data: &[u8], key: raw::Item, query: Query<'_>) -> Ordering {
    match query {
        Query::Number(number) => key.number.cmp(&number),
        Query::Signed(number) => (key.number as i64).cmp(&number),
        Query::Text(text) => <&[u8]>::read(data, key).cmp(text.as_bytes()),
        Query::Bytes(bytes) => <&[u8]>::read(data, key).cmp(bytes),
    }
}

impl<'a, K: Field<'a>, V: Field<'a>, Q: AsKey<K>, R: RangeBounds<Q>> Iterator for Range<'a, K, V, Q, R> {
    type Item = (K, V);

    fn next(&mut self) -> Option<(K, V)> {
        let data = self.entries.map.data;
        let mut entry = self.entries.next_entry()?;
        if let Bound::Excluded(low) = self.range.start_bound() {
            while compare(data, entry.key, low.query()) == Ordering::Equal {
                entry = self.entries.next_entry()?;
            }
        }
        let within = match self.range.end_bound() {
            Bound::Unbounded => true,
            Bound::Included(high) => compare(data, entry.key, high.query()) != Ordering::Greater,
            Bound::Excluded(high) => compare(data, entry.key, high.query()) == Ordering::Less,
        };
        within.then(|| (K::read(data, entry.key), V::read(data, entry.value)))
    }
}
