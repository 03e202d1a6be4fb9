use crate::builder::Builder;
use crate::error::Error;
use crate::field::{AsKey, Field, Nothing};
use crate::find::{find, find_untyped};
use crate::map::{self, Map};
use std::fmt;
use std::iter::FusedIterator;
use std::ops::RangeBounds;

/// A set in a buffer, which is borrowed and so doesn't change.
///
/// # Examples
///
/// ```
/// let bytes = rkyv_btree::SetBuilder::from_iter(["apple", "pear"]).build()?;
/// let fruit = rkyv_btree::Set::<&str>::open(&bytes)?;
/// assert!(fruit.contains("pear") && !fruit.contains("fig"));
/// assert_eq!(fruit.range("b"..).collect::<Vec<_>>(), ["pear"]);
/// # Ok::<(), rkyv_btree::Error>(())
/// ```
#[derive(Clone, Copy)]
pub struct Set<'a, K> {
    map: Map<'a, K, Nothing>,
}

impl<'a, K: Field<'a>> Set<'a, K> {
    /// Validates a whole archive, whose own bytes are the last eight. A typed file must be of the set's type.
    ///
    /// # Errors
    ///
    /// As of [`Map::open`].
    pub fn open(data: &'a [u8]) -> Result<Set<'a, K>, Error> {
        Ok(Set { map: Map::open(data)? })
    }

    /// Validates a whole archive, and looks at no header, as [`Map::open_untyped`] does.
    ///
    /// # Errors
    ///
    /// The first fault for which the bytes are no set.
    pub fn open_untyped(data: &'a [u8]) -> Result<Set<'a, K>, Error> {
        Ok(Set { map: Map::open_untyped(data)? })
    }

    /// Validates a whole archive whose keys increase. A lookup in it finds each key, and a range has all that is in it.
    ///
    /// # Errors
    ///
    /// As of [`Map::open_strict`].
    pub fn open_strict(data: &'a [u8]) -> Result<Set<'a, K>, Error> {
        Ok(Set { map: Map::open_strict(data)? })
    }

    /// Validates a whole archive whose keys increase, and looks at no header.
    ///
    /// # Errors
    ///
    /// The first fault for which the bytes are no such set.
    pub fn open_strict_untyped(data: &'a [u8]) -> Result<Set<'a, K>, Error> {
        Ok(Set { map: Map::open_strict_untyped(data)? })
    }

    /// Returns the number of keys.
    pub fn len(&self) -> usize {
        self.map.len()
    }

    /// Returns whether there are no keys.
    pub fn is_empty(&self) -> bool {
        self.map.is_empty()
    }

    /// Returns whether the set has a key. If the keys don't increase, a key may be there and not be found.
    pub fn contains(&self, key: impl AsKey<K>) -> bool {
        self.map.contains_key(key)
    }

    /// Returns the set's own key that is equal to a key. If the keys don't increase, a key may be there and not be found.
    pub fn get(&self, key: impl AsKey<K>) -> Option<K> {
        self.map.get_key_value(key).map(|entry| entry.0)
    }

    /// Returns an iterator over the keys, in their order.
    pub fn iter(&self) -> SetIter<'a, K> {
        SetIter { keys: self.map.keys() }
    }

    /// Returns an iterator over the keys within the bounds, if the keys increase.
    pub fn range<Q: AsKey<K>, R: RangeBounds<Q>>(&self, range: R) -> SetRange<'a, K, Q, R> {
        SetRange { entries: self.map.range(range) }
    }
}

/// Returns whether a key is in bytes that nobody has validated, as the archive of a set. The lookup validates what it reads.
///
/// On an archive that is what `Set::contains` returns for the opened set. On other bytes `Ok(false)` doesn't mean that the key is absent.
///
/// # Errors
///
/// As of [`find`].
pub fn contains<'a, K: Field<'a>>(data: &'a [u8], key: impl AsKey<K>) -> Result<bool, Error> {
    Ok(find::<K, Nothing>(data, key)?.is_some())
}

/// Returns what `contains` does, and looks at no header.
///
/// # Errors
///
/// The first fault in what the lookup reads.
pub fn contains_untyped<'a, K: Field<'a>>(data: &'a [u8], key: impl AsKey<K>) -> Result<bool, Error> {
    Ok(find_untyped::<K, Nothing>(data, key)?.is_some())
}

impl<'a, K: Field<'a> + fmt::Debug> fmt::Debug for Set<'a, K> {
    fn fmt(&self, f: &mut fmt::Formatter<'_>) -> fmt::Result {
        f.debug_set().entries(self.iter()).finish()
    }
}

impl<'a, K: Field<'a>> IntoIterator for Set<'a, K> {
    type Item = K;
    type IntoIter = SetIter<'a, K>;

    fn into_iter(self) -> SetIter<'a, K> {
        self.iter()
    }
}

impl<'a, K: Field<'a>> IntoIterator for &Set<'a, K> {
    type Item = K;
    type IntoIter = SetIter<'a, K>;

    fn into_iter(self) -> SetIter<'a, K> {
        self.iter()
    }
}

/// The keys of a set, in their order.
pub struct SetIter<'a, K> {
    keys: map::Keys<'a, K, Nothing>,
}

impl<'a, K: Field<'a>> Iterator for SetIter<'a, K> {
    type Item = K;

    fn next(&mut self) -> Option<K> {
        self.keys.next()
    }

    fn size_hint(&self) -> (usize, Option<usize>) {
        self.keys.size_hint()
    }
}

impl<'a, K: Field<'a>> ExactSizeIterator for SetIter<'a, K> {}

impl<'a, K: Field<'a>> FusedIterator for SetIter<'a, K> {}

/// The keys of a set between two bounds, in their order.
pub struct SetRange<'a, K, Q, R> {
    entries: map::Range<'a, K, Nothing, Q, R>,
}

impl<'a, K: Field<'a>, Q: AsKey<K>, R: RangeBounds<Q>> Iterator for SetRange<'a, K, Q, R> {
    type Item = K;

    fn next(&mut self) -> Option<K> {
        self.entries.next().map(|entry| entry.0)
    }
}

/// Keys of which the archive of a set is built, in their order. It is a typed file, as that of a [`Builder`].
pub struct SetBuilder<K> {
    entries: Builder<K, Nothing>,
}

impl<'a, K: Field<'a>> SetBuilder<K> {
    /// Returns a builder without keys.
    pub fn new() -> SetBuilder<K> {
        SetBuilder { entries: Builder::new() }
    }

    /// Adds a key at the end.
    pub fn push(&mut self, key: K) {
        self.entries.push(key, Nothing);
    }

    /// Returns the builder, whose archives have no header.
    #[must_use]
    pub fn untyped(self) -> SetBuilder<K> {
        SetBuilder { entries: self.entries.untyped() }
    }

    /// Returns the archive of the keys.
    ///
    /// # Errors
    ///
    /// As of [`Builder::build`].
    pub fn build(&self) -> Result<Vec<u8>, Error> {
        self.entries.build()
    }

    /// Returns the archive of the keys, which must increase.
    ///
    /// # Errors
    ///
    /// As of [`Builder::build_strict`].
    pub fn build_strict(&self) -> Result<Vec<u8>, Error> {
        self.entries.build_strict()
    }
}

impl<'a, K: Field<'a>> Default for SetBuilder<K> {
    fn default() -> SetBuilder<K> {
        SetBuilder::new()
    }
}

impl<'a, K: Field<'a>> Extend<K> for SetBuilder<K> {
    fn extend<I: IntoIterator<Item = K>>(&mut self, keys: I) {
        for key in keys {
            self.push(key);
        }
    }
}

impl<'a, K: Field<'a>> FromIterator<K> for SetBuilder<K> {
    fn from_iter<I: IntoIterator<Item = K>>(keys: I) -> SetBuilder<K> {
        let mut builder = SetBuilder::new();
        builder.extend(keys);
        builder
    }
}
