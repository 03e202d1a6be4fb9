use crate::error::Error;
use crate::field::sealed::Cells;
use crate::field::Field;
use crate::header::header_of;
use crate::map::type_number;
use crate::raw;
use std::marker::PhantomData;

/// The most bytes that an archive has, with its header.
const MOST: usize = u32::MAX as usize;

/// Entries of which an archive is built, in their order. They are kept as two columns.
///
/// The archive is a typed file: a header with the name of its type is before it, unless `untyped` is called.
pub struct Builder<K, V> {
    keys: Cells,
    values: Cells,
    len: usize,
    typed: bool,
    of: PhantomData<(K, V)>,
}

type Build = unsafe extern "C" fn(
    u32,
    usize,
    *const raw::Column,
    *const raw::Column,
    *mut u8,
    usize,
    *mut usize,
    *mut raw::Refusal,
) -> u32;

impl<'a, K: Field<'a>, V: Field<'a>> Builder<K, V> {
    /// Returns a builder without entries.
    pub fn new() -> Builder<K, V> {
        Builder { keys: Cells::default(), values: Cells::default(), len: 0, typed: true, of: PhantomData }
    }

    /// Adds an entry at the end.
    pub fn push(&mut self, key: K, value: V) {
        key.put(&mut self.keys);
        value.put(&mut self.values);
        self.len += 1;
    }

    /// Adds an entry at the end, and returns the builder.
    #[must_use]
    pub fn entry(mut self, key: K, value: V) -> Builder<K, V> {
        self.push(key, value);
        self
    }

    /// Returns the builder, whose archives have no header.
    #[must_use]
    pub fn untyped(mut self) -> Builder<K, V> {
        self.typed = false;
        self
    }

    /// Returns the archive of the entries.
    ///
    /// # Errors
    ///
    /// If they have none: it would be longer than 4 GiB, a pointer would reach over more than 2 GiB, or memory ran out.
    pub fn build(&self) -> Result<Vec<u8>, Error> {
        self.build_by(raw::rkyv_btree_build_arrays)
    }

    /// Returns the archive of the entries, whose keys must increase.
    ///
    /// # Errors
    ///
    /// As of `build`, and if a key isn't greater than the key before it: `Error::found` is its index.
    pub fn build_strict(&self) -> Result<Vec<u8>, Error> {
        self.build_by(raw::rkyv_btree_build_arrays_strict)
    }

    /// Returns a length that is enough for the archive of the entries.
    fn bound(&self) -> Result<usize, Error> {
        let texts_len = self.keys.texts_len() + self.values.texts_len();
        let mut bound = 0;
        // SAFETY: `bound` is exclusive.
        match unsafe { raw::rkyv_btree_build_bound(type_number::<K, V>(), self.len, texts_len, &mut bound) } {
            raw::OK => Ok(bound),
            code => Err(Error::refused(raw::Refusal { code, ..raw::Refusal::default() })),
        }
    }

    fn build_by(&self, build: Build) -> Result<Vec<u8>, Error> {
        let header = if self.typed { header_of(type_number::<K, V>())? } else { Vec::new() };
        let start = header.len();
        let mut archive = vec![0; start + self.bound()?];
        archive[..start].copy_from_slice(&header);
        let mut len = 0;
        let mut why = raw::Refusal::default();
        // SAFETY: the columns are borrowed during the call, and `archive` is exclusive.
        let code = unsafe {
            build(
                type_number::<K, V>(),
                self.len,
                &self.keys.column(),
                &self.values.column(),
                archive[start..].as_mut_ptr(),
                archive.len() - start,
                &mut len,
                &mut why,
            )
        };
        if code != raw::OK {
            return Err(Error::refused(raw::Refusal { code, ..why }));
        }
        if start + len > MOST {
            return Err(Error::refused(raw::Refusal { code: raw::POSITION_OVERFLOW, ..why }));
        }
        archive.truncate(start + len);
        Ok(archive)
    }
}

impl<'a, K: Field<'a>, V: Field<'a>> Default for Builder<K, V> {
    fn default() -> Builder<K, V> {
        Builder::new()
    }
}

impl<'a, K: Field<'a>, V: Field<'a>> Extend<(K, V)> for Builder<K, V> {
    fn extend<I: IntoIterator<Item = (K, V)>>(&mut self, entries: I) {
        for (key, value) in entries {
            self.push(key, value);
        }
    }
}

impl<'a, K: Field<'a>, V: Field<'a>> FromIterator<(K, V)> for Builder<K, V> {
    fn from_iter<I: IntoIterator<Item = (K, V)>>(entries: I) -> Builder<K, V> {
        let mut builder = Builder::new();
        builder.extend(entries);
        builder
    }
}
