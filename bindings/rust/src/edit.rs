use crate::error::Error;
use crate::field::sealed::Passed;
use crate::field::{AsKey, Field, Number};
use crate::header::check_type;
use crate::map::{type_number, Map};
use crate::raw;
use std::marker::PhantomData;
use std::{ptr, slice};

/// A map in a buffer, whose values are overwritten there.
pub struct Edit<'a, K, V> {
    raw: raw::Edit,
    of: PhantomData<(&'a mut [u8], K, V)>,
}

impl<'a, K: Field<'a>, V: Field<'a> + Number> Edit<'a, K, V> {
    /// Validates a whole archive.
    ///
    /// # Errors
    ///
    /// As of [`Map::open`].
    pub fn open(data: &'a mut [u8]) -> Result<Edit<'a, K, V>, Error> {
        check_type(type_number::<K, V>(), data)?;
        Edit::open_untyped(data)
    }

    /// Validates a whole archive, and looks at no header.
    ///
    /// # Errors
    ///
    /// As of [`Map::open_untyped`].
    pub fn open_untyped(data: &'a mut [u8]) -> Result<Edit<'a, K, V>, Error> {
        let mut raw = raw::Edit { data: data.as_mut_ptr(), data_len: data.len(), pos: 0, kind: 0 };
        let mut why = raw::Refusal::default();
        // SAFETY: pointer and length are those of one slice, which is borrowed as long as the map is there.
        let code = unsafe {
            raw::rkyv_btree_open_edit(&mut raw, type_number::<K, V>(), &mut why)
        };
        match code {
            raw::OK => Ok(Edit { raw, of: PhantomData }),
            _ => Err(Error::refused(raw::Refusal { code, ..why })),
        }
    }

    /// Returns the map in the buffer, for reading. Nothing is validated.
    pub fn map(&self) -> Map<'_, K::At<'_>, V::At<'_>> {
        let mut raw = raw::Map { data: ptr::null(), data_len: 0, pos: 0, kind: 0 };
        // SAFETY: the map is open. Nothing writes to the buffer while it is read, since writes borrow the whole map.
        unsafe { raw::rkyv_btree_read_edit(&mut raw, &self.raw) };
        // SAFETY: pointer and length are those of one slice, which is borrowed.
        let data = unsafe { slice::from_raw_parts(self.raw.data, self.raw.data_len) };
        Map::of(raw, data)
    }

    /// Returns the value of a key. If the keys don't increase, a key may be there and not be found.
    pub fn get(&self, key: impl AsKey<K>) -> Option<V> {
        let mut raw = raw::Map { data: ptr::null(), data_len: 0, pos: 0, kind: 0 };
        let mut entry = raw::Entry::default();
        // SAFETY: the map is open, and bytes are borrowed during the call.
        let code = unsafe {
            raw::rkyv_btree_read_edit(&mut raw, &self.raw);
            match key.query().passed() {
                Passed::Number(number) => raw::rkyv_btree_get_number(&raw, number, &mut entry),
                Passed::Bytes(bytes) => raw::rkyv_btree_get_text(&raw, bytes.as_ptr(), bytes.len(), &mut entry),
            }
        };
        (code == raw::OK).then(|| V::narrowed(entry.value.number))
    }

    /// Returns the number of entries.
    pub fn len(&self) -> usize {
        self.map().len()
    }

    /// Returns whether there are no entries.
    pub fn is_empty(&self) -> bool {
        self.len() == 0
    }

    /// Overwrites the value of a key, and returns whether it was found.
    pub fn set(&mut self, key: impl AsKey<K>, value: V) -> bool {
        let code = match key.query().passed() {
            // SAFETY: the map is open.
            Passed::Number(number) => unsafe {
                raw::rkyv_btree_set_number(&mut self.raw, number, value.widened())
            },
            // SAFETY: the map is open, and the bytes are borrowed during the call.
            Passed::Bytes(bytes) => unsafe {
                raw::rkyv_btree_set_text(&mut self.raw, bytes.as_ptr(), bytes.len(), value.widened())
            },
        };
        code == raw::OK
    }
}
