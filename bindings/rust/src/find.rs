use crate::error::Error;
use crate::field::sealed::Passed;
use crate::field::{AsKey, Field};
use crate::header::check_type;
use crate::map::type_number;
use crate::raw;

/// Returns the value of a key in bytes that nobody has validated, as the archive of a map. The lookup validates what it reads.
///
/// On an archive that is what `Map::get` returns for the opened map. On other bytes a value that is found is valid and is beside an
/// equal key, and `Ok(None)` doesn't mean that the key is absent.
///
/// # Errors
///
/// The first fault in what the lookup reads, or that the bytes are a typed file of another type or another version.
///
/// # Examples
///
/// ```
/// let bytes = rkyv_btree::Builder::new().entry("apple", 3u32).entry("pear", 5).build()?;
/// assert_eq!(rkyv_btree::find::<&str, u32>(&bytes, "pear")?, Some(5));
/// assert_eq!(rkyv_btree::find::<&str, u32>(&bytes[..6], "pear").unwrap_err().code(), 1);
/// # Ok::<(), rkyv_btree::Error>(())
/// ```
pub fn find<'a, K: Field<'a>, V: Field<'a>>(data: &'a [u8], key: impl AsKey<K>) -> Result<Option<V>, Error> {
    check_type(type_number::<K, V>(), data)?;
    find_untyped::<K, V>(data, key)
}

/// Returns what `find` does, and looks at no header.
///
/// # Errors
///
/// The first fault in what the lookup reads.
pub fn find_untyped<'a, K: Field<'a>, V: Field<'a>>(data: &'a [u8], key: impl AsKey<K>) -> Result<Option<V>, Error> {
    let mut entry = raw::Entry::default();
    let mut why = raw::Refusal::default();
    let kind = type_number::<K, V>();
    let code = match key.query().passed() {
        // SAFETY: pointer and length are those of one slice.
        Passed::Number(number) => unsafe {
            raw::rkyv_btree_find_number(kind, data.as_ptr(), data.len(), number, &mut entry, &mut why)
        },
        // SAFETY: pointers and lengths are those of two slices, which are borrowed during the call.
        Passed::Bytes(bytes) => unsafe {
            raw::rkyv_btree_find_text(
                kind,
                data.as_ptr(),
                data.len(),
                bytes.as_ptr(),
                bytes.len(),
                &mut entry,
                &mut why,
            )
        },
    };
    match code {
        raw::OK => Ok(Some(V::read(data, entry.value))),
        raw::NOT_FOUND => Ok(None),
        _ => Err(Error::refused(raw::Refusal { code, ..why })),
    }
}
