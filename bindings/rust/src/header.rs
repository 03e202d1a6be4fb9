use crate::error::Error;
use crate::raw;

/// Returns the header of typed files of a type.
pub(crate) fn header_of(kind: u32) -> Result<Vec<u8>, Error> {
    let mut header = vec![0; 64];
    let mut len = 0;
    // SAFETY: the pointer and the length are those of one vector, and `len` is exclusive.
    let code = unsafe { raw::rkyv_btree_write_header(kind, header.as_mut_ptr(), header.len(), &mut len) };
    if code != raw::OK {
        return Err(Error::refused(raw::Refusal { code, ..raw::Refusal::default() }));
    }
    header.truncate(len);
    Ok(header)
}

/// Tests that bytes don't begin with the header of another type or another version. Those of an untyped archive begin with none.
pub(crate) fn check_type(kind: u32, data: &[u8]) -> Result<(), Error> {
    let mut why = raw::Refusal::default();
    // SAFETY: the pointer and the length are those of one slice.
    match unsafe { raw::rkyv_btree_check_header(kind, data.as_ptr(), data.len(), &mut why) } {
        raw::OK | raw::NO_HEADER => Ok(()),
        raw::OTHER_TYPE => {
            let start = why.at as usize;
            Err(Error::of_another_type(why, &data[start..start + why.found as usize], kind))
        }
        code => Err(Error::refused(raw::Refusal { code, ..why })),
    }
}
