use crate::raw;
use std::fmt;

/// How many bytes of another type's name an error has.
const NAME_SHOWN: usize = 63;

/// Why bytes are no map, or entries have no archive.
#[derive(Clone, Copy, PartialEq, Eq)]
pub struct Error {
    refusal: raw::Refusal,
    /// Of a typed file of another type: the name in its header, and the number of the type that was expected.
    other: Option<(Name, u32)>,
}

/// The first bytes of the name of a type.
#[derive(Clone, Copy, PartialEq, Eq)]
struct Name {
    len: u8,
    bytes: [u8; NAME_SHOWN],
}

impl Name {
    fn of(name: &[u8]) -> Name {
        let mut bytes = [0; NAME_SHOWN];
        let len = name.len().min(NAME_SHOWN);
        bytes[..len].copy_from_slice(&name[..len]);
        Name { len: len as u8, bytes }
    }

    /// Returns the name of the type with a number.
    fn of_type(kind: u32) -> Name {
        let mut bytes = [0; NAME_SHOWN];
        // SAFETY: the pointer and the length are those of one array.
        let len = unsafe { raw::rkyv_btree_type_name(kind, bytes.as_mut_ptr(), bytes.len()) };
        Name { len: len.min(NAME_SHOWN) as u8, bytes }
    }
}

impl fmt::Display for Name {
    fn fmt(&self, f: &mut fmt::Formatter<'_>) -> fmt::Result {
        f.write_str(&String::from_utf8_lossy(&self.bytes[..usize::from(self.len)]))
    }
}

impl Error {
    pub(crate) fn refused(refusal: raw::Refusal) -> Error {
        Error { refusal, other: None }
    }

    /// Returns the error of a typed file whose header has another name than that of the type with a number.
    pub(crate) fn of_another_type(refusal: raw::Refusal, name: &[u8], expected: u32) -> Error {
        Error { refusal, other: Some((Name::of(name), expected)) }
    }

    /// Returns the code, as `include/rkyv_btree.h` names it.
    pub fn code(&self) -> u32 {
        self.refusal.code
    }

    /// Returns the position in the buffer at which the bytes are no map, or 0.
    pub fn position(&self) -> i64 {
        self.refusal.at
    }

    /// Returns what was found there: a byte, a length, a number of entries, the index of an entry, or the version of a header. For entries
    /// that have no archive it is the index of the one that is bad or out of order.
    pub fn found(&self) -> u64 {
        self.refusal.found
    }

    /// Returns the most that is allowed there.
    pub fn allowed(&self) -> u64 {
        self.refusal.allowed
    }
}

impl fmt::Display for Error {
    fn fmt(&self, f: &mut fmt::Formatter<'_>) -> fmt::Result {
        let raw::Refusal { code, at, found, allowed } = self.refusal;
        if let Some((name, expected)) = self.other {
            return write!(f, "the bytes are of type {name}, not {}", Name::of_type(expected));
        }
        if code == raw::OTHER_VERSION {
            return write!(f, "the type header has version {found}, not {allowed}");
        }
        let mut text = [0; 128];
        // SAFETY: the pointer and the length are those of one array.
        let len = unsafe { raw::rkyv_btree_strerror(code, text.as_mut_ptr(), text.len()) };
        f.write_str(&String::from_utf8_lossy(&text[..len.min(text.len())]))?;
        if raw::AT_POSITION.contains(&code) {
            write!(f, " at position {at}")
        } else if raw::AT_ENTRY.contains(&code) {
            write!(f, " at entry {found}")
        } else {
            Ok(())
        }
    }
}

impl fmt::Debug for Error {
    fn fmt(&self, f: &mut fmt::Formatter<'_>) -> fmt::Result {
        write!(f, "Error {}: {self}", self.refusal.code)
    }
}

impl std::error::Error for Error {}
