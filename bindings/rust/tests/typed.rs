//! Typed files of each type: as each other type, of another version, cut at each byte, and without a header.
use rkyv_btree::{contains, contains_untyped, find, find_untyped, Builder, Edit, Error, Map, Remote, RemoteError, Set, SetBuilder};

/// A type of maps or sets: its name, a typed file of it, its archive without a header, and what calls say of bytes as of this type.
struct Typed {
    name: String,
    typed: Vec<u8>,
    untyped: Vec<u8>,
    lens: fn(&[u8]) -> [Result<usize, Error>; 4],
    lens_untyped: fn(&[u8]) -> [Result<usize, Error>; 3],
}

/// Reads parts of bytes.
fn elsewhere(bytes: &[u8]) -> Remote<impl FnMut(u64, &mut [u8]) -> Result<(), ()> + '_> {
    let read = |position: u64, buffer: &mut [u8]| {
        let start = position as usize;
        bytes.get(start..start + buffer.len()).map(|part| buffer.copy_from_slice(part)).ok_or(())
    };
    Remote::with_blocks(read, bytes.len() as u64, 64, 4)
}

fn archive(error: RemoteError<()>) -> Error {
    match error {
        RemoteError::Archive(error) => error,
        RemoteError::Read(()) => panic!("a part isn't read"),
    }
}

macro_rules! map_of {
    ($key_name:expr, $key:ty, $first:expr, $value_name:expr, $value:ty, $second:expr) => {
        Typed {
            name: format!("[{} -> {} / 5]", $key_name, $value_name),
            typed: Builder::<$key, $value>::new().entry($first, $second).build().unwrap(),
            untyped: Builder::<$key, $value>::new().entry($first, $second).untyped().build_strict().unwrap(),
            lens: |bytes| {
                [
                    Map::<$key, $value>::open(bytes).map(|map| map.len()),
                    Map::<$key, $value>::open_strict(bytes).map(|map| map.len()),
                    find::<$key, $value>(bytes, $first).map(|found| usize::from(found.is_some())),
                    elsewhere(bytes).check_type::<$key, $value>().map(|()| 1).map_err(archive),
                ]
            },
            lens_untyped: |bytes| {
                [
                    Map::<$key, $value>::open_untyped(bytes).map(|map| map.len()),
                    Map::<$key, $value>::open_strict_untyped(bytes).map(|map| map.len()),
                    find_untyped::<$key, $value>(bytes, $first).map(|found| usize::from(found.is_some())),
                ]
            },
        }
    };
}

macro_rules! set_of {
    ($key_name:expr, $key:ty, $first:expr) => {
        Typed {
            name: format!("[{} / 5]", $key_name),
            typed: SetBuilder::<$key>::from_iter([$first]).build().unwrap(),
            untyped: SetBuilder::<$key>::from_iter([$first]).untyped().build_strict().unwrap(),
            lens: |bytes| {
                [
                    Set::<$key>::open(bytes).map(|set| set.len()),
                    Set::<$key>::open_strict(bytes).map(|set| set.len()),
                    contains::<$key>(bytes, $first).map(usize::from),
                    elsewhere(bytes).check_set_type::<$key>().map(|()| 1).map_err(archive),
                ]
            },
            lens_untyped: |bytes| {
                [
                    Set::<$key>::open_untyped(bytes).map(|set| set.len()),
                    Set::<$key>::open_strict_untyped(bytes).map(|set| set.len()),
                    contains_untyped::<$key>(bytes, $first).map(usize::from),
                ]
            },
        }
    };
}

macro_rules! with_keys {
    ($($key_name:expr, $key:ty, $first:expr;)*) => {
        vec![$(
            map_of!($key_name, $key, $first, "u32", u32, 3),
            map_of!($key_name, $key, $first, "u64", u64, 3),
            map_of!($key_name, $key, $first, "i64", i64, -3),
            map_of!($key_name, $key, $first, "text", &str, "three"),
            map_of!($key_name, $key, $first, "bytes", &[u8], &b"\xff"[..]),
            set_of!($key_name, $key, $first),
        )*]
    };
}

fn types() -> Vec<Typed> {
    with_keys! {
        "u32", u32, 7;
        "u64", u64, 1 << 40;
        "i64", i64, -7;
        "text", &str, "seven";
        "bytes", &[u8], &b"\xfe"[..];
    }
}

#[test]
fn each_type_as_each_other() {
    let types = types();
    assert_eq!(types.len(), 30);
    for wanted in &types {
        for found in &types {
            let message = format!("the bytes are of type {}, not {}", found.name, wanted.name);
            for opened in (wanted.lens)(&found.typed) {
                if found.name == wanted.name {
                    assert_eq!(opened.unwrap(), 1);
                } else {
                    let error = opened.unwrap_err();
                    assert_eq!((error.code(), error.position(), error.found()), (50, 12, found.name.len() as u64));
                    assert_eq!(error.to_string(), message);
                }
            }
        }
    }
}

#[test]
fn with_a_header_and_without() {
    for each in types() {
        let (header, rest) = each.typed.split_at(32);
        let mut wanted = [b"rkyvbt\x01\0", &(each.name.len() as u32).to_le_bytes()[..], each.name.as_bytes()].concat();
        wanted.resize(32, 0);
        assert_eq!((header, rest), (&wanted[..], &each.untyped[..]));
        for bytes in [&each.typed, &each.untyped] {
            assert!((each.lens)(bytes).into_iter().chain((each.lens_untyped)(bytes)).all(|len| len == Ok(1)));
        }
    }
}

#[test]
fn another_version() {
    for mut each in types() {
        for version in [0u16, 2, 256, 257, 65535] {
            each.typed[6..8].copy_from_slice(&version.to_le_bytes());
            for opened in (each.lens)(&each.typed) {
                let error = opened.unwrap_err();
                assert_eq!((error.code(), error.found(), error.allowed()), (49, u64::from(version), 1));
                assert_eq!(error.to_string(), format!("the type header has version {version}, not 1"));
            }
            assert!((each.lens_untyped)(&each.typed).into_iter().all(|len| len == Ok(1)));
        }
    }
}

#[test]
fn a_header_that_is_cut() {
    for each in types() {
        for cut in 0..=32 {
            for bytes in [&each.typed[..cut], &each.typed[cut..]] {
                let (lens, untyped) = ((each.lens)(bytes), (each.lens_untyped)(bytes));
                if cut % 32 > 0 {
                    assert_eq!(lens[..3], untyped);
                }
            }
        }
    }
}

#[test]
fn a_long_name() {
    let mut bytes = [b"rkyvbt\x01\0", &200u32.to_le_bytes()[..], &[b'x'; 200], &[0; 12]].concat();
    bytes.extend([0; 8]);
    let error = Map::<u32, u32>::open(&bytes).err().unwrap();
    assert_eq!((error.code(), error.found()), (50, 200));
    assert_eq!(error.to_string(), format!("the bytes are of type {}, not [u32 -> u32 / 5]", "x".repeat(63)));
    assert!(Map::<u32, u32>::open_untyped(&bytes).unwrap().is_empty());
}

#[test]
fn a_text_that_begins_as_a_header() {
    let bytes = Builder::new().entry("rkyvbt, and more", 1u32).untyped().build().unwrap();
    assert_eq!(Map::<&str, u32>::open(&bytes).err().unwrap().code(), 49);
    assert_eq!(Map::<&str, u32>::open_untyped(&bytes).unwrap().len(), 1);
    let typed = Builder::new().entry("rkyvbt, and more", 1u32).build().unwrap();
    assert_eq!(Map::<&str, u32>::open(&typed).unwrap().len(), 1);
}

#[test]
fn edits_of_a_typed_file() {
    let mut bytes = Builder::new().entry("a", 1u32).entry("b", 2).build().unwrap();
    assert!(Edit::<&str, u32>::open(&mut bytes).unwrap().set("b", 3));
    assert_eq!(Map::<&str, u32>::open(&bytes).unwrap().get("b"), Some(3));
    let error = Edit::<&str, i64>::open(&mut bytes).err().unwrap();
    assert_eq!(error.to_string(), "the bytes are of type [text -> u32 / 5], not [text -> i64 / 5]");
    assert!(Edit::<&str, u32>::open_untyped(&mut bytes).unwrap().set("a", 3));
}
