//! Lookups in an archive that lies elsewhere, and the reads that they make.
use rkyv_btree::{find, AsKey, Builder, Error, Field, Map, ReadRange, Remote, RemoteError, SetBuilder, Top, TopError};
use std::fmt::Debug;
use std::io::{self, Write};
use std::ops::Bound;

/// An archive in memory, whose reads are counted.
struct Counted<'a> {
    data: &'a [u8],
    reads: usize,
}

impl ReadRange for Counted<'_> {
    type Error = usize;

    fn read_range(&mut self, position: u64, buffer: &mut [u8]) -> Result<(), usize> {
        self.reads += 1;
        let start = position as usize;
        let part = self.data.get(start..start + buffer.len()).ok_or(start)?;
        buffer.copy_from_slice(part);
        Ok(())
    }
}

fn counted(data: &[u8], block: u32, most: usize) -> Remote<Counted<'_>> {
    Remote::with_blocks(Counted { data, reads: 0 }, data.len() as u64, block, most)
}

const BLOCKS: [(u32, usize); 4] = [(1, 0), (64, 1), (1000, 4), (16384, 512)];

/// Compares lookups over parts, one by one and together, without a sidecar and with one, with those in the whole archive.
fn same<'a, K: Field<'a>, V: Field<'a> + PartialEq + Debug, Q: AsKey<K> + Copy>(data: &'a [u8], keys: &[Q]) {
    let tops = [1, 3, 32].map(|levels| Top::from_bytes(&Top::of::<K, V>(data, levels, "").unwrap().to_bytes()).unwrap());
    let wanted: Vec<_> = keys.iter().map(|key| find::<K, V>(data, *key).unwrap()).collect();
    for (block, most) in BLOCKS {
        for top in [None].into_iter().chain(tops.iter().map(Some)) {
            // A value is borrowed from the map for as long as `data` is borrowed, so each lookup has a map of its own.
            let remote = || -> &'a mut Remote<Counted<'a>> {
                let plain = counted(data, block, most);
                Box::leak(Box::new(match top {
                    Some(top) => plain.with_top::<K, V>(top.clone()).unwrap(),
                    None => plain,
                }))
            };
            // Blocks of one byte are slow.
            for (key, value) in keys.iter().zip(&wanted).step_by(if block == 1 { 9 } else { 1 }) {
                assert_eq!(remote().get::<K, V>(*key).unwrap(), *value);
            }
            assert_eq!(remote().get_many::<K, V, Q>(keys.iter().copied()).unwrap(), wanted);
        }
    }
}

#[test]
fn all_types() {
    let texts: Vec<String> = (0..3000).map(|n| format!("{n:05} {}", "x".repeat(n % 50))).collect();
    let numbers = || 0..3000u32;
    let small: Vec<u32> = (0..6001).step_by(131).collect();
    let wide: Vec<u64> = (0..6001).step_by(131).map(|n| n + (1 << 40)).collect();
    let words: Vec<&str> = texts.iter().step_by(131).map(String::as_str).chain(["", "z", "00100 y"]).collect();
    let of = |n: u32| &*texts[n as usize];
    let far = |n: u32| u64::from(2 * n) + (1 << 40);
    same::<u32, u32, _>(numbers().map(|n| (2 * n, n)).collect::<Builder<_, _>>().build().unwrap().leak(), &small);
    same::<u32, u64, _>(numbers().map(|n| (2 * n, far(n))).collect::<Builder<_, _>>().build().unwrap().leak(), &small);
    same::<u32, &str, _>(numbers().map(|n| (2 * n, of(n))).collect::<Builder<_, _>>().build().unwrap().leak(), &small);
    same::<u64, u32, _>(numbers().map(|n| (far(n), n)).collect::<Builder<_, _>>().build().unwrap().leak(), &wide);
    same::<u64, u64, _>(numbers().map(|n| (far(n), far(n))).collect::<Builder<_, _>>().build().unwrap().leak(), &wide);
    same::<u64, &str, _>(numbers().map(|n| (far(n), of(n))).collect::<Builder<_, _>>().build().unwrap().leak(), &wide);
    same::<&str, u32, _>(numbers().map(|n| (of(n), n)).collect::<Builder<_, _>>().build().unwrap().leak(), &words);
    same::<&str, u64, _>(numbers().map(|n| (of(n), far(n))).collect::<Builder<_, _>>().build().unwrap().leak(), &words);
    let signed: Vec<i64> = (-3000..3001).step_by(131).chain([i64::MIN, i64::MAX]).collect();
    let around = |n: u32| 2 * i64::from(n) - 3000;
    same::<i64, i64, _>(numbers().map(|n| (around(n), -around(n))).collect::<Builder<_, _>>().build().unwrap().leak(), &signed);
    same::<i64, &str, _>(numbers().map(|n| (around(n), of(n))).collect::<Builder<_, _>>().build().unwrap().leak(), &signed);
    let raw: Vec<Vec<u8>> = (0..3000u16).map(|n| [&n.to_be_bytes()[..], &vec![0xff; n as usize % 40]].concat()).collect();
    let keys: Vec<&[u8]> = raw.iter().step_by(131).map(Vec::as_slice).chain([&b""[..], b"\xff\xff"]).collect();
    let bytes = |n: u32| raw[n as usize].as_slice();
    same::<&[u8], &[u8], _>(numbers().map(|n| (bytes(n), bytes(n))).collect::<Builder<_, _>>().build().unwrap().leak(), &keys);
    same::<&[u8], u32, _>(numbers().map(|n| (bytes(n), n)).collect::<Builder<_, _>>().build().unwrap().leak(), &keys);
    same::<u32, &[u8], _>(numbers().map(|n| (2 * n, bytes(n))).collect::<Builder<_, _>>().build().unwrap().leak(), &small);
    same::<&str, &str, _>(numbers().map(|n| (of(n), of(n))).collect::<Builder<_, _>>().build().unwrap().leak(), &words);
}

/// Returns how many reads lookups of many keys take, each of them looked up twice.
fn reads_of(data: &[u8], block: u32, most: usize) -> usize {
    let mut remote = Remote::with_blocks(Counted { data, reads: 0 }, data.len() as u64, block, most);
    for key in (0..4000u32).map(|n| n * 7919 % 1_000_000) {
        assert_eq!(remote.get::<u32, u32>(key), Ok(Some(key)));
        assert_eq!(remote.get::<u32, u32>(key), Ok(Some(key)));
    }
    remote.into_reader().reads
}

#[test]
fn reads() {
    let data = (0..1_000_000u32).map(|n| (n, n)).collect::<Builder<_, _>>().build().unwrap();
    let (none, some, all) = (reads_of(&data, 1024, 0), reads_of(&data, 1024, 400), reads_of(&data, 1024, 20_000));
    // Without blocks that are kept the second lookup of a key reads as the first, and each reads at most one or two blocks a level.
    assert!(none % 2 == 0 && none > 4 * 8000 && none < 9 * 8000, "{none} reads");
    // Those that were used last save the upper levels, and the second lookup.
    assert!(some < 4 * 4000, "{some} reads");
    assert!(all < some && all <= data.len() / 1024 + 1, "{all} reads");
}

#[test]
fn a_long_value() {
    let text = "é".repeat(100_000);
    let data = Builder::new().entry(1u32, "short").entry(2, &text).build().unwrap();
    for (block, most) in [(64, 1), (16384, 512)] {
        let mut remote = Remote::with_blocks(Counted { data: &data, reads: 0 }, data.len() as u64, block, most);
        assert_eq!(remote.get::<u32, &str>(2), Ok(Some(&*text)));
        assert_eq!(remote.get::<u32, &str>(1), Ok(Some("short")));
        assert_eq!(remote.get::<u32, &str>(3), Ok(None));
    }
}

#[test]
fn reads_that_fail() {
    let data = (0..1000u32).map(|n| (n, n)).collect::<Builder<_, _>>().build().unwrap();
    for good in 0..3 {
        let mut left = good;
        let read = |position: u64, buffer: &mut [u8]| {
            left -= 1;
            if left == -1 {
                return Err("no network");
            }
            let start = position as usize;
            buffer.copy_from_slice(&data[start..start + buffer.len()]);
            Ok(())
        };
        let mut remote = Remote::with_blocks(read, data.len() as u64, 256, 0);
        assert_eq!(remote.get::<u32, u32>(7), Err(RemoteError::Read("no network")));
        assert_eq!(remote.get::<u32, u32>(7), Ok(Some(7)));
    }
    // The object is shorter than its size says.
    let mut remote = Remote::new(Counted { data: &data, reads: 0 }, data.len() as u64 + 8);
    assert!(matches!(remote.get::<u32, u32>(7), Err(RemoteError::Read(_))));
}

#[test]
fn refusals() {
    fn refusal(data: &[u8], size: u64) -> Error {
        match Remote::new(Counted { data, reads: 0 }, size).get::<u32, u32>(1) {
            Err(RemoteError::Archive(error)) => error,
            other => panic!("{other:?}"),
        }
    }
    assert_eq!(refusal(&[], 0).code(), 1);
    assert_eq!(refusal(&[0; 7], 7).code(), 1);
    assert_eq!(refusal(&[], 1 << 32).code(), 8);
    assert_eq!(Remote::new(Counted { data: &[0; 8], reads: 0 }, 8).get::<u32, u32>(1), Ok(None));
    let mut data = Builder::new().entry(1u32, 2u32).untyped().build().unwrap();
    data[0] = 7;
    assert_eq!(refusal(&data, data.len() as u64).to_string(), "the byte is the kind of no node at position 0");
}

#[test]
fn no_bytes_crash_a_lookup() {
    let good = (0..40u32).map(|n| (n, "some text")).collect::<Builder<_, _>>().untyped().build().unwrap();
    for at in 0..good.len() {
        for byte in [0, 1, 127, 128, 255] {
            let mut data = good.clone();
            data[at] = byte;
            for key in [0, 17, 40] {
                let mut remote = Remote::with_blocks(Counted { data: &data, reads: 0 }, data.len() as u64, 64, 2);
                match (remote.get::<u32, &str>(key), find::<u32, &str>(&data, key)) {
                    (Ok(found), Ok(whole)) => assert_eq!(found, whole),
                    (Err(RemoteError::Archive(error)), Err(whole)) => assert_eq!(error, whole),
                    (found, whole) => panic!("{found:?} over parts, {whole:?} in the whole archive"),
                }
            }
        }
    }
}

#[test]
fn files() -> Result<(), Box<dyn std::error::Error>> {
    let path = std::env::temp_dir().join(format!("rkyv_btree_remote_{}", std::process::id()));
    let data = (0..1000u32).map(|n| (n, n)).collect::<Builder<_, _>>().build()?;
    std::fs::File::create(&path)?.write_all(&data)?;
    let mut remote = Remote::with_blocks(std::fs::File::open(&path)?, data.len() as u64, 512, 4);
    for key in (0..1000).step_by(77) {
        assert_eq!(remote.get::<u32, u32>(key)?, Some(key));
    }
    let mut remote = Remote::new(std::fs::File::open(&path)?, data.len() as u64 + 8);
    std::fs::remove_file(&path)?;
    let error = remote.get::<u32, u32>(777).unwrap_err();
    assert!(matches!(&error, RemoteError::Read(read) if read.kind() == io::ErrorKind::UnexpectedEof));
    assert!(std::error::Error::source(&error).is_some_and(|source| source.to_string() == error.to_string()));
    Ok(())
}

/// Returns the entries of a range over parts.
fn ranged<R: ReadRange>(remote: &mut Remote<R>, low: Bound<u32>, high: Bound<u32>) -> Result<Vec<(u32, String)>, RemoteError<R::Error>> {
    remote.range::<u32, &str, _>((low, high)).collect()
}

#[test]
fn ranges() {
    let texts: Vec<String> = (0..1500).map(|n| "x".repeat(n % 50)).collect();
    let ends = [0, 1, 2, 777, 1500, 2998, 2999, u32::MAX];
    let bounds = || ends.into_iter().flat_map(|end| [Bound::Included(end), Bound::Excluded(end)]).chain([Bound::Unbounded]);
    for len in [0, 1, 5, 6, 35, 36, 1500u32] {
        let data = (0..len).map(|n| (2 * n, &*texts[n as usize])).collect::<Builder<_, _>>().build().unwrap();
        let map = Map::<u32, &str>::open(&data).unwrap();
        let top = Top::of::<u32, &str>(&data, 3, "").unwrap();
        let with = counted(&data, 1000, 4).with_top::<u32, &str>(top).unwrap();
        for mut remote in [counted(&data, 64, 0), counted(&data, 16384, 512), with] {
            for low in bounds() {
                for high in bounds() {
                    // The bounds of std's ranges may be in the wrong order here, and nothing is between these.
                    let within = |key: &u32| std::ops::RangeBounds::contains(&(low, high), key);
                    let wanted: Vec<_> = map.iter().filter(|entry| within(&entry.0)).map(|entry| (entry.0, entry.1.to_owned())).collect();
                    assert_eq!(ranged(&mut remote, low, high), Ok(wanted), "{low:?} {high:?}");
                }
            }
        }
    }
}

#[test]
fn sets() {
    let data = (0..2000u32).map(|n| 2 * n).collect::<SetBuilder<_>>().build_strict().unwrap();
    let mut remote = counted(&data, 64, 2);
    for key in (0..4002).step_by(37) {
        assert_eq!(remote.contains::<u32>(key), Ok(key < 4000 && key % 2 == 0));
    }
    let keys = (0..4002).step_by(37);
    let wanted: Vec<bool> = keys.clone().map(|key| key < 4000 && key % 2 == 0).collect();
    assert_eq!(remote.contains_many::<u32, _>(keys), Ok(wanted));
    let words: Vec<String> = (0..300).map(|n| format!("{n:03}")).collect();
    let data = words.iter().map(|word| &**word).collect::<SetBuilder<&str>>().build_strict().unwrap();
    let mut remote = counted(&data, 64, 2);
    assert_eq!(remote.contains_many::<&str, _>(["", "007", "299", "300"]), Ok(vec![false, true, true, false]));
    for (low, high) in [("", "zz"), ("100", "120"), ("0999", "1000"), ("200", "100")] {
        let found: Result<Vec<String>, _> = remote.keys::<&str, &str>(low..high).collect();
        assert_eq!(found.unwrap(), words.iter().filter(|word| low <= &***word && &***word < high).cloned().collect::<Vec<_>>());
    }
}

#[test]
fn ranges_of_signed_numbers() {
    let entries: Vec<(i64, i64)> = (-100..100).map(|n| (n, -n)).collect();
    let data = entries.iter().copied().collect::<Builder<_, _>>().build_strict().unwrap();
    let mut remote = counted(&data, 64, 2);
    for low in [i64::MIN, -101, -100, -1, 0, 1, 99, 100] {
        let found: Result<Vec<_>, _> = remote.range::<i64, i64, _>(low..50).collect();
        assert_eq!(found.unwrap(), entries.iter().copied().filter(|entry| (low..50).contains(&entry.0)).collect::<Vec<_>>());
    }
}

#[test]
fn ranges_of_bytes() {
    let entries: Vec<(Vec<u8>, Vec<u8>)> = (0..200u8).map(|n| (vec![n, 0xff], vec![0xff; n as usize])).collect();
    let data = entries.iter().map(|(key, value)| (&**key, &**value)).collect::<Builder<&[u8], &[u8]>>().build_strict().unwrap();
    let mut remote = counted(&data, 64, 2);
    for low in [&b""[..], b"\x05", b"\x05\xff", b"\x05\xff\0", b"\xff"] {
        let found: Result<Vec<_>, _> = remote.range::<&[u8], &[u8], _>(low..).collect();
        assert_eq!(found.unwrap(), entries.iter().filter(|entry| &*entry.0 >= low).cloned().collect::<Vec<_>>());
    }
}

#[test]
fn ranges_of_texts() {
    let words: Vec<String> = ["", "a", "ab", "b", "ä", "\u{ffff}", "\u{10000}"].iter().map(|word| word.to_string()).collect();
    let data = words.iter().map(|word| (word.as_str(), word.len() as u64)).collect::<Builder<_, _>>().build_strict().unwrap();
    let mut remote = counted(&data, 16, 2);
    for (at, word) in words.iter().enumerate() {
        let found: Vec<_> = remote.range::<&str, u64, _>(word.as_str()..).map(|entry| entry.unwrap().0).collect();
        assert_eq!(found, words[at..]);
        let found: Vec<_> = remote.range::<&str, u64, _>(..=word.as_str()).map(|entry| entry.unwrap().0).collect();
        assert_eq!(found, words[..=at]);
    }
    assert_eq!(remote.range::<&str, u64, &str>(..).count(), words.len());
}

#[test]
fn a_range_of_bad_bytes() {
    let good = (0..40u32).map(|n| (n, "some text")).collect::<Builder<_, _>>().build().unwrap();
    let mut refused = 0;
    for at in 0..good.len() {
        for byte in [0, 1, 127, 128, 255] {
            let mut data = good.clone();
            data[at] = byte;
            let found = ranged(&mut counted(&data, 64, 2), Bound::Unbounded, Bound::Unbounded);
            let strict = Map::<u32, &str>::open_strict(&data);
            match (found, strict) {
                (Ok(found), Ok(map)) => assert!(map.iter().eq(found.iter().map(|entry| (entry.0, entry.1.as_str())))),
                (Ok(found), Err(_)) => assert!(found.is_sorted_by(|low, high| low.0 < high.0)),
                (Err(RemoteError::Archive(error)), Err(_)) => {
                    assert!((1..=9).contains(&error.code()));
                    refused += 1;
                }
                (found, _) => panic!("{found:?} of an archive"),
            }
        }
    }
    assert!(refused > 100, "{refused} refused");
}

#[test]
fn a_range_after_an_error() {
    let mut data = (0..40u32).map(|n| (n, n)).collect::<Builder<_, _>>().untyped().build().unwrap();
    data[0] = 7;
    let mut remote = counted(&data, 64, 2);
    let mut entries = remote.range::<u32, u32, u32>(..);
    assert!(matches!(entries.next(), Some(Err(RemoteError::Archive(error))) if (error.code(), error.position(), error.found()) == (3, 0, 7)));
    assert_eq!((entries.next(), entries.next()), (None, None));
    let unordered = Builder::new().entry(1u32, 0u32).entry(3, 0).entry(3, 0).build().unwrap();
    let mut remote = counted(&unordered, 64, 2);
    let last = remote.range::<u32, u32, u32>(..).last();
    assert!(matches!(last, Some(Err(RemoteError::Archive(error))) if (error.code(), error.found()) == (9, 2)));
    let mut short = Remote::new(Counted { data: &unordered, reads: 0 }, unordered.len() as u64 + 8);
    assert!(matches!(short.range::<u32, u32, u32>(..).next(), Some(Err(RemoteError::Read(_)))));
    for size in [0, 7, 1 << 32] {
        let mut remote = Remote::new(Counted { data: &unordered, reads: 0 }, size);
        let code = if size < 8 { 1 } else { 8 };
        assert!(matches!(remote.range::<u32, u32, u32>(..).next(), Some(Err(RemoteError::Archive(error))) if error.code() == code));
    }
}

/// A text that begins where the archive ends isn't before its own bytes, so it is refused. Nothing past the end is read for it.
#[test]
fn a_text_at_the_end() {
    let mut data = Builder::new().entry(1u32, "").build().unwrap();
    let value = data.len() - 8 - 4 - 8 * 5;
    let offset = (data.len() - value) as u32;
    data[value..value + 4].copy_from_slice(&offset.to_le_bytes());
    assert!(Map::<u32, &str>::open(&data).is_err());
    for block in [16, 4, data.len() as u32] {
        let mut remote = counted(&data, block, 4);
        assert!(matches!(remote.get::<u32, &str>(1), Err(RemoteError::Archive(_))));
        assert!(matches!(remote.get_many::<u32, &str, u32>([1]), Err(RemoteError::Archive(_))));
    }
}

/// Returns how many reads lookups of many keys take on average, and checks the values.
fn reads_a_lookup(mut remote: Remote<Counted<'_>>) -> f64 {
    for key in (0..4000u32).map(|n| n * 7919 % 1_000_000) {
        assert_eq!(remote.get::<u32, u32>(key), Ok(Some(key)));
    }
    remote.into_reader().reads as f64 / 4000.0
}

#[test]
fn reads_with_a_sidecar() {
    let data = (0..1_000_000u32).map(|n| (n, n)).collect::<Builder<_, _>>().build().unwrap();
    let top = Top::of::<u32, u32>(&data, 5, "").unwrap();
    assert!(top.to_bytes().len() < 1 << 19);
    let with = || counted(&data, 16384, 0).with_top::<u32, u32>(top.clone()).unwrap();
    assert!(reads_a_lookup(counted(&data, 16384, 0)) > 2.0);
    assert!(reads_a_lookup(with()) <= 1.0);
    let (mut remote, keys) = (with(), 0..1000);
    assert_eq!(remote.get_many::<u32, u32, _>(keys.clone()), Ok(keys.clone().map(Some).collect()));
    assert!(remote.into_reader().reads <= 3);
    let mut remote = counted(&data, 16384, 4).with_top::<u32, u32>(top.clone()).unwrap();
    assert_eq!(remote.range::<u32, u32, _>(keys.clone()).map(|entry| entry.unwrap().0).collect::<Vec<_>>(), keys.collect::<Vec<_>>());
    assert!(remote.into_reader().reads <= 3);
}

#[test]
fn many_keys_with_one_that_fails() {
    let data = (0..1000u32).map(|n| (n, n)).collect::<Builder<_, _>>().build().unwrap();
    let mut left = 3;
    let read = |position: u64, buffer: &mut [u8]| {
        left -= 1;
        let start = position as usize;
        buffer.copy_from_slice(&data[start..start + buffer.len()]);
        if left == 0 { Err("no network") } else { Ok(()) }
    };
    let mut remote = Remote::with_blocks(read, data.len() as u64, 256, 4);
    assert_eq!(remote.get_many::<u32, u32, _>([7, 800]), Err(RemoteError::Read("no network")));
    assert_eq!(remote.get_many::<u32, u32, _>([7, 1000, 7, 800]), Ok(vec![Some(7), None, Some(7), Some(800)]));
    assert_eq!(remote.get_many::<u32, u32, u32>([]), Ok(vec![]));
}

#[test]
fn sidecars_that_do_not_fit() {
    let data = (0..1000u32).map(|n| (n, n)).collect::<Builder<_, _>>().build().unwrap();
    let top = Top::of::<u32, u32>(&data, 2, "\"one\"").unwrap();
    assert_eq!((top.etag(), top.archive_size()), ("\"one\"", data.len() as u64));
    let bytes = top.to_bytes();
    assert_eq!(Top::from_bytes(&bytes), Ok(top.clone()));
    for cut in 0..bytes.len() {
        assert!(Top::from_bytes(&bytes[..cut]).is_err());
    }
    for at in 0..bytes.len() {
        let mut other = bytes.clone();
        other[at] ^= 1;
        let wanted = match at {
            0..8 => TopError::NoSidecar,
            8 => TopError::Version(0),
            9 => TopError::Version(1 + (1 << 8)),
            10 => TopError::Version(1 + (1 << 16)),
            11 => TopError::Version(1 + (1 << 24)),
            _ => TopError::Checksum,
        };
        assert_eq!(Top::from_bytes(&other), Err(wanted));
    }
    assert!(counted(&data, 64, 1).with_top::<u32, u64>(top.clone()).is_err_and(|error| error == TopError::OtherArchive));
    assert!(counted(&data[..data.len() - 8], 64, 1).with_top::<u32, u32>(top).is_err_and(|error| error == TopError::OtherArchive));
    for short in [0, 7] {
        assert!(Top::of::<u32, u32>(&data[..short], 1, "").is_err_and(|error| error.code() == 1));
    }
}

/// The sidecar is one that the Python package wrote of the archive of the same entries.
#[test]
fn a_sidecar_of_python() {
    let words: Vec<String> = (0..40).map(|n| format!("key {n:02}")).collect();
    let data = words.iter().zip(0..).map(|(word, n)| (word.as_str(), n)).collect::<Builder<&str, u32>>().untyped().build().unwrap();
    let hex = include_str!("sidecar.hex");
    let written: Vec<u8> = hex.split_whitespace().flat_map(|line| line.as_bytes().chunks(2)).map(digits).collect();
    assert_eq!(Top::of::<&str, u32>(&data, 1, "\"one\"").unwrap().to_bytes(), written);
    let top = Top::from_bytes(&written).unwrap();
    assert_eq!(counted(&data, 64, 2).with_top::<&str, u32>(top).unwrap().get::<&str, u32>("key 17"), Ok(Some(17)));
}

fn digits(pair: &[u8]) -> u8 {
    u8::from_str_radix(std::str::from_utf8(pair).unwrap(), 16).unwrap()
}
