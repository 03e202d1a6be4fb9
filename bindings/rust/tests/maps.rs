//! Maps of each type of key and value, built and read back, and bytes that are no map.
use rkyv_btree::{contains, find, Builder, Edit, Error, Field, Map, Set, SetBuilder};
use std::collections::{BTreeMap, BTreeSet};

fn given_back<'a, K: Field<'a> + Ord + std::fmt::Debug, V: Field<'a> + PartialEq + std::fmt::Debug>(
    entries: &[(K, V)],
    bytes: &'a mut Vec<u8>,
) {
    *bytes = entries.iter().copied().collect::<Builder<K, V>>().build_strict().unwrap();
    let map = Map::<K, V>::open_strict(bytes).unwrap();
    assert_eq!(map.len(), entries.len());
    assert_eq!(map.is_empty(), entries.is_empty());
    assert_eq!(map.iter().collect::<Vec<_>>(), entries);
    assert!(map.keys().eq(entries.iter().map(|entry| entry.0)));
    assert!(map.values().eq(entries.iter().map(|entry| entry.1)));
}

#[test]
fn sizes() {
    for len in [0, 1, 31, 32, 33, 64, 100] {
        let bytes = (0..len).map(|n| (n, "text")).collect::<Builder<u32, _>>().build().unwrap();
        let map = Map::<u32, &str>::open(&bytes).unwrap();
        let (mut entries, mut keys, mut values) = (map.iter(), map.keys(), map.values());
        for left in (0..=len as usize).rev() {
            assert_eq!([entries.len(), keys.len(), values.len()], [left; 3]);
            assert_eq!(entries.size_hint(), (left, Some(left)));
            let next = (entries.next(), keys.next(), values.next());
            assert!(next.0.is_some() == (left > 0) && next.0 == next.1.zip(next.2));
        }
        assert_eq!((entries.len(), entries.next()), (0, None));
    }
}

#[test]
fn keys_by_reference() {
    let bytes = Builder::new().entry("a", 1u64).entry("b", 2).build().unwrap();
    let map = Map::<&str, u64>::open(&bytes).unwrap();
    let (text, words) = (String::from("b"), ["b"]);
    assert_eq!([map.get(&text), map.get(text.as_str()), map.get(words[0]), map.get(&words[0])], [Some(2); 4]);
    assert_eq!(find::<&str, u64>(&bytes, &text).unwrap(), Some(2));
    assert!(map.contains_key(&text) && map.range(text..).eq([("b", 2)]));
    let mut bytes = Builder::new().entry(7u64, 1u32).build().unwrap();
    assert!(Edit::<u64, u32>::open(&mut bytes).unwrap().set(&7, 2));
    let map = Map::<u64, u32>::open(&bytes).unwrap();
    assert_eq!((map.get(&7), map.get(7)), (Some(2), Some(2)));
}

#[test]
fn refusals_are_errors() {
    fn count(bytes: &[u8]) -> Result<usize, Box<dyn std::error::Error>> {
        Ok(Map::<u32, u32>::open(bytes)?.len())
    }
    let mut bytes = Builder::new().entry(1u32, 2u32).untyped().build().unwrap();
    assert_eq!(count(&bytes).unwrap(), 1);
    bytes[0] = 7;
    assert_eq!(count(&bytes).unwrap_err().to_string(), "the byte is the kind of no node at position 0");
}

#[test]
fn all_types() {
    let numbers: Vec<u32> = (0..1000).map(|n| 7 * n).collect();
    let texts: Vec<String> = (0..1000).map(|n| format!("key {n:05}")).collect();
    let signed: Vec<i64> = (0..1000).map(|n| (n - 500) * (i64::MAX / 500)).collect();
    let mut bytes: Vec<Vec<u8>> = vec![Vec::new(); 16];
    let mut bytes = bytes.iter_mut();
    let all = 0..1000;
    given_back(&all.clone().map(|i| (numbers[i], numbers[i])).collect::<Vec<_>>(), bytes.next().unwrap());
    given_back(&all.clone().map(|i| (numbers[i], u64::MAX - i as u64)).collect::<Vec<_>>(), bytes.next().unwrap());
    given_back(&all.clone().map(|i| (numbers[i], &*texts[i])).collect::<Vec<_>>(), bytes.next().unwrap());
    given_back(&all.clone().map(|i| (u64::MAX - 1000 + i as u64, numbers[i])).collect::<Vec<_>>(), bytes.next().unwrap());
    given_back(&all.clone().map(|i| (i as u64, i as u64)).collect::<Vec<_>>(), bytes.next().unwrap());
    given_back(&all.clone().map(|i| (i as u64, &*texts[i])).collect::<Vec<_>>(), bytes.next().unwrap());
    given_back(&all.clone().map(|i| (&*texts[i], numbers[i])).collect::<Vec<_>>(), bytes.next().unwrap());
    given_back(&all.clone().map(|i| (&*texts[i], i as u64)).collect::<Vec<_>>(), bytes.next().unwrap());
    given_back(&all.clone().map(|i| (&*texts[i], &*texts[i])).collect::<Vec<_>>(), bytes.next().unwrap());
    given_back(&all.clone().map(|i| (numbers[i], signed[i])).collect::<Vec<_>>(), bytes.next().unwrap());
    given_back(&all.clone().map(|i| (i as u64, signed[i])).collect::<Vec<_>>(), bytes.next().unwrap());
    given_back(&all.clone().map(|i| (signed[i], numbers[i])).collect::<Vec<_>>(), bytes.next().unwrap());
    given_back(&all.clone().map(|i| (signed[i], i as u64)).collect::<Vec<_>>(), bytes.next().unwrap());
    given_back(&all.clone().map(|i| (signed[i], !signed[999 - i])).collect::<Vec<_>>(), bytes.next().unwrap());
    given_back(&all.clone().map(|i| (signed[i], &*texts[i])).collect::<Vec<_>>(), bytes.next().unwrap());
    given_back(&all.map(|i| (&*texts[i], signed[i])).collect::<Vec<_>>(), bytes.next().unwrap());
}

#[test]
fn bytes() {
    let keys: Vec<Vec<u8>> = (0..=255u8).map(|n| vec![n; n as usize % 40]).collect::<BTreeSet<_>>().into_iter().collect();
    let texts: Vec<String> = (0..keys.len()).map(|n| format!("key {n:05}")).collect();
    let mut archives = vec![Vec::new(); 9];
    let mut archives = archives.iter_mut();
    let all = 0..keys.len();
    given_back(&all.clone().map(|i| (i as u32, &*keys[i])).collect::<Vec<_>>(), archives.next().unwrap());
    given_back(&all.clone().map(|i| (i as u64, &*keys[i])).collect::<Vec<_>>(), archives.next().unwrap());
    given_back(&all.clone().map(|i| (i as i64 - 9, &*keys[i])).collect::<Vec<_>>(), archives.next().unwrap());
    given_back(&all.clone().map(|i| (&*texts[i], &*keys[i])).collect::<Vec<_>>(), archives.next().unwrap());
    given_back(&all.clone().map(|i| (&*keys[i], i as u32)).collect::<Vec<_>>(), archives.next().unwrap());
    given_back(&all.clone().map(|i| (&*keys[i], i as u64)).collect::<Vec<_>>(), archives.next().unwrap());
    given_back(&all.clone().map(|i| (&*keys[i], -(i as i64))).collect::<Vec<_>>(), archives.next().unwrap());
    given_back(&all.clone().map(|i| (&*keys[i], &*texts[i])).collect::<Vec<_>>(), archives.next().unwrap());
    given_back(&all.clone().map(|i| (&*keys[i], &*keys[i])).collect::<Vec<_>>(), archives.next().unwrap());
    let mut set = Vec::new();
    set_given_back(&keys.iter().map(Vec::as_slice).collect::<Vec<_>>(), &mut set);
    let mut bytes = Builder::new().entry(&b"\x80"[..], 1u32).entry(&b"\xff\xfe"[..], 2).build_strict().unwrap();
    let map = Map::<&[u8], u32>::open_strict(&bytes).unwrap();
    assert_eq!([map.get(b"\xff\xfe"), map.get(&b"\x80"[..]), map.get(vec![0x80])], [Some(2), Some(1), Some(1)]);
    assert_eq!(map.get(b"\xff"), None);
    assert_eq!(map.range::<[u8; 1], _>(b"\x81".to_owned()..).count(), 1);
    assert_eq!(find::<&[u8], u32>(&bytes, b"\x80").unwrap(), Some(1));
    assert!(Edit::<&[u8], u32>::open(&mut bytes).unwrap().set(b"\x80", 3));
    let named = Builder::new().entry(1u32, &b"one\xff"[..]).build().unwrap();
    assert_eq!(&Map::<u32, &[u8]>::open(&named).unwrap()[1], b"one\xff");
}

#[test]
fn signed_keys() {
    let entries: Vec<(i64, i64)> = (-50..50).map(|n| (3 * n, -n)).collect();
    let mut bytes = entries.iter().copied().collect::<Builder<i64, i64>>().build_strict().unwrap();
    let std: BTreeMap<i64, i64> = entries.iter().copied().collect();
    let map = Map::<i64, i64>::open_strict(&bytes).unwrap();
    for key in (-155..155).chain([i64::MIN, i64::MAX]) {
        assert_eq!(map.get(key), std.get(&key).copied());
        assert_eq!(find::<i64, i64>(&bytes, key).unwrap(), std.get(&key).copied());
        assert!(map.range(key..).eq(std.range(key..).map(|e| (*e.0, *e.1))));
        assert!(map.range(-9..=key).eq(std.range(-9..=key.max(-9)).filter(|e| *e.0 <= key).map(|e| (*e.0, *e.1))));
    }
    let mut edit = Edit::<i64, i64>::open(&mut bytes).unwrap();
    assert!(edit.set(-3, i64::MIN) && !edit.set(-2, 1));
    assert_eq!((edit.get(-3), edit.get(3)), (Some(i64::MIN), Some(-1)));
}

fn set_given_back<'a, K: Field<'a> + Ord + std::fmt::Debug>(keys: &[K], bytes: &'a mut Vec<u8>) {
    *bytes = keys.iter().copied().collect::<SetBuilder<K>>().build_strict().unwrap();
    let set = Set::<K>::open_strict(bytes).unwrap();
    assert_eq!((set.len(), set.is_empty(), set.iter().len()), (keys.len(), keys.is_empty(), keys.len()));
    assert!(set.iter().eq(keys.iter().copied()) && set.into_iter().eq(keys.iter().copied()));
}

#[test]
fn sets() {
    let texts: Vec<String> = (0..300).map(|n| format!("key {n:05}")).collect();
    for len in [0, 1, 5, 6, 300] {
        let mut bytes = vec![Vec::new(); 4];
        let [a, b, c, d] = &mut bytes[..] else { panic!() };
        set_given_back(&(0..len as u32).collect::<Vec<_>>(), a);
        set_given_back(&(0..len as u64).map(|n| n << 40).collect::<Vec<_>>(), b);
        set_given_back(&(0..len as i64).map(|n| n - 100).collect::<Vec<_>>(), c);
        set_given_back(&texts[..len].iter().map(String::as_str).collect::<Vec<_>>(), d);
    }
    let bytes = (-50..50i64).map(|n| 2 * n).collect::<SetBuilder<_>>().build().unwrap();
    let set = Set::<i64>::open(&bytes).unwrap();
    let std: BTreeSet<i64> = set.iter().collect();
    for key in -102..102 {
        assert_eq!((set.contains(key), set.get(key)), (std.contains(&key), std.get(&key).copied()));
        assert_eq!(contains::<i64>(&bytes, key).unwrap(), std.contains(&key));
        assert!(set.range(key..).eq(std.range(key..).copied()));
    }
    assert_eq!(contains::<i64>(&bytes[..6], 0).unwrap_err().code(), 1);
    assert_eq!(SetBuilder::from_iter([2u32, 1]).build_strict().unwrap_err().found(), 1);
    let few = SetBuilder::from_iter(["a", "b"]).build().unwrap();
    assert_eq!(format!("{:?}", Set::<&str>::open(&few).unwrap()), "{\"a\", \"b\"}");
    assert!(Map::<&str, u32>::open(&few).is_err());
}

#[test]
fn all_lengths() {
    for len in 0..300u32 {
        let entries: Vec<(u32, u64)> = (0..len).map(|n| (2 * n, u64::from(n))).collect();
        let mut bytes = Vec::new();
        given_back(&entries, &mut bytes);
        let std: BTreeMap<u32, u64> = entries.iter().copied().collect();
        let map = Map::<u32, u64>::open(&bytes).unwrap();
        for key in 0..2 * len + 1 {
            assert_eq!(map.get(key), std.get(&key).copied());
            let range: Vec<_> = map.range(key..).collect();
            assert_eq!(range, std.range(key..).map(|e| (*e.0, *e.1)).collect::<Vec<_>>());
        }
    }
}

#[test]
fn ranges() {
    let words = ["ant", "bee", "cat", "dog", "elk", "fox", "gnu"];
    let bytes = words.iter().map(|w| (*w, w.len() as u32)).collect::<Builder<_, _>>().build().unwrap();
    let map = Map::<&str, u32>::open(&bytes).unwrap();
    let keys = |low: &str, high: &str| map.range(low..high).map(|e| e.0).collect::<Vec<_>>();
    assert_eq!(keys("bee", "dog"), ["bee", "cat"]);
    assert_eq!(keys("b", "d"), ["bee", "cat"]);
    assert_eq!(map.range("bee"..="dog").count(), 3);
    assert_eq!(map.range(.."bee").count(), 1);
    let after = (std::ops::Bound::Excluded("bee"), std::ops::Bound::<&str>::Unbounded);
    assert_eq!(map.range::<&str, _>(after).count(), 5);
    assert_eq!(map.get("cow"), None);
    assert!(map.contains_key(String::from("cat")));
    assert_eq!(map.into_iter().count(), 7);
}

#[test]
fn index() {
    let bytes = Builder::new().entry(1u32, "one").entry(2, "two").build().unwrap();
    let map = Map::<u32, &str>::open(&bytes).unwrap();
    assert_eq!(&map[2], "two");
    assert_eq!(format!("{map:?}"), "{1: \"one\", 2: \"two\"}");
}

#[test]
fn edits() {
    let mut bytes = Builder::new().entry("a", 1u32).entry("b", 2).build().unwrap();
    let mut edit = Edit::<&str, u32>::open(&mut bytes).unwrap();
    assert!(edit.set("b", 20));
    assert!(!edit.set("c", 30));
    let map = Map::<&str, u32>::open(&bytes).unwrap();
    assert_eq!(map.iter().collect::<Vec<_>>(), [("a", 1), ("b", 20)]);
}

#[test]
fn edits_are_read() {
    let entries: Vec<_> = (0..1000u32).map(|n| (format!("{n:04}"), n)).collect();
    let mut bytes = entries.iter().map(|entry| (entry.0.as_str(), entry.1)).collect::<Builder<_, _>>().build().unwrap();
    let mut edit = Edit::<&str, u32>::open(&mut bytes).unwrap();
    assert_eq!((edit.len(), edit.is_empty()), (1000, false));
    assert!(edit.set("0500", 7) && !edit.set("absent", 7));
    assert_eq!([edit.get("0500"), edit.get("0501"), edit.get("absent")], [Some(7), Some(501), None]);
    let map = edit.map();
    assert_eq!(map.range("0499".."0502").collect::<Vec<_>>(), [("0499", 499), ("0500", 7), ("0501", 501)]);
    assert!(edit.set("0999", u32::MAX));
    assert_eq!(edit.map().iter().last(), Some(("0999", u32::MAX)));
    assert_eq!(Map::<&str, u32>::open(&bytes).unwrap().get("0500"), Some(7));
}

#[test]
fn an_entry_out_of_order() {
    for at in [1, 2, 5, 6, 999] {
        let builder: Builder<u64, &str> = (0..1000).map(|n| (if n == at { n - 1 } else { n }, "text")).collect();
        let error = builder.build_strict().unwrap_err();
        assert_eq!((error.code(), error.found()), (37, at));
        assert_eq!(error.to_string(), format!("the keys don't increase at entry {at}"));
        assert_eq!(Map::<u64, &str>::open(&builder.build().unwrap()).unwrap().len(), 1000);
    }
}

#[test]
fn refusals() {
    fn code(bytes: &[u8]) -> Option<u32> {
        Map::<u32, u32>::open(bytes).err().map(|e: Error| e.code())
    }
    assert_eq!(code(&[]), Some(1));
    assert_eq!(code(&[0; 7]), Some(1));
    let mut bytes = Builder::new().entry(1u32, 2u32).untyped().build().unwrap();
    assert_eq!(code(&bytes), None);
    bytes[0] = 7;
    let error = Map::<u32, u32>::open(&bytes).err().unwrap();
    assert_eq!((error.code(), error.position(), error.found()), (3, 0, 7));
    assert_eq!(error.to_string(), "the byte is the kind of no node at position 0");
    let unordered = Builder::new().entry(2u32, 0u32).entry(1, 0);
    assert_eq!(unordered.build_strict().err().unwrap().code(), 37);
    let bytes = unordered.build().unwrap();
    assert_eq!(code(&bytes), None);
    assert_eq!(Map::<u32, u32>::open_strict(&bytes).err().unwrap().to_string(), "a key isn't greater than the key before it at entry 1");
}

#[test]
fn no_bytes_crash() {
    let good = (0..40u32).map(|n| (n, n)).collect::<Builder<_, _>>().build().unwrap();
    for at in 0..good.len() {
        for byte in [0, 1, 2, 127, 128, 255] {
            let mut bytes = good.clone();
            bytes[at] = byte;
            if let Ok(map) = Map::<u32, u32>::open(&bytes) {
                assert_eq!(map.iter().count(), map.len());
            }
        }
    }
}

#[test]
fn found_unvalidated() {
    let entries: Vec<(u32, u64)> = (0..300).map(|n| (2 * n, u64::from(n))).collect();
    let bytes = entries.iter().copied().collect::<Builder<_, _>>().build().unwrap();
    let map = Map::<u32, u64>::open(&bytes).unwrap();
    for key in 0..700 {
        assert_eq!(find::<u32, u64>(&bytes, key).unwrap(), map.get(key));
    }
    let texts = Builder::new().entry("a", "one").entry("b", "two").build().unwrap();
    assert_eq!(find::<&str, &str>(&texts, "b").unwrap(), Some("two"));
    assert_eq!(find::<&str, &str>(&texts, String::from("c")).unwrap(), None);
    assert_eq!(find::<u32, u32>(&[], 1).err().unwrap().code(), 1);
    assert_eq!(find::<u32, u32>(&[0; 8], 1).unwrap(), None);
}

#[test]
fn no_bytes_crash_a_lookup() {
    let good = (0..40u32).map(|n| (n, "some text")).collect::<Builder<_, _>>().build().unwrap();
    for at in 0..good.len() {
        for byte in [0, 1, 2, 127, 128, 255] {
            let mut bytes = good.clone();
            bytes[at] = byte;
            for key in 0..41 {
                let found = find::<u32, &str>(&bytes, key);
                if let Ok(map) = Map::<u32, &str>::open(&bytes) {
                    assert_eq!(found.unwrap(), map.get(key));
                } else if let Ok(Some(text)) = found {
                    assert!(std::str::from_utf8(text.as_bytes()).is_ok());
                }
            }
        }
    }
}

// The lines are run as the example of the crate's page.
#[test]
fn readme() {
    let lines = include_str!("../five_lines.rs");
    assert_eq!(lines.lines().count(), 5);
    assert!(include_str!("../README.md").contains(&format!("```rust\n{lines}```\n")));
    assert!(include_str!("../../../docs/EMBEDDING.md").contains(&format!("```rs\n{lines}```\n")));
}
