use crate::raw::{Column, Item, Type};

/// A type of keys or of values: `u32`, `u64`, `i64`, `&str` or `&[u8]`.
pub trait Field<'a>: Copy + sealed::Stored<'a> {}

impl<'a> Field<'a> for u32 {}
impl<'a> Field<'a> for u64 {}
impl<'a> Field<'a> for i64 {}
impl<'a> Field<'a> for &'a str {}
impl<'a> Field<'a> for &'a [u8] {}

/// What is looked up in a map with keys of type `K`: a number of that type, a text or bytes of any lifetime, or a reference to one of these.
pub trait AsKey<K>: sealed::Asked {}

impl AsKey<u32> for u32 {}
impl AsKey<u64> for u64 {}
impl AsKey<i64> for i64 {}
impl AsKey<&str> for str {}
impl AsKey<&str> for String {}
impl AsKey<&[u8]> for [u8] {}
impl<const N: usize> AsKey<&[u8]> for [u8; N] {}
impl AsKey<&[u8]> for Vec<u8> {}
impl<K, Q: AsKey<K> + ?Sized> AsKey<K> for &Q {}

/// The value of an entry of a set, which has no bytes.
#[derive(Clone, Copy)]
pub struct Nothing;

impl<'a> Field<'a> for Nothing {}

/// A type of values that are overwritten.
pub trait Number: sealed::Wide {}

impl Number for u32 {}
impl Number for u64 {}
impl Number for i64 {}

pub(crate) mod sealed {
    use super::{Column, Item, Nothing, Type};
    use std::ptr;

    /// What is asked for in a map.
    #[derive(Clone, Copy)]
    pub enum Query<'q> {
        Number(u64),
        Signed(i64),
        Text(&'q str),
        Bytes(&'q [u8]),
    }

    /// The same as C takes it: a number with a sign is in two's complement, and a text is its bytes.
    #[derive(Clone, Copy)]
    pub enum Passed<'q> {
        Number(u64),
        Bytes(&'q [u8]),
    }

    impl<'q> Query<'q> {
        pub fn passed(self) -> Passed<'q> {
            match self {
                Query::Number(number) => Passed::Number(number),
                Query::Signed(number) => Passed::Number(number as u64),
                Query::Text(text) => Passed::Bytes(text.as_bytes()),
                Query::Bytes(bytes) => Passed::Bytes(bytes),
            }
        }
    }

    /// A key or a value that is kept. Texts are compared as their bytes, as the order of an archive is.
    #[derive(Clone, Debug, PartialEq, Eq, PartialOrd, Ord)]
    pub enum Datum {
        Number(u64),
        Signed(i64),
        Text(String),
        Bytes(Vec<u8>),
    }

    pub trait Asked {
        fn query(&self) -> Query<'_>;
    }

    pub trait Wide: Copy {
        fn widened(self) -> u64;

        /// Returns the number that a map of this type has.
        fn narrowed(number: u64) -> Self;
    }

    /// Keys or values one after the other.
    #[derive(Default)]
    pub struct Cells {
        data: Vec<u8>,
        /// Where each text or byte string ends.
        ends: Vec<u64>,
        has_ends: bool,
    }

    impl Cells {
        fn number(&mut self, bytes: &[u8]) {
            self.data.extend_from_slice(bytes);
        }

        fn bytes(&mut self, bytes: &[u8]) {
            if self.ends.is_empty() {
                self.has_ends = true;
                self.ends.push(0);
            }
            self.data.extend_from_slice(bytes);
            self.ends.push(self.data.len() as u64);
        }

        /// Returns how many bytes they have if they are texts or byte strings, or 0.
        pub fn texts_len(&self) -> usize {
            if self.has_ends { self.data.len() } else { 0 }
        }

        /// Returns the column that C has of them while they are borrowed.
        pub fn column(&self) -> Column {
            Column {
                data: self.data.as_ptr(),
                data_len: self.data.len(),
                offsets: if self.has_ends { self.ends.as_ptr().cast() } else { ptr::null() },
                offsets_len: 8 * self.ends.len(),
                offset_size: 8,
            }
        }
    }

    pub trait Stored<'a>: Sized {
        /// Which type it is.
        const TYPE: Type;

        /// The same type, of a buffer that is borrowed for less time.
        type At<'s>: super::Field<'s>;

        /// The same type, of which nothing is borrowed: a `String` or a `Vec<u8>`.
        type Owned;

        /// Reads an item whose text or bytes are in `data`.
        fn read(data: &'a [u8], item: Item) -> Self;

        /// Returns a key or a value that was read in an archive of this type.
        fn owned(datum: Datum) -> Self::Owned;

        /// Puts it after others.
        fn put(self, cells: &mut Cells);
    }

    impl Asked for u32 {
        fn query(&self) -> Query<'_> {
            Query::Number(u64::from(*self))
        }
    }

    impl Asked for u64 {
        fn query(&self) -> Query<'_> {
            Query::Number(*self)
        }
    }

    impl Asked for i64 {
        fn query(&self) -> Query<'_> {
            Query::Signed(*self)
        }
    }

    impl Asked for str {
        fn query(&self) -> Query<'_> {
            Query::Text(self)
        }
    }

    impl Asked for String {
        fn query(&self) -> Query<'_> {
            Query::Text(self)
        }
    }

    impl Asked for [u8] {
        fn query(&self) -> Query<'_> {
            Query::Bytes(self)
        }
    }

    impl<const N: usize> Asked for [u8; N] {
        fn query(&self) -> Query<'_> {
            Query::Bytes(self)
        }
    }

    impl Asked for Vec<u8> {
        fn query(&self) -> Query<'_> {
            Query::Bytes(self)
        }
    }

    impl<Q: Asked + ?Sized> Asked for &Q {
        fn query(&self) -> Query<'_> {
            (**self).query()
        }
    }

    impl Wide for u32 {
        fn widened(self) -> u64 {
            u64::from(self)
        }

        fn narrowed(number: u64) -> u32 {
            number as u32
        }
    }

    impl Wide for u64 {
        fn widened(self) -> u64 {
            self
        }

        fn narrowed(number: u64) -> u64 {
            number
        }
    }

    impl Wide for i64 {
        fn widened(self) -> u64 {
            self as u64
        }

        fn narrowed(number: u64) -> i64 {
            number as i64
        }
    }

    impl<'a> Stored<'a> for u32 {
        const TYPE: Type = Type::U32;
        type At<'s> = u32;
        type Owned = u32;

        fn owned(datum: Datum) -> u32 {
            match datum {
                Datum::Number(number) => u32::narrowed(number),
                _ => 0,
            }
        }

        fn read(_data: &'a [u8], item: Item) -> u32 {
            item.number as u32
        }

        fn put(self, cells: &mut Cells) {
            cells.number(&self.to_le_bytes());
        }
    }

    impl<'a> Stored<'a> for u64 {
        const TYPE: Type = Type::U64;
        type At<'s> = u64;
        type Owned = u64;

        fn owned(datum: Datum) -> u64 {
            match datum {
                Datum::Number(number) => number,
                _ => 0,
            }
        }

        fn read(_data: &'a [u8], item: Item) -> u64 {
            item.number
        }

        fn put(self, cells: &mut Cells) {
            cells.number(&self.to_le_bytes());
        }
    }

    impl<'a> Stored<'a> for i64 {
        const TYPE: Type = Type::I64;
        type At<'s> = i64;
        type Owned = i64;

        fn owned(datum: Datum) -> i64 {
            match datum {
                Datum::Signed(number) => number,
                _ => 0,
            }
        }

        fn read(_data: &'a [u8], item: Item) -> i64 {
            item.number as i64
        }

        fn put(self, cells: &mut Cells) {
            cells.number(&self.to_le_bytes());
        }
    }

    impl<'a> Stored<'a> for Nothing {
        const TYPE: Type = Type::Empty;
        type At<'s> = Nothing;
        type Owned = Nothing;

        fn owned(_datum: Datum) -> Nothing {
            Nothing
        }

        fn read(_data: &'a [u8], _item: Item) -> Nothing {
            Nothing
        }

        fn put(self, _cells: &mut Cells) {}
    }

    impl<'a> Stored<'a> for &'a str {
        const TYPE: Type = Type::Text;
        type At<'s> = &'s str;
        type Owned = String;

        fn owned(datum: Datum) -> String {
            match datum {
                Datum::Text(text) => text,
                _ => String::new(),
            }
        }

        fn read(data: &'a [u8], item: Item) -> &'a str {
            let text = <&[u8]>::read(data, item);
            // SAFETY: the item is one of a validated map in `data`, or what a lookup has validated there. Its texts are UTF-8.
            unsafe { std::str::from_utf8_unchecked(text) }
        }

        fn put(self, cells: &mut Cells) {
            cells.bytes(self.as_bytes());
        }
    }

    impl<'a> Stored<'a> for &'a [u8] {
        const TYPE: Type = Type::Bytes;
        type At<'s> = &'s [u8];
        type Owned = Vec<u8>;

        fn owned(datum: Datum) -> Vec<u8> {
            match datum {
                Datum::Bytes(bytes) => bytes,
                _ => Vec::new(),
            }
        }

        fn read(data: &'a [u8], item: Item) -> &'a [u8] {
            let start = item.start as usize;
            data.get(start..start + item.len as usize).unwrap_or_default()
        }

        fn put(self, cells: &mut Cells) {
            cells.bytes(self);
        }
    }
}
