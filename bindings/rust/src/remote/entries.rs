//! The entries of a range in an archive that lies elsewhere.
use super::{ReadRange, Remote, RemoteError};
use crate::error::Error;
use crate::field::sealed::{Datum, Query, Stored};
use crate::field::{AsKey, Field, Nothing};
use crate::nodes::{decoded, Cell, Layout, LEVELS, ROOT};
use crate::raw;
use std::iter::FusedIterator;
use std::marker::PhantomData;
use std::ops::{Bound, Range, RangeBounds};

/// What is still to do: a subtree, or an entry.
enum Task {
    Subtree { pos: i64, level: u32 },
    Entry { key: Datum, value: Cell },
}

/// The entries of an archive that lies elsewhere between two bounds, in their order. After an error there are none.
pub struct RemoteRange<'r, R, K, V> {
    remote: &'r mut Remote<R>,
    layout: Layout,
    low: Bound<Datum>,
    high: Bound<Datum>,
    /// In reverse, or `None` before the first entry.
    tasks: Option<Vec<Task>>,
    last: Option<Datum>,
    count: u64,
    passed: u64,
    ended: bool,
    of: PhantomData<(K, V)>,
}

/// An entry of which nothing is borrowed.
type Owned<'r, K, V> = (<K as Stored<'r>>::Owned, <V as Stored<'r>>::Owned);

fn owned<Q: AsKey<K>, K>(bound: Bound<&Q>) -> Bound<Datum> {
    bound.map(|key| match key.query() {
        Query::Number(number) => Datum::Number(number),
        Query::Signed(number) => Datum::Signed(number),
        Query::Text(text) => Datum::Text(text.to_owned()),
        Query::Bytes(bytes) => Datum::Bytes(bytes.to_owned()),
    })
}

fn refused<E>(code: u32, at: i64, found: u64, allowed: u64) -> RemoteError<E> {
    RemoteError::Archive(Error::refused(raw::Refusal { code, at, found, allowed }))
}

impl<'r, R: ReadRange, K: Field<'r>, V: Field<'r>> RemoteRange<'r, R, K, V> {
    pub(super) fn new<Q: AsKey<K>>(remote: &'r mut Remote<R>, bounds: impl RangeBounds<Q>) -> RemoteRange<'r, R, K, V> {
        RemoteRange {
            layout: Layout::new(K::TYPE, V::TYPE, remote.size),
            remote,
            low: owned(bounds.start_bound()),
            high: owned(bounds.end_bound()),
            tasks: None,
            last: None,
            count: 0,
            passed: 0,
            ended: false,
            of: PhantomData,
        }
    }

    fn part(&mut self, part: Range<u64>) -> Result<Vec<u8>, RemoteError<R::Error>> {
        self.remote.part(part).map_err(RemoteError::Read)
    }

    fn datum(&mut self, cell: Cell) -> Result<Datum, RemoteError<R::Error>> {
        Ok(match cell {
            Cell::Number(number) => Datum::Number(number),
            Cell::Signed(number) => Datum::Signed(number),
            Cell::Text { start, len } => {
                let part = self.layout.bytes_at(start, len)?;
                Datum::Text(decoded(part.start, self.part(part.clone())?)?)
            }
            Cell::Bytes { start, len } => {
                let part = self.layout.bytes_at(start, len)?;
                Datum::Bytes(self.part(part)?)
            }
        })
    }

    /// Reads the map's own bytes.
    fn start(&mut self) -> Result<Vec<Task>, RemoteError<R::Error>> {
        let at = self.layout.root_at()?;
        let own = self.part(at..at + ROOT)?;
        let (pos, count) = self.layout.root(&own);
        self.count = count;
        Ok(if count > 0 { vec![Task::Subtree { pos, level: 0 }] } else { Vec::new() })
    }

    /// Returns what comes in a node from the low bound on, in reverse: its children, and its entries between them.
    fn within(&mut self, pos: i64, level: u32) -> Result<Vec<Task>, RemoteError<R::Error>> {
        let at = self.layout.checked(pos)?;
        if level == LEVELS {
            return Err(refused(raw::TOO_DEEP, pos, 0, 0));
        }
        let mut data = self.part(at..at + self.layout.leaf_size)?;
        let size = self.layout.size_of(data.first().copied().unwrap_or_default(), at)?;
        if size > self.layout.leaf_size {
            data = self.part(at..at + size)?;
        }
        let node = self.layout.node(at, &data)?;
        let mut children = node.children.into_iter();
        let mut child = || children.next().flatten().map(|pos| Task::Subtree { pos, level: level + 1 });
        let mut tasks = Vec::new();
        for (key, value) in node.keys.into_iter().zip(node.values) {
            let (key, child) = (self.datum(key)?, child());
            if !self.is_below(&key) {
                tasks.extend(child);
                tasks.push(Task::Entry { key, value });
            }
        }
        tasks.extend(child());
        tasks.reverse();
        Ok(tasks)
    }

    fn is_below(&self, key: &Datum) -> bool {
        match &self.low {
            Bound::Unbounded => false,
            Bound::Included(low) => key < low,
            Bound::Excluded(low) => key <= low,
        }
    }

    fn is_above(&self, key: &Datum) -> bool {
        match &self.high {
            Bound::Unbounded => false,
            Bound::Included(high) => key > high,
            Bound::Excluded(high) => key >= high,
        }
    }

    /// Returns the next entry, or `None` at the end of the range.
    fn step(&mut self) -> Result<Option<Owned<'r, K, V>>, RemoteError<R::Error>> {
        let mut tasks = match self.tasks.take() {
            Some(tasks) => tasks,
            None => self.start()?,
        };
        while let Some(task) = tasks.pop() {
            let (key, value) = match task {
                Task::Subtree { pos, level } => {
                    tasks.extend(self.within(pos, level)?);
                    continue;
                }
                Task::Entry { key, value } => (key, value),
            };
            if self.last.as_ref().is_some_and(|last| key <= *last) {
                return Err(refused(raw::OUT_OF_ORDER, 0, self.passed, 0));
            }
            if self.is_above(&key) {
                return Ok(None);
            }
            self.passed += 1;
            let value = self.datum(value)?;
            self.last = Some(key.clone());
            self.tasks = Some(tasks);
            return Ok(Some((K::owned(key), V::owned(value))));
        }
        let whole = matches!((&self.low, &self.high), (Bound::Unbounded, Bound::Unbounded));
        if whole && self.passed != self.count {
            return Err(refused(raw::LENGTH_MISMATCH, 0, self.passed, self.count));
        }
        Ok(None)
    }
}

impl<'r, R: ReadRange, K: Field<'r>, V: Field<'r>> Iterator for RemoteRange<'r, R, K, V> {
    type Item = Result<(K::Owned, V::Owned), RemoteError<R::Error>>;

    fn next(&mut self) -> Option<Self::Item> {
        if self.ended {
            return None;
        }
        let next = self.step();
        self.ended = !matches!(next, Ok(Some(_)));
        next.transpose()
    }
}

impl<'r, R: ReadRange, K: Field<'r>, V: Field<'r>> FusedIterator for RemoteRange<'r, R, K, V> {}

/// The keys of a set that lies elsewhere between two bounds, in their order. After an error there are none.
pub struct RemoteKeys<'r, R, K> {
    entries: RemoteRange<'r, R, K, Nothing>,
}

impl<'r, R: ReadRange, K: Field<'r>> RemoteKeys<'r, R, K> {
    pub(super) fn new<Q: AsKey<K>>(remote: &'r mut Remote<R>, bounds: impl RangeBounds<Q>) -> RemoteKeys<'r, R, K> {
        RemoteKeys { entries: RemoteRange::new(remote, bounds) }
    }
}

impl<'r, R: ReadRange, K: Field<'r>> Iterator for RemoteKeys<'r, R, K> {
    type Item = Result<K::Owned, RemoteError<R::Error>>;

    fn next(&mut self) -> Option<Self::Item> {
        self.entries.next().map(|entry| entry.map(|(key, _)| key))
    }
}

impl<'r, R: ReadRange, K: Field<'r>> FusedIterator for RemoteKeys<'r, R, K> {}
