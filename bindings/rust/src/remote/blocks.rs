//! The blocks of an archive that were read last.
use super::ReadRange;
use std::collections::{BTreeMap, BTreeSet};
use std::ops::Range;

/// How many bytes before a missing part go with it into a piece, since what a node points to lies before it.
pub const BEFORE: u64 = 2048;

/// Blocks by their numbers, each with the time of its last use.
pub struct Blocks {
    archive: u64,
    size: u64,
    most: usize,
    now: u64,
    kept: BTreeMap<u64, (u64, Vec<u8>)>,
}

impl Blocks {
    pub fn new(archive: u64, size: u32, most: usize) -> Blocks {
        Blocks { archive, size: u64::from(size.max(1)), most, now: 0, kept: BTreeMap::new() }
    }

    /// Returns the numbers of the blocks that have a part.
    fn of(&self, part: &Range<u64>) -> Range<u64> {
        part.start / self.size..(part.end.max(1) - 1) / self.size + 1
    }

    /// Reads the blocks of parts that aren't kept, and contiguous ones of them by one request. With `more` the block before each is
    /// read too, where the subtree of a node lies.
    pub fn read<R: ReadRange>(&mut self, reader: &mut R, parts: &[Range<u64>], more: bool) -> Result<(), R::Error> {
        let mut lacking: BTreeSet<u64> = parts.iter().flat_map(|part| self.of(part)).collect();
        lacking.retain(|number| !self.kept.contains_key(number));
        if more {
            let before: Vec<u64> = lacking.iter().filter_map(|number| number.checked_sub(1)).collect();
            lacking.extend(before.into_iter().filter(|number| !self.kept.contains_key(number)));
        }
        self.now += 1;
        let mut runs: Vec<Range<u64>> = Vec::new();
        for number in lacking {
            match runs.last_mut() {
                Some(run) if run.end == number => run.end += 1,
                _ => runs.push(number..number + 1),
            }
        }
        for run in runs {
            let start = run.start * self.size;
            let mut data = vec![0; (self.archive.min(run.end * self.size) - start) as usize];
            reader.read_range(start, &mut data)?;
            for (number, block) in run.zip(data.chunks(self.size as usize)) {
                self.kept.insert(number, (self.now, block.to_vec()));
            }
        }
        Ok(())
    }

    /// Adds the bytes from `start` up to `end`, which lie in blocks that are kept.
    pub fn copy(&mut self, start: u64, end: u64, data: &mut Vec<u8>) {
        self.now += 1;
        let numbers = self.of(&(start..end));
        for (number, (used, block)) in self.kept.range_mut(numbers) {
            let at = number * self.size;
            let part = start.saturating_sub(at) as usize..(end - at).min(block.len() as u64) as usize;
            *used = self.now;
            data.extend_from_slice(block.get(part).unwrap_or_default());
        }
    }

    /// Returns where a piece with a part begins, of which the kept blocks have some bytes before it.
    pub fn begin_of(&self, part: &Range<u64>) -> u64 {
        let first = part.start / self.size;
        let least = first.checked_sub(1).filter(|number| self.kept.contains_key(number)).unwrap_or(first);
        part.start.saturating_sub(BEFORE).max(least * self.size)
    }

    /// Lets go what was used least recently.
    pub fn shrink(&mut self) {
        if self.kept.len() <= self.most {
            return;
        }
        let excess = self.kept.len() - self.most;
        let mut by_use: Vec<(u64, u64)> = self.kept.iter().map(|(number, (used, _))| (*used, *number)).collect();
        by_use.select_nth_unstable(excess - 1);
        for (_, number) in &by_use[..excess] {
            self.kept.remove(number);
        }
    }
}
