//! What one lookup has read so far, and its next step over that.
use super::blocks::{Blocks, BEFORE};
use crate::field::sealed::{Passed, Query};
use crate::raw;
use std::ops::Range;

/// How a step ends.
pub enum Step {
    Found(raw::Item),
    Absent,
    Room(usize),
    Missing(Range<u64>),
    Refused(raw::Refusal),
}

/// The pieces of an archive that a lookup has.
#[derive(Default)]
pub struct Pieces {
    places: Vec<raw::Piece>,
    data: Vec<u8>,
}

impl Pieces {
    /// Adds the end of a piece that begins at `at`, from shortly before a part on.
    pub fn add(&mut self, at: u64, piece: &[u8], part: &Range<u64>) {
        let from = part.start.saturating_sub(BEFORE).max(at);
        let start = self.data.len();
        self.data.extend_from_slice(&piece[(from - at) as usize..(part.end - at) as usize]);
        self.place(from, start);
    }

    /// Adds a part with those bytes before it that the blocks have.
    pub fn add_of(&mut self, blocks: &mut Blocks, part: &Range<u64>) {
        let (from, start) = (blocks.begin_of(part), self.data.len());
        blocks.copy(from, part.end, &mut self.data);
        self.place(from, start);
    }

    /// Notes the place of the bytes from `start` on, which are the archive's from `pos` on.
    fn place(&mut self, pos: u64, start: usize) {
        let len = (self.data.len() - start) as u32;
        self.places.push(raw::Piece { pos: pos as u32, start: start as u32, len });
    }

    /// Looks a key up in the pieces. A text that is found is in `room`.
    pub fn step(&self, kind: u32, size: u64, query: Query<'_>, room: &mut [u8]) -> Step {
        let (mut value, mut why) = (raw::Item::default(), raw::Refusal::default());
        let (places, places_len) = (self.places.as_ptr(), self.places.len());
        let (data, data_len) = (self.data.as_ptr(), self.data.len());
        let (buffer, buffer_len) = (room.as_mut_ptr(), room.len());
        let code = match query.passed() {
            // SAFETY: each pointer and its length are those of one slice, which is borrowed during the call; the room overlaps no other.
            Passed::Number(number) => unsafe {
                raw::rkyv_btree_find_number_in(
                    kind, size, places, places_len, data, data_len, number, buffer, buffer_len, &mut value, &mut why,
                )
            },
            // SAFETY: the same.
            Passed::Bytes(bytes) => unsafe {
                raw::rkyv_btree_find_text_in(
                    kind,
                    size,
                    places,
                    places_len,
                    data,
                    data_len,
                    bytes.as_ptr(),
                    bytes.len(),
                    buffer,
                    buffer_len,
                    &mut value,
                    &mut why,
                )
            },
        };
        match (code, u64::try_from(why.at)) {
            (raw::OK, _) => Step::Found(value),
            (raw::NOT_FOUND, _) => Step::Absent,
            (raw::NO_ROOM, _) => Step::Room(why.found as usize),
            (raw::MISSING, Ok(start)) if start + why.found <= size => Step::Missing(start..start + why.found),
            _ => Step::Refused(raw::Refusal { code, ..why }),
        }
    }
}
