use crate::error::Error;
use crate::field::Field;
use crate::map::type_number;
use crate::nodes::{Cell, Layout, ROOT};
use crate::sha256::sha256;
use std::collections::BTreeSet;
use std::fmt;

const MAGIC: &[u8] = b"btreetop";
const VERSION: u32 = 1;
const DIGEST: usize = 32;
/// The magic, the version, the number of the type, the archive's size and SHA-256, the bytes of the ETag, and the number of pieces.
const HEADER: usize = 8 + 4 + 4 + 8 + DIGEST + 4 + 4;
/// Parts with fewer bytes than this between them are one piece.
const GAP: u64 = 64;

/// Why bytes are no sidecar, or a sidecar isn't that of an archive.
#[derive(Debug, Clone, Copy, PartialEq, Eq)]
pub enum TopError {
    /// The bytes don't begin as a sidecar does.
    NoSidecar,
    /// The sidecar has a version that isn't known.
    Version(u32),
    /// The sidecar isn't whole: its checksum differs.
    Checksum,
    /// The sidecar is that of another archive: its type or its size differs.
    OtherArchive,
}

impl fmt::Display for TopError {
    fn fmt(&self, f: &mut fmt::Formatter<'_>) -> fmt::Result {
        match self {
            TopError::NoSidecar => f.write_str("the bytes are no sidecar"),
            TopError::Version(version) => write!(f, "a sidecar of version {version} isn't known"),
            TopError::Checksum => f.write_str("the sidecar isn't whole: its checksum differs"),
            TopError::OtherArchive => f.write_str("the sidecar is that of another archive: its type or its size differs"),
        }
    }
}

impl std::error::Error for TopError {}

/// A sidecar: the first levels of an archive's tree, with which a lookup elsewhere is one read. It can be kept as a small file.
///
/// # Examples
///
/// ```
/// use rkyv_btree::{Builder, Remote, Top};
/// let bytes = Builder::new().entry("apple", 3u32).entry("pear", 5).build()?;
/// let sidecar = Top::of::<&str, u32>(&bytes, 5, "")?.to_bytes();
/// let unread = |_: u64, _: &mut [u8]| Err("nothing is read");
/// let mut prices = Remote::new(unread, bytes.len() as u64).with_top::<&str, u32>(Top::from_bytes(&sidecar).unwrap()).unwrap();
/// assert_eq!(prices.get::<&str, u32>("pear"), Ok(Some(5)));
/// # Ok::<(), rkyv_btree::Error>(())
/// ```
#[derive(Debug, Clone, PartialEq, Eq)]
pub struct Top {
    kind: u32,
    size: u64,
    sha256: [u8; DIGEST],
    etag: String,
    pieces: Kept,
}

impl Top {
    /// Returns the sidecar of an archive: its nodes of the first `levels` levels, and the texts or bytes of their keys. No value's are in it.
    ///
    /// `etag` is that of the object which the archive will be behind HTTP, or empty. At least one level is taken.
    ///
    /// # Errors
    ///
    /// The first fault in a node that is read. The other nodes aren't validated.
    pub fn of<'a, K: Field<'a>, V: Field<'a>>(data: &[u8], levels: u32, etag: &str) -> Result<Top, Error> {
        let layout = Layout::new(K::TYPE, V::TYPE, data.len() as u64);
        let pieces = joined(parts(data, &layout, levels.max(1))?);
        Ok(Top {
            kind: type_number::<K, V>(),
            size: layout.size,
            sha256: sha256(data),
            etag: etag.to_owned(),
            pieces: Kept(pieces.map(|(start, end)| (start, data[start as usize..end as usize].to_vec())).collect()),
        })
    }

    /// Reads a sidecar, as `to_bytes` or the Python package writes it.
    ///
    /// # Errors
    ///
    /// If the bytes are no sidecar, or not all of one.
    pub fn from_bytes(data: &[u8]) -> Result<Top, TopError> {
        let (body, digest) = data.split_at(data.len().saturating_sub(DIGEST));
        if !body.starts_with(MAGIC) || body.len() < HEADER {
            return Err(TopError::NoSidecar);
        }
        let mut fields = Fields(&body[MAGIC.len()..]);
        match fields.number() {
            Some(VERSION) => {}
            version => return Err(version.map_or(TopError::NoSidecar, TopError::Version)),
        }
        if sha256(body) != digest {
            return Err(TopError::Checksum);
        }
        fields.top().ok_or(TopError::NoSidecar)
    }

    /// Returns the bytes of the sidecar.
    pub fn to_bytes(&self) -> Vec<u8> {
        let mut bytes = MAGIC.to_vec();
        bytes.extend_from_slice(&VERSION.to_le_bytes());
        bytes.extend_from_slice(&self.kind.to_le_bytes());
        bytes.extend_from_slice(&self.size.to_le_bytes());
        bytes.extend_from_slice(&self.sha256);
        bytes.extend_from_slice(&(self.etag.len() as u32).to_le_bytes());
        bytes.extend_from_slice(&(self.pieces.0.len() as u32).to_le_bytes());
        bytes.extend_from_slice(self.etag.as_bytes());
        for (start, piece) in &self.pieces.0 {
            bytes.extend_from_slice(&(*start as u32).to_le_bytes());
            bytes.extend_from_slice(&(piece.len() as u32).to_le_bytes());
        }
        self.pieces.0.iter().for_each(|(_, piece)| bytes.extend_from_slice(piece));
        let digest = sha256(&bytes);
        bytes.extend_from_slice(&digest);
        bytes
    }

    /// Returns how many bytes the archive has.
    pub fn archive_size(&self) -> u64 {
        self.size
    }

    /// Returns the SHA-256 of the archive. Nothing compares it with the archive that is read.
    pub fn archive_sha256(&self) -> &[u8; 32] {
        &self.sha256
    }

    /// Returns the ETag of the archive's object, which is empty if it wasn't known.
    pub fn etag(&self) -> &str {
        &self.etag
    }

    /// Returns the pieces, if the archive is one of this type and size.
    pub(crate) fn pieces_of(self, kind: u32, size: u64) -> Result<Kept, TopError> {
        if (self.kind, self.size) == (kind, size) {
            Ok(self.pieces)
        } else {
            Err(TopError::OtherArchive)
        }
    }
}

/// Pieces of an archive that are kept, each with its position, in the order of positions.
#[derive(Debug, Clone, Default, PartialEq, Eq)]
pub(crate) struct Kept(Vec<(u64, Vec<u8>)>);

impl Kept {
    pub fn is_empty(&self) -> bool {
        self.0.is_empty()
    }

    /// Returns the piece with all of a part, and its position. It is the last one that doesn't begin after the part.
    pub fn with(&self, start: u64, end: u64) -> Option<(u64, &[u8])> {
        let after = self.0.partition_point(|(at, _)| *at <= start);
        let (at, piece) = self.0.get(after.checked_sub(1)?)?;
        (end <= at + piece.len() as u64).then_some((*at, piece.as_slice()))
    }
}

/// What is left of a sidecar's bytes.
struct Fields<'a>(&'a [u8]);

impl<'a> Fields<'a> {
    fn bytes(&mut self, len: usize) -> Option<&'a [u8]> {
        let (taken, rest) = self.0.split_at_checked(len)?;
        self.0 = rest;
        Some(taken)
    }

    fn number(&mut self) -> Option<u32> {
        Some(u32::from_le_bytes(self.bytes(4)?.try_into().ok()?))
    }

    /// Reads all after the version.
    fn top(&mut self) -> Option<Top> {
        let kind = self.number()?;
        let size = u64::from_le_bytes(self.bytes(8)?.try_into().ok()?);
        let sha256 = self.bytes(DIGEST)?.try_into().ok()?;
        let (etag_len, count) = (self.number()?, self.number()?);
        let etag = String::from_utf8(self.bytes(etag_len as usize)?.to_vec()).ok()?;
        let places = (0..count).map(|_| Some((self.number()?, self.number()?))).collect::<Option<Vec<_>>>()?;
        let piece = |(at, len)| Some((u64::from(at), self.bytes(len as usize)?.to_vec()));
        let pieces = places.into_iter().map(piece).collect::<Option<Vec<_>>>()?;
        Some(Top { kind, size, sha256, etag, pieces: Kept(pieces) })
    }
}

/// Returns where the nodes of the first levels and the texts of their keys lie, and the map's own bytes.
fn parts(data: &[u8], layout: &Layout, levels: u32) -> Result<BTreeSet<(u64, u64)>, Error> {
    let root_at = layout.root_at()?;
    let (root, count) = layout.root(&data[root_at as usize..]);
    let mut parts = BTreeSet::from([(root_at, root_at + ROOT)]);
    let mut level = if count > 0 { vec![root] } else { Vec::new() };
    for _ in 0..levels {
        let mut below = Vec::new();
        for pos in level {
            let pos = layout.checked(pos)?;
            let end = pos + layout.size_of(data[pos as usize], pos)?;
            if !parts.insert((pos, end)) {
                continue;
            }
            let node = layout.node(pos, &data[pos as usize..end as usize])?;
            for key in node.keys {
                if let Cell::Text { start, len } | Cell::Bytes { start, len } = key {
                    let text = layout.bytes_at(start, len)?;
                    parts.insert((text.start, text.end));
                }
            }
            below.extend(node.children.into_iter().flatten());
        }
        level = below;
    }
    Ok(parts)
}

/// Returns the parts in order, and those that are close as one.
fn joined(parts: BTreeSet<(u64, u64)>) -> impl Iterator<Item = (u64, u64)> {
    let mut joined: Vec<(u64, u64)> = Vec::new();
    for (start, end) in parts {
        match joined.last_mut() {
            Some(last) if start < last.1 + GAP => last.1 = last.1.max(end),
            _ => joined.push((start, end)),
        }
    }
    joined.into_iter()
}

#[cfg(test)]
mod tests {
    use super::*;

    #[test]
    fn pieces_are_found() {
        let kept = Kept(vec![(0, vec![0; 4]), (10, vec![0; 10]), (30, vec![0; 1])]);
        for (start, end, at) in [(0, 4, Some(0)), (3, 4, Some(0)), (10, 20, Some(10)), (12, 12, Some(10)), (30, 31, Some(30))] {
            assert_eq!(kept.with(start, end).map(|piece| piece.0), at);
        }
        for (start, end) in [(3, 5), (4, 10), (9, 11), (19, 21), (29, 31), (31, 32)] {
            assert_eq!(kept.with(start, end), None);
        }
        assert_eq!(Kept::default().with(0, 0), None);
    }
}
