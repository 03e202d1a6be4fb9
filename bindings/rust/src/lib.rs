//! Archived B-tree maps and sets of numbers, texts and bytes, in bytes that are validated once and then read in place.
//!
//! ```
//! # fn main() -> Result<(), rkyv_btree::Error> {
#![doc = include_str!("../five_lines.rs")]
//! # Ok(())
//! # }
//! ```
mod builder;
mod edit;
mod error;
mod field;
mod find;
mod header;
mod map;
mod nodes;
mod raw;
mod remote;
mod set;
mod sha256;
mod top;

pub use builder::Builder;
pub use edit::Edit;
pub use error::Error;
pub use field::Field;
pub use field::{AsKey, Number};
pub use find::{find, find_untyped};
pub use map::{Iter, Keys, Map, Range, Values};
pub use remote::{ReadRange, Remote, RemoteError, RemoteKeys, RemoteRange};
pub use set::{contains, contains_untyped, Set, SetBuilder, SetIter, SetRange};
pub use top::{Top, TopError};
