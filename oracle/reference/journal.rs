//! The published journal.rs, which stands below as it is, and what btree.rs and check.rs use of it that was not published.
mod published;

use crate::bkey::Bkey;
use crate::superblock::Superblock;
use crate::{BlockRead, Result};
pub use published::*;
use std::collections::BTreeMap;

pub struct Replay {
    pub seq: u64,
    pub roots: Vec<(u8, u8, Bkey)>,
    pub keys: BTreeMap<(u8, u8), Vec<Bkey>>,
}

pub fn replay(_: &dyn BlockRead, _: &Superblock) -> Result<Replay> {
    unreachable!("no image is read")
}
