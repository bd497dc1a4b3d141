//! Stands in for a module of check.rs that was not published.
use super::{BlockRead, Report, Superblock};

pub(super) fn judge(_: &Superblock, _: u64, _: &dyn BlockRead, _: &mut Report) {
    unreachable!("no image is read")
}
