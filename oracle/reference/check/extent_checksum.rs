//! Stands in for a module of check.rs that was not published.
use super::{Bkey, Report};

pub(super) fn option_in_force(_: Option<u8>, _: u8) -> u8 {
    unreachable!("no image is read")
}

pub(super) fn judge(_: &Bkey, _: u8, _: &mut Report) {
    unreachable!("no image is read")
}
