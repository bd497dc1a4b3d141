//! Stands in for a module that was not published.
pub fn slot(_: u8, _: u64, _: u8, _: &[u8]) -> Option<u64> {
    unreachable!("no image is read")
}
