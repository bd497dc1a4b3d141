//! The state that a word of kind 23 or 26 was meant to be, which the published program does not print: document 02's ticket 1,
//! read here on its own.
use crate::books::values::{self, SNAPSHOT_STATES, SUBVOLUME_STATES};
use crate::layout::Key;
use crate::published::Finding;

const SNAPSHOT_STATE_BITFLIP: u8 = 23;
const SUBVOLUME_STATE_BITFLIP: u8 = 26;
/// Where the state words stand in a value.
const SNAPSHOT_STATE: usize = 56;
const SUBVOLUME_STATE: usize = 40;

/// Every state word with what it is called.
pub const NAMES: [(u32, &str); 7] = [
    (SNAPSHOT_STATES[0], "snapshot live"),
    (SNAPSHOT_STATES[1], "snapshot will_delete"),
    (SNAPSHOT_STATES[2], "snapshot no_keys"),
    (SNAPSHOT_STATES[3], "snapshot deleted"),
    (SUBVOLUME_STATES[0], "subvolume live"),
    (SUBVOLUME_STATES[1], "subvolume unlinked"),
    (SUBVOLUME_STATES[2], "subvolume deleted"),
];

/// The place in `NAMES` of the state that a finding names, if its kind names one.
pub fn named(finding: &Finding) -> Option<usize> {
    let is_named = matches!(finding.kind, SNAPSHOT_STATE_BITFLIP | SUBVOLUME_STATE_BITFLIP);
    NAMES.iter().position(|&(state, _)| is_named && u64::from(state) == finding.object)
}

/// The object of a finding of this kind over a key, for the two kinds that name a state.
pub fn object(kind: u8, key: &Key) -> Option<u64> {
    let (states, at) = match kind {
        SNAPSHOT_STATE_BITFLIP => (&SNAPSHOT_STATES[..], SNAPSHOT_STATE),
        SUBVOLUME_STATE_BITFLIP => (&SUBVOLUME_STATES[..], SUBVOLUME_STATE),
        _ => return None,
    };
    let word = values::word(&key.value, at)?;
    // the fewest bits off, and of those the first listed
    let off = |bits| states.iter().find(move |&state| (word ^ state).count_ones() == bits);
    (0..=u32::BITS).find_map(off).map(|&state| u64::from(state))
}
