//! Stands in for a module of check.rs that was not published, and hands out the private rules of its parent.
use super::*;
use crate::superblock::Member;
use crate::{Published, Rules, Trees};

/// The row of each btree, by its id: for a key that is one load, charged to the Rust, and no walk over all rows.
static ROWS: [Option<&[u8]>; 256] = rows();

const fn rows() -> [Option<&'static [u8]>; 256] {
    let mut rows: [Option<&'static [u8]>; 256] = [None; 256];
    let mut at = 0;
    while at < KEY_TYPES_ALLOWED.len() {
        let (id, allowed) = KEY_TYPES_ALLOWED[at];
        rows[id as usize] = Some(allowed);
        at += 1;
    }
    rows
}

pub(super) fn judge(_: &Superblock, _: u64, _: &dyn BlockRead, _: &mut Report) {
    unreachable!("no image is read")
}

impl Rules for Published {
    fn check_key_device(id: u8, k: &Bkey, dev: u64, r: &mut Report) {
        super::check_key_device(id, k, dev, r)
    }
    fn check_key_fields(id: u8, k: &Bkey, r: &mut Report) {
        super::check_key_fields(id, k, r)
    }
    fn check_state_words(version: Version, id: u8, k: &Bkey, r: &mut Report) {
        super::check_state_words(version, id, k, r)
    }
    fn subvolume_states(trees: &Trees, r: &mut Report) -> BTreeSet<u32> {
        super::subvolume_states(trees, r)
    }
    fn snapshot_claims(trees: &Trees, r: &mut Report) {
        super::snapshot_claims(trees, r)
    }
    fn snapshot_states(trees: &Trees, r: &mut Report) {
        super::snapshot_states(trees, r)
    }
    fn snapshot_subvol_flags(trees: &Trees, r: &mut Report) {
        super::snapshot_subvol_flags(trees, r)
    }
    fn subvolume_children(trees: &Trees, r: &mut Report) {
        super::subvolume_children(trees, r)
    }
    fn snapshot_links(trees: &Trees, parents: &BTreeMap<u32, u32>, subvolumes: &BTreeMap<u32, (u64, u32)>, r: &mut Report) {
        super::snapshot_links(trees, parents, subvolumes, r)
    }
    fn bucket_gens_against_alloc(trees: &Trees, gens: &BTreeMap<u64, u8>, dev: u64, r: &mut Report) {
        super::bucket_gens_against_alloc(trees, gens, dev, r)
    }
    fn free_space(runs: &[Bkey], alloc: &BTreeMap<u64, Option<u8>>, dev: u64, m: &Member, r: &mut Report) {
        super::free_space(runs, alloc, dev, m, r)
    }
    fn key_types_allowed() -> &'static [(u8, &'static [u8])] {
        KEY_TYPES_ALLOWED
    }
    fn key_types_anywhere() -> &'static [u8] {
        &KEY_TYPES_ANYWHERE
    }
    #[inline]
    fn is_foreign(id: u8, key_type: u8) -> bool {
        let is_in_neither = |allowed: &[u8]| !KEY_TYPES_ANYWHERE.contains(&key_type) && !allowed.contains(&key_type);
        ROWS[usize::from(id)].is_some_and(is_in_neither)
    }
    fn add_foreign_type(id: u8, k: &Bkey, r: &mut Report) {
        let (name, pos, key_type) = (journal::btree_name(id), k.pos, k.key_type);
        let detail = format!("btree {name}: key {pos} is of type {key_type}, which the btree does not hold");
        r.add("bkey_invalid_type_for_btree", detail)
    }
}
