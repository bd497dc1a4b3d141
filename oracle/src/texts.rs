//! The detail texts of the published rules, read back into numbers.
//!
//! In a template `{s}` is a number that is the finding's subject, `{o}` one that is its object, `{n}` any other; `{P}` is a position whose
//! offset is the subject, `{p}` any other; `{L}` is a list whose length is the object, `{l}` any other; `{x}` is a hexadecimal number; `{w}` a word.
use crate::published::Finding;

/// Kinds up to this one have the key's index as their subject, and object 0.
pub const LAST_KEY_KIND: u8 = 28;

/// Every kind in order with its name and templates.
const KINDS: [(&str, &[&str]); 50] = [
    ("pointer_to_nonexistent_device", &["btree {w}: key {p} is on device {n}, and the filesystem has only device {n}"]),
    ("backpointer_for_missing_device", &["btree {w}: key {p} is on device {n}, and the filesystem has only device {n}"]),
    ("bkey_size_nonzero", &["btree {w}: key {p} has size {n}"]),
    ("bkey_snapshot_nonzero", &["btree {w}: key {p} is at snapshot {n}"]),
    ("bkey_val_size_too_small", &["btree {w}: {w} {p} has {n} bytes, not {n}"]),
    (
        "accounting_key_junk_at_end",
        &["btree {w}: accounting key {p} holds more than its fields", "btree {w}: accounting key {p} holds more than its btree"],
    ),
    (
        "accounting_replicas_bad",
        &[
            "btree {w}: replicas accounting key {p}: no devices",
            "btree {w}: replicas accounting key {p}: {n} copies required of {n} devices",
            "btree {w}: replicas accounting key {p}: devices {l} not in increasing order",
        ],
    ),
    ("accounting_key_counters_bad", &["btree {w}: accounting key {p} has {n} counters"]),
    ("inode_str_hash_invalid", &["btree {w}: inode {p} has string hash type {n}"]),
    ("inode_fields_start_bad", &["btree {w}: inode {p} has fields_start {n}, outside 6..={n}"]),
    ("snapshot_pad_nonzero", &["btree {w}: snapshot {p} has reserved pad {l}"]),
    ("alloc_v4_val_size_bad", &["btree {w}: alloc_v4 {p} has {n} bytes, needs at least {n}"]),
    ("inode_pos_inode_nonzero", &["btree {w}: inode_v3 at {p}, not at inode 0"]),
    ("subvol_pos_bad", &["btree {w}: subvolume at {p}, not at 0:id"]),
    ("snapshot_pos_bad", &["btree {w}: snapshot at {p}, not at 0:id"]),
    ("reflink_v_pos_bad", &["btree {w}: reflink_v at {p}, not at inode 0"]),
    ("reflink_p_front_pad_bad", &["btree {w}: reflink_p {p} has an index below its front_pad"]),
    ("inode_alloc_cursor_inode_bad", &["btree {w}: inode_alloc_cursor at {p}, not at inode 1"]),
    ("snapshot_tree_pos_bad", &["btree {w}: snapshot_tree at {p}, not at 0:tree"]),
    ("backpointer_level_bad", &["btree {w}: backpointer {p} is at level {n}"]),
    ("xattr_val_size_too_small", &["btree {w}: xattr {p} has a {n}-byte name and a {n}-byte value in {n} bytes"]),
    (
        "bkey_invalid_type_for_btree",
        &[
            "btree {w}: key {p} is of type {n}, which the btree does not hold",
            "btree {w}: key {p} is an xattr",
            "btree {w}: key {p} is a logged operation (type {n})",
            "btree {w}: key {p} is an inode",
            "btree {w}: key {p} is a snapshot",
        ],
    ),
    ("snapshot_state_bitflip", &["btree {w}: snapshot {p} has state {x}"]),
    ("snapshot_state_bad", &["btree {w}: snapshot {p} has state {x}"]),
    ("subvol_state_bad", &["btree {w}: subvolume {p} has no state set", "btree {w}: subvolume {p} has state {x}"]),
    ("subvol_state_bitflip", &["btree {w}: subvolume {p} has state {x}"]),
    ("subvol_state_invalid", &["btree {w}: subvolume {p} has state {x}"]),
    ("subvol_pad_nonzero", &["btree {w}: subvolume {p} has reserved pad {l}"]),
    ("root_subvol_missing", &["root subvolume {P} is not live"]),
    ("snapshot_subvol_state_mismatch", &["snapshot {P} is live but its subvolume {o} is deleted"]),
    (
        "snapshot_tree_to_missing_subvol",
        &["snapshot tree {P} names deleted subvolume {o}", "snapshot tree {s} names subvolume {o}, which the subvolumes btree does not have"],
    ),
    ("snapshot_claimed_twice", &["snapshot {s} is claimed by subvolumes {L}"]),
    ("snapshot_deleted_but_subvol_live", &["snapshot {P}: will_delete, and its subvolume is live"]),
    ("snapshot_deleted_has_live_children", &["snapshot {P}: will_delete, and has two live children"]),
    ("snapshot_deleted_but_has_data", &["snapshot {P}: state {x}, and keys accounted to it"]),
    (
        "snapshot_subvol_flag_wrong",
        &["snapshot {s}: the subvol flag is set, and it names subvolume {o}", "snapshot {s}: the subvol flag is clear, and it names subvolume {o}"],
    ),
    ("subvol_children_entry_missing", &["subvolume {s} has parent {o} and no entry at {n}:{n}"]),
    (
        "subvol_children_entry_wrong",
        &[
            "subvolume_children entry {n}:{s}: subvolume {n}'s parent is {o}",
            "subvolume_children entry {n}:{s}: the subvolumes btree has no subvolume {n}",
        ],
    ),
    (
        "snapshot_tree_to_bad_root_snapshot",
        &["snapshot tree {s}'s root snapshot {o} is in tree {n}", "snapshot tree {s}'s root snapshot {o} is not in the snapshots btree"],
    ),
    ("snapshot_tree_to_wrong_subvol", &["snapshot tree {s} names subvolume {o}, whose snapshot {n} is in tree {n}"]),
    (
        "snapshot_to_bad_snapshot_tree",
        &[
            "snapshot {s} names tree {o}, which the snapshot_trees btree does not have",
            "snapshot {s} names tree {o}, but its parents lead to no root: a cycle, or a parent the snapshots btree does not have",
            "snapshot {s} names tree {o}, whose root is {n}, but its own root is {n}",
        ],
    ),
    ("snapshot_bad_depth", &["snapshot {s} says its depth is {o}, but it has {n} parents"]),
    ("snapshot_subvol_backref_wrong", &["snapshot {s} names subvolume {o}, whose snapshot is {n}"]),
    ("snapshot_bad_child", &["snapshot {s}'s child {o} does not exist", "snapshot {s}'s child {o} has parent {n}"]),
    ("snapshot_bad_skiplist", &["snapshot {s}: skiplist entries {L} are not among its ancestors {l}"]),
    (
        "incorrect_gen_in_bucket_gens",
        &["bucket {s}: bucket_gens says generation {o}, its alloc key {n}", "bucket {s}: no bucket_gens key, its alloc key {o}"],
    ),
    ("freespace_entry_for_nonexistent_bucket", &["freespace run {P} of {o} buckets: device {n} has buckets {n}..{n}"]),
    (
        "bucket_incorrectly_set_in_freespace_btree",
        &[
            "freespace run {p} holds buckets {n}..{n}, {o} of them not free: bucket {s}, its alloc key gives it data type {n}",
            "freespace run {p} holds buckets {n}..{n}, {o} of them not free: bucket {s}, the first usable bucket is {n}",
        ],
    ),
    ("bucket_incorrectly_unset_in_freespace_btree", &["bucket {s}: free in its alloc key, and no freespace run holds it"]),
    ("hole_in_alloc_btree_missing_in_freespace_btree", &["buckets {s}..{o}: no alloc key, and no freespace run holds them"]),
];

/// The finding that a problem is. It stops the program where no template matches.
pub fn read(name: &str, text: &str) -> Finding {
    let kind = KINDS.iter().position(|(n, _)| *n == name);
    let kind = kind.unwrap_or_else(|| panic!("a kind that document 01 does not have: {name}: {text}"));
    let read = KINDS[kind].1.iter().find_map(|template| matched(template, text));
    let (subject, object) = read.unwrap_or_else(|| panic!("no template of {name} matches: {text}"));
    Finding { kind: kind as u8 + 1, subject, object }
}

/// The number that follows the first occurrence of these words.
pub fn number_after(text: &str, words: &str) -> u64 {
    let (_, rest) = text.split_once(words).unwrap_or_else(|| panic!("no '{words}' in: {text}"));
    number(rest).unwrap_or_else(|| panic!("no number after '{words}' in: {text}")).0
}

/// Subject and object of a text that is a template's from start to end.
fn matched(template: &str, text: &str) -> Option<(u64, u64)> {
    let (mut subject, mut object) = (0, 0);
    let (mut template, mut text) = (template, text);
    while let Some((plain, rest)) = template.split_once('{') {
        text = text.strip_prefix(plain)?;
        let value;
        (value, text) = match &rest[..1] {
            "s" | "o" | "n" => number(text)?,
            "P" | "p" => position(text)?,
            "L" | "l" => list(text)?,
            "x" => spanned(text.strip_prefix("0x")?, |c| c.is_ascii_hexdigit())?,
            _ => spanned(text, |c| c.is_ascii_alphanumeric() || c == '_')?,
        };
        match &rest[..1] {
            "s" | "P" => subject = value,
            "o" | "L" => object = value,
            _ => {}
        }
        template = &rest[2..];
    }
    (template == text).then_some((subject, object))
}

/// One or more characters of a class: how many, and what follows.
fn spanned(text: &str, is_in: impl Fn(char) -> bool) -> Option<(u64, &str)> {
    let end = text.find(|c| !is_in(c)).unwrap_or(text.len());
    (end > 0).then_some((end as u64, &text[end..]))
}

fn number(text: &str) -> Option<(u64, &str)> {
    let (end, rest) = spanned(text, |c| c.is_ascii_digit())?;
    Some((text[..end as usize].parse().ok()?, rest))
}

/// A position gives its whole offset. The zero position, the largest one and the largest fields are printed as names.
fn position(text: &str) -> Option<(u64, &str)> {
    if let Some(rest) = text.strip_prefix("POS_MIN") {
        return Some((0, rest));
    }
    if let Some(rest) = text.strip_prefix("SPOS_MAX") {
        return Some((u64::MAX, rest));
    }
    let field = |text| position_field(text);
    let (_, rest) = field(text)?;
    let (offset, rest) = field(rest.strip_prefix(':')?)?;
    let (_, rest) = field(rest.strip_prefix(':')?)?;
    Some((offset, rest))
}

fn position_field(text: &str) -> Option<(u64, &str)> {
    for (name, value) in [("U64_MAX", u64::MAX), ("U32_MAX", u64::from(u32::MAX))] {
        if let Some(rest) = text.strip_prefix(name) {
            return Some((value, rest));
        }
    }
    number(text)
}

/// The length of a list, which is in brackets or runs to the end of the text; its items have no comma.
fn list(text: &str) -> Option<(u64, &str)> {
    let (items, rest) = match text.strip_prefix('[') {
        Some(inner) => inner.split_once(']')?,
        None => (text, ""),
    };
    if items.is_empty() {
        return Some((0, rest));
    }
    let is_item = |item: &str| !item.is_empty() && item.chars().all(|c| c.is_ascii_hexdigit());
    items.split(", ").all(is_item).then_some((items.split(", ").count() as u64, rest))
}
