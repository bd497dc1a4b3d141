//! The published Rust program as a library. Its files stand beside this one when it is built (see ../build), unchanged; what they need and
//! what was not published is a stub here. Nothing that reads an image is ever called.
#![allow(dead_code, unused_imports, unused_variables)]

// The published files name the reader of images as a crate of its own.
extern crate self as fs_core;

use std::collections::{BTreeMap, BTreeSet};

pub mod bkey;
pub mod btree;
pub mod check;
mod crypt;
mod csum;
mod error;
mod extent;
mod inode;
mod journal;
pub mod superblock;
mod util;
mod xattr;

use bkey::Bkey;
use check::Report;
pub use error::{Error, Result};
use superblock::{Member, Version};

/// A device that an image is read from.
pub trait BlockRead {
    fn read_at(&self, offset: u64, buf: &mut [u8]) -> Result<()>;
    fn size_bytes(&self) -> u64;
}

pub type Trees = BTreeMap<u8, Vec<Bkey>>;

/// The rules, which are private functions of check.rs. A module below check.rs implements this trait for `Published` and so hands them out.
pub trait Rules {
    fn check_key_device(id: u8, k: &Bkey, dev: u64, r: &mut Report);
    fn check_key_fields(id: u8, k: &Bkey, r: &mut Report);
    fn check_state_words(version: Version, id: u8, k: &Bkey, r: &mut Report);
    fn subvolume_states(trees: &Trees, r: &mut Report) -> BTreeSet<u32>;
    fn snapshot_claims(trees: &Trees, r: &mut Report);
    fn snapshot_states(trees: &Trees, r: &mut Report);
    fn snapshot_subvol_flags(trees: &Trees, r: &mut Report);
    fn subvolume_children(trees: &Trees, r: &mut Report);
    fn snapshot_links(trees: &Trees, parents: &BTreeMap<u32, u32>, subvolumes: &BTreeMap<u32, (u64, u32)>, r: &mut Report);
    fn bucket_gens_against_alloc(trees: &Trees, gens: &BTreeMap<u64, u8>, dev: u64, r: &mut Report);
    fn free_space(runs: &[Bkey], alloc: &BTreeMap<u64, Option<u8>>, dev: u64, m: &Member, r: &mut Report);
    /// The rows of KEY_TYPES_ALLOWED: a btree, and the types that it holds beside those of KEY_TYPES_ANYWHERE.
    fn key_types_allowed() -> &'static [(u8, &'static [u8])];
    fn key_types_anywhere() -> &'static [u8];
    /// Whether a btree has a row, and holds no key of this type.
    fn is_foreign(id: u8, key_type: u8) -> bool;
    fn add_foreign_type(id: u8, k: &Bkey, r: &mut Report);
}

pub struct Published;
