//! Stands in for a module that was not published.
use crate::bkey::Bkey;
use crate::Result;

pub const ROOT_INO: u64 = 0;
pub const INODE_HAS_OPTIONS: u64 = 0;
pub const OPTION_FIELDS: &[&str] = &[];

pub struct Options {
    pub data_checksum: Option<u8>,
}

pub struct Inode {
    pub ino: u64,
    pub mode: u16,
    pub size: u64,
    pub sectors: u64,
    pub hash_seed: u64,
    pub options: Options,
}

impl Inode {
    pub fn from_key(_: &Bkey) -> Result<Inode> {
        unreachable!("no image is read")
    }
    pub fn is_dir(&self) -> bool {
        unreachable!("no image is read")
    }
    pub fn hash_type(&self) -> u8 {
        unreachable!("no image is read")
    }
    pub fn link_count(&self) -> u32 {
        unreachable!("no image is read")
    }
}

pub struct InodeV3Raw {
    pub flags: u64,
    pub journal_seq: u64,
}

impl InodeV3Raw {
    pub fn parse(_: &[u8]) -> Result<InodeV3Raw> {
        unreachable!("no image is read")
    }
    pub fn field(&self, _: &str) -> Option<u64> {
        unreachable!("no image is read")
    }
    pub fn mode(&self) -> u32 {
        unreachable!("no image is read")
    }
}

pub struct Dirent {
    pub dir: u64,
    pub name: Vec<u8>,
    pub d_type: u8,
    pub inum: u64,
}

impl Dirent {
    pub fn from_key(_: &Bkey) -> Result<Dirent> {
        unreachable!("no image is read")
    }
}

pub fn dirent_folded_name(_: &Bkey) -> Result<Option<Vec<u8>>> {
    unreachable!("no image is read")
}

pub fn name_hash(_: u8, _: u64, _: &[u8]) -> Option<u64> {
    unreachable!("no image is read")
}
