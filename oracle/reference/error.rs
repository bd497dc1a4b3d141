//! Stands in for a module that was not published: the errors that the published files name.
#[derive(Debug, Clone, PartialEq, Eq)]
pub enum Error {
    BadChecksum { what: &'static str, stored: u64, computed: u64 },
    BadMagic { what: &'static str },
    Corrupt(String),
    NotFound(String),
    Unsupported(String),
}

pub type Result<T> = std::result::Result<T, Error>;

impl std::fmt::Display for Error {
    fn fmt(&self, f: &mut std::fmt::Formatter<'_>) -> std::fmt::Result {
        write!(f, "{self:?}")
    }
}
