use super::Chunks;
use crate::Refusal;
use std::{error, fmt, io};

/// Why a call on [`Memory`](super::Memory) was turned down, with the OS's reason where it has one.
///
/// ```
/// use sirqobal::{linux::Memory, Refusal};
///
/// let error = Memory::new().reserve(1 << 50, true).unwrap_err();
/// assert_eq!(error, Refusal::MemoryRefused);
/// let os = error.os_error().unwrap();
/// assert_eq!(os.kind(), std::io::ErrorKind::OutOfMemory);
/// ```
#[derive(Clone, Copy, Debug, PartialEq, Eq)]
pub struct Error {
    refusal: Refusal,
    errno: Option<i32>,
}

impl Error {
    pub(super) fn new(refusal: Refusal, errno: Option<i32>) -> Error {
        Error { refusal, errno }
    }

    /// The layer's refusal.
    pub fn refusal(self) -> Refusal {
        self.refusal
    }

    /// What the OS said no with, if it was asked and did.
    pub fn os_error(self) -> Option<io::Error> {
        self.errno.map(io::Error::from_raw_os_error)
    }

    /// The number of the OS's error, errno.
    pub fn errno(self) -> Option<i32> {
        self.errno
    }
}

impl fmt::Display for Error {
    fn fmt(&self, f: &mut fmt::Formatter<'_>) -> fmt::Result {
        self.refusal.fmt(f)?;
        match self.os_error() {
            Some(error) => write!(f, ": {error}"),
            None => Ok(()),
        }
    }
}

impl error::Error for Error {}

impl From<Refusal> for Error {
    fn from(refusal: Refusal) -> Error {
        Error::new(refusal, None)
    }
}

impl PartialEq<Refusal> for Error {
    fn eq(&self, refusal: &Refusal) -> bool {
        self.refusal == *refusal
    }
}

/// A release that was turned down, with the chunks, which stay claimed.
///
/// ```
/// use sirqobal::{linux::Memory, Refusal, CHUNK};
///
/// let (mut one, mut other) = (Memory::new(), Memory::new());
/// let id = one.reserve(CHUNK, true)?;
/// let ring = one.claim(id, 1)?;
/// let unreleased = other.release(ring).unwrap_err();
/// assert_eq!(unreleased.error, Refusal::NotInside);
/// one.release(unreleased.chunks)?;
/// # Ok::<(), sirqobal::linux::Error>(())
/// ```
#[derive(Debug)]
#[must_use = "it has the chunks, which stay claimed"]
#[non_exhaustive]
pub struct Unreleased {
    /// Why.
    pub error: Error,
    /// The chunks as they were.
    pub chunks: Chunks,
}

impl fmt::Display for Unreleased {
    fn fmt(&self, f: &mut fmt::Formatter<'_>) -> fmt::Result {
        write!(f, "not released: {}", self.error)
    }
}

impl error::Error for Unreleased {}

/// Lets go of the chunks, which stay claimed.
impl From<Unreleased> for Error {
    fn from(unreleased: Unreleased) -> Error {
        unreleased.error
    }
}
