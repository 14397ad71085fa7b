//! The host's errors, and which of them is nearest to a refusal.

use genie_dos::Refusal;

/// Errors by the names that the host's manual has. `fuse.c` has their numbers, in this order.
#[allow(clippy::upper_case_acronyms)]
#[derive(Clone, Copy, Debug, PartialEq, Eq)]
pub enum Errno {
    EACCES,
    EBADF,
    EEXIST,
    EFBIG,
    EINVAL,
    EIO,
    EISDIR,
    ENODATA,
    ENOENT,
    ENOSPC,
    EOPNOTSUPP,
    EPERM,
    ERANGE,
    EROFS,
    ESTALE,
}

impl Errno {
    /// The nearest to a refusal of a call that changes or reads a file.
    pub fn of(refusal: Refusal) -> Errno {
        match refusal.number() {
            // A name that cannot be, or is not there.
            3 => Errno::EINVAL,
            4 => Errno::ENOENT,
            // Wrong password; level or system file.
            5 | 6 => Errno::EACCES,
            7 => Errno::ESTALE,
            // Slots, granules.
            8 | 9 => Errno::ENOSPC,
            // Flag E: the file is not to grow.
            11 => Errno::EPERM,
            // A position past the highest that a file can have.
            12 => Errno::EFBIG,
            // The disk was consistent when it was mounted, and every call leaves it so.
            _ => Errno::EIO,
        }
    }

    /// The nearest to a refusal of a name that is only asked for: one that cannot be is not there.
    pub fn of_asking(refusal: Refusal) -> Errno {
        match refusal.number() {
            3 => Errno::ENOENT,
            _ => Errno::of(refusal),
        }
    }
}
