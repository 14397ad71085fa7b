use crate::Name;
use core::fmt;

/// An open file: 19 bytes that the library fills on open and create, and tests again in each call.
///
/// Between calls the position may be set. A handle knows nothing of its disk: used after its file was killed, or on
/// another disk, it is stale and the call is refused, unless its slot holds a file of its name again.
///
/// ```
/// # use genie_dos::*;
/// # let mut disk = Disk::blank(Geometry::new(16, 2, 80, 0x4296), 10, &[0])?;
/// # let name = "PULS01/DAT".parse().unwrap();
/// # let mut handle = disk.create(&name, &NewFile::open(disk.geometry(), Date::new(1983, 10, 9)))?.handle;
/// assert_eq!(handle.name().to_string(), "PULS01/DAT");
/// assert_eq!(handle.level(), 0);
/// assert_eq!(handle.record_length(), 256);
/// assert_eq!(handle.position(), 0);
/// handle.set_position(1280); // the second granule
/// assert_eq!(handle.position(), 1280);
/// # Ok::<(), Refusal>(())
/// ```
#[derive(Clone, Copy, PartialEq, Eq, Hash)]
pub struct Handle([u8; Handle::LEN]);

impl Handle {
    /// Bytes of a handle.
    pub const LEN: usize = 19;

    /// A handle of any 19 bytes: slot, level, record length (2, low byte first), position (4, low byte first),
    /// name (11). The library tests it like any other.
    pub const fn from_bytes(bytes: [u8; Handle::LEN]) -> Handle {
        Handle(bytes)
    }

    /// The 19 bytes.
    pub fn as_bytes(&self) -> &[u8; Handle::LEN] {
        &self.0
    }

    pub(crate) fn zeros() -> Handle {
        Handle([0; Handle::LEN])
    }

    pub(crate) fn as_mut_bytes(&mut self) -> &mut [u8; Handle::LEN] {
        &mut self.0
    }

    /// The slot of the file's primary entry.
    pub fn slot(&self) -> u8 {
        self.0[0]
    }

    /// The access level, 0 (all is allowed) to 7.
    pub fn level(&self) -> u8 {
        self.0[1]
    }

    /// Bytes that each read or write of a record moves, 1 to 256.
    pub fn record_length(&self) -> u16 {
        u16::from_le_bytes([self.0[2], self.0[3]])
    }

    /// Where the next record is read or written, in bytes from the file's start.
    pub fn position(&self) -> u32 {
        u32::from_le_bytes([self.0[4], self.0[5], self.0[6], self.0[7]])
    }

    /// Sets the position. Over [`Geometry::highest_position`](crate::Geometry::highest_position) the next call is refused.
    pub fn set_position(&mut self, position: u32) {
        self.0[4..8].copy_from_slice(&position.to_le_bytes());
    }

    /// The file's name.
    pub fn name(&self) -> Name {
        let mut name = [0; Name::LEN];
        name.copy_from_slice(&self.0[8..]);
        Name::from_bytes(name)
    }
}

impl fmt::Debug for Handle {
    fn fmt(&self, f: &mut fmt::Formatter<'_>) -> fmt::Result {
        f.debug_struct("Handle")
            .field("slot", &self.slot())
            .field("level", &self.level())
            .field("record_length", &self.record_length())
            .field("position", &self.position())
            .field("name", &self.name())
            .finish()
    }
}

#[cfg(test)]
mod tests {
    use super::*;

    #[test]
    fn the_nineteen_bytes() {
        let mut bytes = *b"\x25\x05\x00\x01\x01\x02\x03\x04PULS01  DAT";
        let mut handle = Handle::from_bytes(bytes);
        assert_eq!(handle.slot(), 0x25);
        assert_eq!(handle.level(), 5);
        assert_eq!(handle.record_length(), 256);
        assert_eq!(handle.position(), 0x0403_0201);
        assert_eq!(handle.name().as_bytes(), b"PULS01  DAT");
        handle.set_position(1_966_080);
        bytes[4..8].copy_from_slice(&[0, 0, 0x1e, 0]);
        assert_eq!(handle.as_bytes(), &bytes);
    }
}
