use crate::damaged::{first, place, Reading};
use crate::{Disk, Fault, Name};
use alloc::string::{String, ToString};
use core::fmt;

/// A fault in words, with its place: what a person needs to find it. Kind and slot are the library's word; the rest this
/// crate reads off the image.
#[derive(Clone, Debug, PartialEq, Eq)]
#[non_exhaustive]
pub struct Explained {
    /// The fault itself.
    pub fault: Fault,
    /// The directory sector of the entry at fault, counted from 0 (the GAT), where the fault has a slot.
    pub sector: Option<usize>,
    /// The entry's first byte in that sector.
    pub byte: Option<usize>,
    /// The same byte counted from the image's start; where the fault has no slot, the byte of HIT or GAT at fault.
    pub image_byte: Option<usize>,
    /// The name of the file that the entry belongs to, where it has a well-formed one.
    pub name: Option<Name>,
    /// What is wrong.
    pub message: String,
}

/// `slot 25H, directory sector 7, byte 32, image byte 24864 (PULS01/DAT): granule 53 is also in slot 04H`.
impl fmt::Display for Explained {
    fn fmt(&self, f: &mut fmt::Formatter<'_>) -> fmt::Result {
        if let (Some(slot), Some(sector), Some(byte)) = (self.fault.slot, self.sector, self.byte) {
            write!(f, "slot {slot:02X}H, directory sector {sector}, byte {byte}")?;
            if let Some(image_byte) = self.image_byte {
                write!(f, ", image byte {image_byte}")?;
            }
            if let Some(name) = self.name {
                write!(f, " ({name})")?;
            }
            f.write_str(": ")?;
        }
        f.write_str(&self.message)
    }
}

impl<B: AsRef<[u8]>> Disk<B> {
    /// Says in words what a fault of this disk is that a call was refused with.
    ///
    /// ```
    /// use genie_dos::{Date, Disk, Geometry, NewFile};
    ///
    /// let geometry = Geometry::new(16, 2, 80, 0x4296);
    /// let mut disk = Disk::blank(geometry, 10, &[0])?;
    /// let name = "PULS01/DAT".parse().unwrap();
    /// disk.create(&name, &NewFile::open(geometry, Date::new(1983, 10, 9)))?;
    ///
    /// let mut image = disk.into_image();
    /// image[82 * 256 + 128 + 0x1E] = 7; // the marker of slot 80H
    /// let damaged = Disk::new(image, geometry);
    /// let fault = damaged.check().unwrap_err().fault().unwrap();
    /// assert_eq!(
    ///     damaged.explain(fault).to_string(),
    ///     "slot 80H, directory sector 2, byte 128, image byte 21120 (PULS01/DAT): \
    ///      the marker (byte 1EH) is 07H, neither FEH nor FFH"
    /// );
    /// # Ok::<(), genie_dos::Refusal>(())
    /// ```
    pub fn explain(&self, fault: Fault) -> Explained {
        let (image, g) = (self.image(), self.geometry());
        first(image, g, fault).map(|found| found.told).unwrap_or_else(|| {
            // Under another geometry, or where there is no such fault, its kind alone can be told.
            let at = fault.slot.map(place);
            let reading = Reading::of(image, g);
            let image_byte = reading.as_ref().zip(fault.slot).map(|(reading, slot)| reading.entry_at(slot));
            let name = reading.zip(fault.slot).and_then(|(reading, slot)| reading.name_of(slot));
            Explained {
                fault,
                sector: at.map(|(sector, _)| sector),
                byte: at.map(|(_, byte)| byte),
                image_byte,
                name,
                message: fault.kind.words().to_string(),
            }
        })
    }
}
