use crate::{Geometry, Name};

/// An entry's 32 bytes, whatever they are.
#[derive(Clone, Copy, Debug, PartialEq, Eq)]
pub(crate) struct RawEntry(pub(crate) [u8; RawEntry::LEN]);

/// A run as a pair names it, on the disk or not.
#[derive(Clone, Copy, Debug, PartialEq, Eq)]
pub(crate) struct NamedRun {
    /// The pair's number in its entry, from 1.
    pub(crate) number: usize,
    pub(crate) block: usize,
    pub(crate) unit: usize,
    pub(crate) first: usize,
    pub(crate) last: usize,
}

impl NamedRun {
    pub(crate) fn granules(&self) -> core::ops::RangeInclusive<usize> {
        self.first..=self.last
    }

    pub(crate) fn len(&self) -> usize {
        self.last - self.first + 1
    }
}

impl RawEntry {
    pub(crate) const LEN: usize = 32;
    pub(crate) const PAIRS: usize = 4;
    /// Bits of byte 00.
    pub(crate) const EXTENSION: u8 = 0x80;
    pub(crate) const SYSTEM: u8 = 0x40;
    pub(crate) const BIT_FIVE: u8 = 0x20;
    pub(crate) const IN_USE: u8 = 0x10;
    /// Byte 00 of a well-formed extension.
    pub(crate) const EXTENSION_FLAGS: u8 = Self::EXTENSION | Self::IN_USE;
    /// "Block FFH ends the list."
    const NO_BLOCK: u8 = 0xff;
    /// "Marker FFH: no extension. FEH: the link is its slot."
    pub(crate) const LAST: u8 = 0xff;
    pub(crate) const LINKED: u8 = 0xfe;

    pub(crate) fn flags(&self) -> u8 {
        self.0[0x00]
    }

    pub(crate) fn in_use(&self) -> bool {
        self.flags() & Self::IN_USE != 0
    }

    pub(crate) fn is_extension(&self) -> bool {
        self.flags() & Self::EXTENSION != 0
    }

    /// In use and primary.
    pub(crate) fn is_file(&self) -> bool {
        self.in_use() && !self.is_extension()
    }

    pub(crate) fn is_system(&self) -> bool {
        self.flags() & Self::SYSTEM != 0
    }

    pub(crate) fn bit_five(&self) -> bool {
        self.flags() & Self::BIT_FIVE != 0
    }

    pub(crate) fn name(&self) -> Name {
        let mut bytes = [0; Name::LEN];
        bytes.copy_from_slice(&self.0[0x05..0x10]);
        Name::from_bytes(bytes)
    }

    /// In an extension: the slot before it.
    pub(crate) fn back(&self) -> u8 {
        self.0[0x01]
    }

    pub(crate) fn end_byte(&self) -> usize {
        self.0[0x03].into()
    }

    pub(crate) fn sector_count(&self) -> usize {
        u16::from_le_bytes([self.0[0x14], self.0[0x15]]).into()
    }

    /// None where the sector count is 0 and the end byte is not.
    pub(crate) fn size(&self) -> Option<usize> {
        match (self.sector_count(), self.end_byte()) {
            (n, 0) => Some(Geometry::SECTOR_BYTES * n),
            (0, _) => None,
            (n, e) => Some(Geometry::SECTOR_BYTES * (n - 1) + e),
        }
    }

    fn block(&self, pair: usize) -> u8 {
        self.0[0x16 + 2 * pair]
    }

    /// The runs, as far as the first block FFH.
    pub(crate) fn runs(&self, g: Geometry) -> impl Iterator<Item = NamedRun> {
        let bytes = self.0;
        let pairs = (0..Self::PAIRS).map(move |pair| (pair, bytes[0x16 + 2 * pair], bytes[0x17 + 2 * pair]));
        pairs.take_while(|&(_, block, _)| block != Self::NO_BLOCK).map(move |(pair, block, second)| {
            let (block, unit) = (usize::from(block), usize::from(second >> 5));
            let first = block * g.units + unit;
            NamedRun { number: pair + 1, block, unit, first, last: first + usize::from(second & 0x1f) }
        })
    }

    pub(crate) fn runs_counted(&self) -> usize {
        (0..Self::PAIRS).take_while(|&pair| self.block(pair) != Self::NO_BLOCK).count()
    }

    /// Granules as the pairs name them.
    pub(crate) fn granules_named(&self, g: Geometry) -> usize {
        self.runs(g).map(|run| run.len()).sum()
    }

    /// The number, from 1, of a pair that stands behind the end of the list.
    pub(crate) fn late_pair(&self) -> Option<usize> {
        let late = |&pair: &usize| self.block(pair) != Self::NO_BLOCK && self.block(pair - 1) == Self::NO_BLOCK;
        (1..Self::PAIRS).find(late).map(|pair| pair + 1)
    }

    pub(crate) fn marker(&self) -> u8 {
        self.0[0x1e]
    }

    pub(crate) fn link(&self) -> u8 {
        self.0[0x1f]
    }
}
