//! The memory that the records of a program fill.

use std::fmt;

/// Addresses from one up to another, both included.
#[derive(Clone, Copy, Debug, PartialEq, Eq)]
pub struct Span {
    pub from: u16,
    pub to: u16,
}

impl fmt::Display for Span {
    fn fmt(&self, f: &mut fmt::Formatter<'_>) -> fmt::Result {
        match self.from == self.to {
            true => write!(f, "{:04X}H", self.from),
            false => write!(f, "{:04X}H to {:04X}H", self.from, self.to),
        }
    }
}

const PLACES: usize = 0x1_0000;

/// How many bytes stand in a record of Intel HEX.
const HEX_BYTES: usize = 16;

/// 64 KB, and how often each place was filled.
pub struct Memory {
    bytes: Vec<u8>,
    times: Vec<u8>,
}

impl Memory {
    /// What these records leave. Behind FFFFH comes 0000H, as on the machine.
    pub fn of(records: &[(u16, Vec<u8>)]) -> Memory {
        let mut memory = Memory { bytes: vec![0; PLACES], times: vec![0; PLACES] };
        for (address, bytes) in records {
            for (i, &byte) in bytes.iter().enumerate() {
                let at = usize::from(address.wrapping_add(i as u16));
                memory.bytes[at] = byte;
                memory.times[at] = memory.times[at].saturating_add(1);
            }
        }
        memory
    }

    /// How many places are filled.
    pub fn filled(&self) -> usize {
        self.times.iter().filter(|&&times| times > 0).count()
    }

    /// The stretches of places that are filled as often as `wanted` says, rising.
    fn spans(&self, wanted: impl Fn(u8) -> bool) -> Vec<Span> {
        let mut spans: Vec<Span> = Vec::new();
        for at in (0..PLACES).filter(|&at| wanted(self.times[at])) {
            match spans.last_mut() {
                Some(last) if usize::from(last.to) + 1 == at => last.to = at as u16,
                _ => spans.push(Span { from: at as u16, to: at as u16 }),
            }
        }
        spans
    }

    /// The stretches between filled ones.
    pub fn gaps(&self) -> Vec<Span> {
        let filled = self.spans(|times| times > 0);
        let between = |pair: &[Span]| Span { from: pair[0].to + 1, to: pair[1].from - 1 };
        filled.windows(2).map(between).collect()
    }

    /// The stretches that more than one record fills.
    pub fn overlaps(&self) -> Vec<Span> {
        self.spans(|times| times > 1)
    }

    /// From the first place that is filled to the last.
    pub fn bytes(&self) -> Vec<u8> {
        let filled = self.spans(|times| times > 0);
        match (filled.first(), filled.last()) {
            (Some(first), Some(last)) => self.bytes[first.from.into()..=last.to.into()].to_vec(),
            _ => Vec::new(),
        }
    }

    /// The same in Intel HEX: gaps are left out, and the last record has the start address.
    pub fn hex(&self, start: u16) -> String {
        let mut text = String::new();
        for span in self.spans(|times| times > 0) {
            let (from, bytes) = (usize::from(span.from), &self.bytes[span.from.into()..=span.to.into()]);
            for (i, part) in bytes.chunks(HEX_BYTES).enumerate() {
                text += &line((from + i * HEX_BYTES) as u16, 0, part);
            }
        }
        text + &line(start, 1, &[])
    }
}

/// A record of Intel HEX: count, address, kind, bytes, and a byte that makes the sum of all 0.
fn line(address: u16, kind: u8, bytes: &[u8]) -> String {
    let [high, low] = address.to_be_bytes();
    let mut all = vec![bytes.len() as u8, high, low, kind];
    all.extend(bytes);
    let sum = all.iter().fold(0u8, |sum, &byte| sum.wrapping_add(byte));
    all.push(sum.wrapping_neg());
    let digits: String = all.iter().map(|byte| format!("{byte:02X}")).collect();
    format!(":{digits}\n")
}

#[cfg(test)]
mod tests {
    use super::*;

    #[test]
    fn gaps_overlaps_and_wrapping() {
        let memory = Memory::of(&[(0x6000, vec![1, 2, 3]), (0x6002, vec![9]), (0x6005, vec![5]), (0xFFFF, vec![7, 8])]);
        assert_eq!(memory.filled(), 6);
        let gaps = [(0x0001, 0x5FFF), (0x6003, 0x6004), (0x6006, 0xFFFE)].map(|(from, to)| Span { from, to });
        assert_eq!(memory.gaps(), gaps);
        assert_eq!(memory.overlaps(), [Span { from: 0x6002, to: 0x6002 }]);
        assert_eq!(memory.bytes().len(), 0x1_0000);
        let small = Memory::of(&[(0x6000, vec![0x11, 0x22, 0x33])]);
        assert_eq!(small.bytes(), [0x11, 0x22, 0x33]);
        assert_eq!(small.hex(0x6001), ":0360000011223337\n:006001019E\n");
        assert_eq!(Memory::of(&[]).hex(0), ":00000001FF\n");
    }
}
