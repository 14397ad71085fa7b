//! Small things that every message needs.

/// A number and its noun: `1 granule`, `2 granules`.
pub fn counted(number: usize, noun: &str) -> String {
    format!("{number} {noun}{}", if number == 1 { "" } else { "s" })
}

/// A slot as the rules write it, `82H`.
pub fn slot(number: usize) -> String {
    format!("{number:02X}H")
}
