//! Names, how they come in, and their hash.

pub const NAME_BYTES: usize = 8;
pub const TYPE_BYTES: usize = 3;
/// Name and type together, as every call takes them.
pub const FULL_NAME_BYTES: usize = NAME_BYTES + TYPE_BYTES;
pub const BLANK: u8 = 0x20;

pub type Name = [u8; FULL_NAME_BYTES];

/// "allowed bytes 30H to 39H and 41H to 5DH"
pub fn allowed(byte: u8) -> bool {
    (0x30..=0x39).contains(&byte) || (0x41..=0x5D).contains(&byte)
}

/// Allowed bytes, "padded right with 20H".
fn padded(part: &[u8]) -> bool {
    let filled = part.iter().take_while(|&&byte| byte != BLANK).count();
    part[..filled].iter().all(|&byte| allowed(byte)) && part[filled..].iter().all(|&byte| byte == BLANK)
}

/// "Names, given as 11 bytes: 1 to 8, type 0 to 3, each padded right with 20H". Of a name on the disk: "A small letter in an
/// entry on disk is still inconsistent" (02 §7). For a name that a caller gives, see [`comes_in`].
pub fn well_formed(given: &[u8]) -> bool {
    given.len() == FULL_NAME_BYTES
        && given[0] != BLANK
        && padded(&given[..NAME_BYTES])
        && padded(&given[NAME_BYTES..])
}

/// "Codes 61H to 7DH are taken as 41H to 5DH when a name comes in" (02 §7).
pub fn fold(byte: u8) -> u8 {
    match byte {
        0x61..=0x7D => byte - 0x61 + 0x41,
        other => other,
    }
}

/// Whether the byte at a place of a folded name is bad: none that is allowed or blank; "a blank at place 0 is bad, and a
/// non-blank after a blank in name or type" (02 §7).
fn bad_at(name: &Name, place: usize) -> bool {
    let begin = if place < NAME_BYTES { 0 } else { NAME_BYTES };
    match name[place] {
        BLANK => place == 0,
        byte => !allowed(byte) || name[begin..place].contains(&BLANK),
    }
}

/// "the name check now hands back the folded name, or the place of the first bad byte" (02 §7). Of a name that has not 11
/// bytes none is looked at: the place is 0.
pub fn comes_in(given: &[u8]) -> Result<Name, usize> {
    let name = Name::try_from(given).map_err(|_| 0usize)?.map(fold);
    match (0..FULL_NAME_BYTES).find(|&place| bad_at(&name, place)) {
        Some(place) => Err(place),
        None => Ok(name),
    }
}

/// "start at 0; for each of the 11 name and type bytes, exclusive-or it in, then rotate left by one
/// within 8 bits; a final 0 becomes 1."
pub fn hash(name: &Name) -> u8 {
    let mut code = 0u8;
    for byte in name {
        code = (code ^ byte).rotate_left(1);
    }
    if code == 0 {
        1
    } else {
        code
    }
}

/// A name as the listing writes it: "name, a slash and the type if there is one".
pub fn written(name: &Name) -> String {
    let text = |part: &[u8]| -> String {
        part.iter().take_while(|&&byte| byte != BLANK).map(|&byte| byte as char).collect()
    };
    let (first, kind) = (text(&name[..NAME_BYTES]), text(&name[NAME_BYTES..]));
    if kind.is_empty() {
        first
    } else {
        format!("{first}/{kind}")
    }
}

/// The 11 bytes of a name written like `PULS01/DAT`; for tests.
pub fn name(text: &str) -> Name {
    let (first, kind) = text.split_once('/').unwrap_or((text, ""));
    assert!(first.len() <= NAME_BYTES && kind.len() <= TYPE_BYTES, "{text} is too long");
    let mut bytes = [BLANK; FULL_NAME_BYTES];
    bytes[..first.len()].copy_from_slice(first.as_bytes());
    bytes[NAME_BYTES..NAME_BYTES + kind.len()].copy_from_slice(kind.as_bytes());
    bytes
}

#[cfg(test)]
mod tests {
    use super::*;

    /// Every byte at every place of some names: what comes in is what is well formed once folded, and a name that is well
    /// formed comes in as it is.
    #[test]
    fn what_comes_in_is_well_formed_once_folded() {
        for whole in [name("PULS01/DAT"), name("A"), name("ABCDEFGH/XYZ"), name("puls01/dat"), [BLANK; 11]] {
            for place in 0..FULL_NAME_BYTES {
                for byte in 0..=255 {
                    let mut given = whole;
                    given[place] = byte;
                    let folded = given.map(fold);
                    assert_eq!(folded.map(fold), folded);
                    assert_eq!(comes_in(&given).ok(), well_formed(&folded).then_some(folded), "{given:02X?}");
                    if well_formed(&given) {
                        assert_eq!(comes_in(&given), Ok(given));
                    }
                }
            }
        }
    }
}
