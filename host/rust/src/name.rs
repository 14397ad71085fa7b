use crate::{sys, Refusal};
use alloc::string::{String, ToString};
use core::fmt;
use core::str::FromStr;

/// A file's name and type: 11 bytes, 8 for the name and 3 for the type, each padded right with blanks.
///
/// People type `PULS01/DAT`, or `LEER` for a file without a type. Allowed are the digits, the capital letters and
/// `[`, `\`, `]`; the library takes small letters for capital ones, and `{`, `|`, `}` for the last three.
///
/// ```
/// use genie_dos::Name;
///
/// let name: Name = "puls01/dat".parse()?;
/// assert_eq!(name.as_bytes(), b"PULS01  DAT");
/// assert_eq!(name.to_string(), "PULS01/DAT");
///
/// assert_eq!("LEER".parse::<Name>()?.as_bytes(), b"LEER       ");
/// assert!("leer~".parse::<Name>().is_err());
/// # Ok::<(), genie_dos::BadName>(())
/// ```
#[derive(Clone, Copy, PartialEq, Eq, PartialOrd, Ord, Hash)]
pub struct Name([u8; Name::LEN]);

/// Why bytes or a text are no name: what is wrong first, from the left.
///
/// ```
/// use genie_dos::{BadName, Name};
///
/// let bad = Name::new(*b"PULS01  D~T").unwrap_err();
/// assert_eq!(bad, BadName::Byte { place: 9, bytes: *b"PULS01  D~T" });
/// assert_eq!(bad.to_string(), "'~' (byte 9) is none that a name can have");
/// assert_eq!("puls01/d~t".parse::<Name>(), Err(BadName::Byte { place: 9, bytes: *b"puls01  d~t" }));
/// assert_eq!(bad.offset("puls01/d~t"), 8);
/// ```
#[derive(Clone, Copy, Debug, PartialEq, Eq)]
#[non_exhaustive]
pub enum BadName {
    /// A byte cannot stand where it does: names cannot have it, or it stands behind a blank of the name or of the type; or
    /// it is a blank at place 0.
    Byte {
        /// Its place, 0 to 10.
        place: u8,
        /// The 11 bytes, as they were given.
        bytes: [u8; Name::LEN],
    },
    /// More than 8 bytes before the slash of a text.
    NameTooLong,
    /// More than 3 bytes behind the slash of a text.
    TypeTooLong,
}

impl Name {
    /// Bytes of a name, its type included.
    pub const LEN: usize = 11;
    /// Bytes of the name without its type.
    const BODY: usize = 8;

    /// The name that 11 bytes are once they come in, as the library says: small letters are taken for capital ones, that is
    /// 61H to 7DH for 41H to 5DH; or the first byte that is bad.
    ///
    /// ```
    /// use genie_dos::{BadName, Name};
    ///
    /// assert_eq!(Name::new(*b"Puls01  dat"), Ok(Name::from_bytes(*b"PULS01  DAT")));
    /// assert_eq!(Name::new(*b"{|}        "), Ok(Name::from_bytes(*b"[\\]        ")));
    /// assert_eq!(Name::new(*b"A B        "), Err(BadName::Byte { place: 2, bytes: *b"A B        " }));
    /// ```
    pub fn new(bytes: [u8; Name::LEN]) -> Result<Name, BadName> {
        let (mut folded, mut place) = ([0; Name::LEN], 0);
        // SAFETY: the slices and the outgoing number are locals.
        let number =
            unsafe { sys::genie_name(bytes.as_ptr(), bytes.len(), folded.as_mut_ptr(), folded.len(), &mut place) };
        match Refusal::from_number(number) {
            None => Ok(Name(folded)),
            // The one refusal of 11 bytes with room for 11; its place is below 11.
            Some(_) => Err(BadName::Byte { place: place as u8, bytes }),
        }
    }

    /// What the library takes a byte for where it stands in a name; none if names cannot have it.
    ///
    /// ```
    /// use genie_dos::Name;
    ///
    /// assert_eq!([b'A', b'a', b'7', b'/'].map(Name::byte), [Some(b'A'), Some(b'A'), Some(b'7'), None]);
    /// ```
    pub fn byte(byte: u8) -> Option<u8> {
        let mut bytes = [b' '; Name::LEN];
        bytes[0] = byte;
        Name::new(bytes).ok().map(|name| name.0[0])
    }

    /// Any 11 bytes, as they are: an entry's, which need not be a name. The library answers
    /// [`Refusal::Name`](crate::Refusal::Name) to those that are none once they have come in.
    pub const fn from_bytes(bytes: [u8; Name::LEN]) -> Name {
        Name(bytes)
    }

    /// The 11 bytes, blanks included.
    pub fn as_bytes(&self) -> &[u8; Name::LEN] {
        &self.0
    }

    /// Whether the bytes are a name as an entry has it: allowed ones, at least one before the type, and blanks only behind
    /// them. On a disk no small letter is allowed.
    ///
    /// ```
    /// use genie_dos::Name;
    ///
    /// assert!(Name::from_bytes(*b"PULS01  DAT").is_well_formed());
    /// assert!(!Name::from_bytes(*b"puls01  dat").is_well_formed());
    /// assert!(!Name::from_bytes(*b"PULS 01 DAT").is_well_formed());
    /// assert!(!Name::from_bytes(*b"        DAT").is_well_formed());
    /// ```
    pub fn is_well_formed(&self) -> bool {
        self.bad_place().is_none()
    }

    /// The hash that the HIT holds for a file of this name, never 0.
    ///
    /// ```
    /// use genie_dos::Name;
    ///
    /// assert_eq!("BOOT/SYS".parse::<Name>()?.hash(), 0xA2);
    /// # Ok::<(), genie_dos::BadName>(())
    /// ```
    pub fn hash(&self) -> u8 {
        let turned = self.0.iter().fold(0u8, |hash, byte| (hash ^ byte).rotate_left(1));
        turned.max(1)
    }

    /// The name for people, whatever its bytes are: a well-formed one as [`Display`](fmt::Display) has it, any other in quotes, with
    /// the bytes that no name can have by their numbers. So nothing of a damaged disk reaches a terminal or a page as it is.
    ///
    /// ```
    /// use genie_dos::Name;
    ///
    /// assert_eq!(Name::from_bytes(*b"PULS01  DAT").shown(), "PULS01/DAT");
    /// assert_eq!(Name::from_bytes(*b"\x1b[2J    DAT").shown(), r#""\x1B[2J    DAT""#);
    /// ```
    pub fn shown(&self) -> String {
        if self.is_well_formed() {
            return self.to_string();
        }
        let shown = |&byte: &u8| match byte {
            b' '..=b'~' if byte != b'\\' && byte != b'"' => char::from(byte).to_string(),
            byte => format!("\\x{byte:02X}"),
        };
        format!("\"{}\"", self.0.iter().map(shown).collect::<String>())
    }

    /// The place, 0 to 10, of the first byte that cannot stand where it does.
    pub(crate) fn bad_place(&self) -> Option<usize> {
        (0..Name::LEN).find(|&at| match self.0[at] {
            b' ' => at == 0,
            byte => !Name::allows(byte) || at % Name::BODY > 0 && self.0[at - 1] == b' ',
        })
    }

    /// Whether names can have a byte, other than as a blank behind them.
    pub(crate) fn allows(byte: u8) -> bool {
        allowed(byte.into())
    }
}

fn allowed(c: char) -> bool {
    matches!(c, '0'..='9' | 'A'..=']')
}

/// Puts a part's bytes at the start of its place, as many as it has; the rest of the place stays blank. Answers whether all
/// had a place.
fn fill(place: &mut [u8], part: &str) -> bool {
    for (to, from) in place.iter_mut().zip(part.bytes()) {
        *to = from;
    }
    part.len() <= place.len()
}

/// A name as people type it, in letters of either size: `puls01/dat`.
impl FromStr for Name {
    type Err = BadName;

    fn from_str(typed: &str) -> Result<Name, BadName> {
        let (body, kind) = typed.split_once('/').unwrap_or((typed, ""));
        let mut bytes = [b' '; Name::LEN];
        let (body_place, kind_place) = bytes.split_at_mut(Name::BODY);
        let (body_fits, kind_fits) = (fill(body_place, body), fill(kind_place, kind));
        // From the left: the name's bytes, those of it that have no place, and so the type's.
        match Name::new(bytes) {
            Err(bad) if bad.place().map_or(false, |place| usize::from(place) < Name::BODY) => Err(bad),
            _ if !body_fits => Err(BadName::NameTooLong),
            Ok(_) if !kind_fits => Err(BadName::TypeTooLong),
            answer => answer,
        }
    }
}

/// As people type it: the name, then a slash and the type if there is one.
impl fmt::Display for Name {
    fn fmt(&self, f: &mut fmt::Formatter<'_>) -> fmt::Result {
        let (body, kind) = self.0.split_at(Name::BODY);
        let (body, kind) = (String::from_utf8_lossy(body), String::from_utf8_lossy(kind));
        let ascii_space = |c: char| c.is_ascii_whitespace();
        let mut typed = body.trim_end_matches(ascii_space).to_string();
        let kind = kind.trim_end_matches(ascii_space);
        if !kind.is_empty() {
            typed.push('/');
            typed.push_str(kind);
        }
        f.pad(&typed)
    }
}

impl fmt::Debug for Name {
    fn fmt(&self, f: &mut fmt::Formatter<'_>) -> fmt::Result {
        write!(f, "Name({:?})", String::from_utf8_lossy(&self.0))
    }
}

impl BadName {
    /// The place of the byte, 0 to 10; none where a text is too long.
    pub fn place(&self) -> Option<u8> {
        match *self {
            BadName::Byte { place, .. } => Some(place),
            BadName::NameTooLong | BadName::TypeTooLong => None,
        }
    }

    /// Where that is in the text whose parsing failed, in bytes from 0. Every byte before it is an ASCII character, so it is
    /// the column too.
    pub fn offset(&self, typed: &str) -> usize {
        let in_type = |place: usize| typed.find('/').map_or(typed.len(), |slash| slash + 1) + place;
        match *self {
            BadName::Byte { place, .. } => {
                let place = usize::from(place);
                place.checked_sub(Name::BODY).map_or(place, in_type)
            }
            BadName::NameTooLong => Name::BODY,
            BadName::TypeTooLong => in_type(Name::LEN - Name::BODY),
        }
    }
}

/// Which byte it is, and what is wrong with it.
impl fmt::Display for BadName {
    fn fmt(&self, f: &mut fmt::Formatter<'_>) -> fmt::Result {
        let (place, bytes) = match self {
            BadName::Byte { place, bytes } => (usize::from(*place), bytes),
            BadName::NameTooLong => return f.write_str("a name has at most 8 characters"),
            BadName::TypeTooLong => return f.write_str("a type has at most 3 characters"),
        };
        match bytes[place] {
            b' ' if bytes[..Name::BODY] == [b' '; Name::BODY] => f.write_str("the name is empty (byte 0 is a blank)"),
            b' ' => f.write_str("the blank (byte 0) cannot be a name's first character"),
            byte => {
                let shown = character(&bytes[place..]).unwrap_or_else(|| format!("{byte:02X}H"));
                let why = match Name::byte(byte) {
                    Some(_) => "stands behind a blank",
                    None => "is none that a name can have",
                };
                write!(f, "{shown} (byte {place}) {why}")
            }
        }
    }
}

/// The character that bytes begin with, in quotes: one of several bytes whole, as a text has it. None if they begin with none.
fn character(bytes: &[u8]) -> Option<String> {
    let text = (1..=4).find_map(|length| core::str::from_utf8(bytes.get(..length)?).ok())?;
    let c = text.chars().next().filter(|c| !c.is_control())?;
    Some(format!("{c:?}"))
}

#[cfg(feature = "std")]
impl std::error::Error for BadName {}

#[cfg(test)]
mod tests {
    use super::*;

    fn bytes(typed: &str) -> Result<[u8; 11], BadName> {
        typed.parse::<Name>().map(|n| *n.as_bytes())
    }

    #[test]
    fn names_as_typed() {
        assert_eq!(bytes("A"), Ok(*b"A          "));
        assert_eq!(bytes("A/"), Ok(*b"A          "));
        assert_eq!(bytes("ABCDEFGH/XYZ"), Ok(*b"ABCDEFGHXYZ"));
        assert_eq!(bytes("09[\\]/0"), Ok(*b"09[\\]   0  "));
        assert_eq!(bytes("puls01/dat"), Ok(*b"PULS01  DAT"));
        assert_eq!(bytes("Az{|}/z"), Ok(*b"AZ[\\]   Z  "));
        // A blank behind a part is what it is padded with.
        assert_eq!(bytes("A /B "), Ok(*b"A       B  "));
    }

    /// The place of the byte, where it stands in the text, and what is told.
    #[test]
    fn bad_names() {
        for (typed, place, offset, told) in [
            ("", Some(0), 0, "the name is empty (byte 0 is a blank)"),
            ("/DAT", Some(0), 0, "the name is empty (byte 0 is a blank)"),
            (" A", Some(0), 0, "the blank (byte 0) cannot be a name's first character"),
            ("A b", Some(2), 2, "'b' (byte 2) stands behind a blank"),
            ("A B~", Some(2), 2, "'B' (byte 2) stands behind a blank"),
            ("PULS01/D T", Some(10), 9, "'T' (byte 10) stands behind a blank"),
            ("A/B/C", Some(9), 3, "'/' (byte 9) is none that a name can have"),
            ("a//", Some(8), 2, "'/' (byte 8) is none that a name can have"),
            ("A^", Some(1), 1, "'^' (byte 1) is none that a name can have"),
            ("A@", Some(1), 1, "'@' (byte 1) is none that a name can have"),
            ("A:", Some(1), 1, "':' (byte 1) is none that a name can have"),
            ("A`", Some(1), 1, "'`' (byte 1) is none that a name can have"),
            ("A~", Some(1), 1, "'~' (byte 1) is none that a name can have"),
            ("A\u{7f}", Some(1), 1, "7FH (byte 1) is none that a name can have"),
            ("MÜHLE", Some(1), 1, "'Ü' (byte 1) is none that a name can have"),
            ("A/\u{1b}[m", Some(8), 2, "1BH (byte 8) is none that a name can have"),
            // Its last byte has no place among the three.
            ("A/B€", Some(9), 3, "E2H (byte 9) is none that a name can have"),
            ("ABCDEFGHI", None, 8, "a name has at most 8 characters"),
            ("abcdefghi/~", None, 8, "a name has at most 8 characters"),
            ("ABC~EFGHI", Some(3), 3, "'~' (byte 3) is none that a name can have"),
            ("A/WXYZ", None, 5, "a type has at most 3 characters"),
            ("A/W~YZ", Some(9), 3, "'~' (byte 9) is none that a name can have"),
        ] {
            let bad = typed.parse::<Name>().unwrap_err();
            assert_eq!((bad.place(), bad.offset(typed), bad.to_string().as_str()), (place, offset, told), "{typed:?}");
        }
    }

    /// What the library takes for a name once it is folded, and what an entry may have, are alike but for small letters.
    #[test]
    fn as_the_library_says() {
        for byte in 0..=255 {
            for place in 0..Name::LEN {
                let mut bytes = *b"ABCDEFGHXYZ";
                bytes[place] = byte;
                let given = Name::from_bytes(bytes);
                match Name::new(bytes) {
                    Ok(name) => {
                        assert!(name.is_well_formed());
                        assert_eq!(Name::new(name.0), Ok(name));
                        assert_eq!(given.is_well_formed(), name == given);
                    }
                    Err(bad) => assert_eq!(given.bad_place(), bad.place().map(usize::from), "{bytes:?}"),
                }
            }
        }
    }

    #[test]
    fn names_of_any_bytes() {
        assert_eq!(Name::from_bytes(*b"PULS01  DAT").shown(), "PULS01/DAT");
        assert_eq!(Name::from_bytes(*b"puls 1  DAT").shown(), "\"puls 1  DAT\"");
        assert_eq!(Name::from_bytes(*b"\x1b[2J\"\\\x00\xff   ").shown(), "\"\\x1B[2J\\x22\\x5C\\x00\\xFF   \"");
    }

    #[test]
    fn back_to_text() {
        for typed in ["A", "ABCDEFGH/XYZ", "PULS01/DAT", "LEER", "X/1"] {
            assert_eq!(typed.parse::<Name>().unwrap().to_string(), typed);
        }
        assert_eq!(format!("[{:8}]", "AB/C".parse::<Name>().unwrap()), "[AB/C    ]");
        // Bytes that are no name are shown as they can be.
        assert_eq!(Name::from_bytes(*b"           ").to_string(), "");
        assert_eq!(Name::from_bytes([0xff; 11]).to_string().chars().filter(|&c| c == '\u{fffd}').count(), 11);
    }
}
