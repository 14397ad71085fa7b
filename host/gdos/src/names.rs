//! Names as people type them, on the disk and on the host, and patterns over them.

use genie_dos::{BadName, Name};
use std::path::Path;

/// A file of the disk as the user named it.
#[derive(Clone, Debug)]
pub struct Typed {
    /// The name as it is shown; what was typed, where that is none.
    pub text: String,
    /// The name for the library. If what was typed is no name, then neither are these bytes, and the library says so.
    pub name: Name,
    /// What is wrong with what was typed.
    pub wrong: Option<BadName>,
}

impl Typed {
    /// A name as typed. The library takes small letters for capital ones.
    pub fn new(typed: &str) -> Typed {
        match typed.parse::<Name>() {
            Ok(name) => Typed::from(name),
            Err(wrong) => {
                let bytes = match wrong {
                    BadName::Byte { bytes, .. } => bytes,
                    _ => [b' '; Name::LEN],
                };
                Typed { text: typed.to_string(), name: Name::from_bytes(bytes), wrong: Some(wrong) }
            }
        }
    }

    /// The name for a host's file: `puls01.dat` goes to PULS01/DAT. Only the last part of the path counts.
    pub fn for_host(path: &Path) -> Typed {
        let last = path.file_name().map(|last| last.to_string_lossy()).unwrap_or_default();
        match last.rsplit_once('.') {
            Some((body, kind)) => Typed::new(&format!("{body}/{kind}")),
            None => Typed::new(&last),
        }
    }
}

impl From<Name> for Typed {
    fn from(name: Name) -> Typed {
        Typed { text: name.to_string(), name, wrong: None }
    }
}

/// The host's file name for a file of the disk: PULS01.DAT for PULS01/DAT. Names have neither dots nor slashes of their
/// own, so different files get different names and none leaves the folder.
pub fn host_name(name: &Name) -> String {
    name.to_string().replace('/', ".")
}

/// Whether a word is a pattern.
pub fn is_pattern(word: &str) -> bool {
    word.contains(['*', '?'])
}

/// Whether a pattern fits a name as shown, `PULS01/DAT`: `*` stands for any characters, the slash too, or none; `?` for
/// one character that is no slash. Other characters count as in names: small letters for capital ones.
pub fn matches(pattern: &str, name: &Name) -> bool {
    let pattern: Vec<u8> = pattern.bytes().map(|c| Name::byte(c).unwrap_or(c)).collect();
    let text = name.to_string().into_bytes();
    let (mut p, mut t) = (0, 0);
    // Where to go on if the characters behind the last star do not fit: the star takes one more.
    let mut retry = None;
    while t < text.len() {
        let fits = match pattern.get(p) {
            Some(b'*') => {
                retry = Some((p, t));
                p += 1;
                continue;
            }
            Some(b'?') => text[t] != b'/',
            Some(&c) => c == text[t],
            None => false,
        };
        if fits {
            (p, t) = (p + 1, t + 1);
        } else if let Some((star, from)) = retry {
            retry = Some((star, from + 1));
            (p, t) = (star + 1, from + 1);
        } else {
            return false;
        }
    }
    pattern[p..].iter().all(|&c| c == b'*')
}

#[cfg(test)]
mod tests {
    use super::*;

    fn fits(pattern: &str, name: &str) -> bool {
        matches(pattern, &name.parse().unwrap())
    }

    #[test]
    fn patterns() {
        for pattern in
            ["*", "PULS01/DAT", "puls01/dat", "PULS*", "*/DAT", "PULS??/DAT", "P*1*T", "***", "*/*", "?*", "*01/D?T"]
        {
            assert!(fits(pattern, "PULS01/DAT"), "{pattern}");
        }
        for pattern in
            ["", "?", "PULS", "PULS01", "*/BAS", "PULS?/DAT", "PULS01?DAT", "*1", "PULS01/DAT?", "X*", "PULS01/"]
        {
            assert!(!fits(pattern, "PULS01/DAT"), "{pattern}");
        }
        assert!(fits("*", "LEER") && fits("L??R", "LEER") && !fits("*/*", "LEER") && !fits("LEER?", "LEER"));
        assert!(fits("*A*A*B", "AAAAAAAA/AAB") && !fits("*A*A*B*B", "AAAAAAAA/AAB"));
        assert!(fits("*\\]", "A[\\]") && fits("a{|}", "A[\\]") && !fits("A^", "A]") && !fits("A\u{c1}", "AA"));
    }

    #[test]
    fn between_host_and_disk() {
        let disk = |path: &str| {
            let typed = Typed::for_host(Path::new(path));
            let column = typed.wrong.map(|wrong| wrong.offset(&typed.text));
            (typed.text, column)
        };
        let good = |text: &str| (text.to_string(), None);
        assert_eq!(disk("out/puls01.dat"), good("PULS01/DAT"));
        assert_eq!(disk("LEER"), good("LEER"));
        assert_eq!(disk("a.d/leer"), good("LEER"));
        assert_eq!(disk("LEER."), good("LEER"));
        let bad = |text: &str, column: usize| (text.to_string(), Some(column));
        assert_eq!(disk("a.b.c"), bad("a.b/c", 1));
        assert_eq!(disk(".profile"), bad("/profile", 0));
        assert_eq!(disk(".dat"), bad("/dat", 0));
        assert_eq!(disk("series.data"), bad("series/data", 10));
        assert_eq!(disk("long_name.dat"), bad("long_name/dat", 4));
        assert_eq!(disk("verylongname.dat"), bad("verylongname/dat", 8));
        assert_eq!(disk(".."), bad("", 0));
        for name in ["PULS01/DAT", "LEER", "[\\]/]"] {
            let typed = Typed::new(name);
            assert_eq!(Typed::for_host(Path::new(&host_name(&typed.name))).name, typed.name);
        }
    }
}
