//! Options and words of a command line.

use crate::host::{bytes_of, word_of};
use std::ffi::{OsStr, OsString};

/// An option that a command knows.
#[derive(Clone, Copy, Debug)]
pub struct Spec {
    /// Its name behind two dashes.
    pub long: &'static str,
    /// Its letter behind one dash.
    pub short: Option<u8>,
    /// What its value is called, if it takes one.
    pub value: Option<&'static str>,
    /// What it does, for the help.
    pub help: &'static str,
}

/// What the command line asks for.
#[derive(Debug)]
pub enum Asked {
    Run(Args),
    Help,
    Version,
}

/// The options given, and the words between them.
#[derive(Debug, Default)]
pub struct Args {
    options: Vec<(&'static str, OsString)>,
    pub words: Vec<OsString>,
}

impl Args {
    /// Sorts words from options. An option is `--long`, `--long=VALUE`, `--long VALUE`, `-s`, `-sVALUE` or `-s VALUE`;
    /// letters without a value may stand together; behind `--` everything is a word, and so is `-` alone.
    pub fn parse(specs: &[Spec], given: impl Iterator<Item = OsString>) -> Result<Asked, String> {
        let mut args = Args::default();
        let mut given = given;
        while let Some(word) = given.next() {
            let bytes = bytes_of(&word);
            if bytes == b"--" {
                args.words.extend(given);
                break;
            } else if let Some(long) = bytes.strip_prefix(b"--") {
                let (name, value) = match long.iter().position(|&b| b == b'=') {
                    Some(at) => (&long[..at], Some(word_of(&long[at + 1..]))),
                    None => (long, None),
                };
                match name {
                    b"help" if value.is_none() => return Ok(Asked::Help),
                    b"version" if value.is_none() => return Ok(Asked::Version),
                    _ => {}
                }
                let spec = specs.iter().find(|spec| spec.long.as_bytes() == name);
                let spec = spec.ok_or_else(|| format!("there is no option {}", word.to_string_lossy()))?;
                args.add(spec, value, &mut given)?;
            } else if bytes.len() > 1 && bytes[0] == b'-' {
                let mut letters = &bytes[1..];
                while let [letter, rest @ ..] = letters {
                    match letter {
                        b'h' => return Ok(Asked::Help),
                        b'V' => return Ok(Asked::Version),
                        _ => {}
                    }
                    let spec = specs.iter().find(|spec| spec.short == Some(*letter));
                    let spec = spec.ok_or_else(|| format!("there is no option {}", word.to_string_lossy()))?;
                    let takes_rest = spec.value.is_some() && !rest.is_empty();
                    args.add(spec, takes_rest.then(|| word_of(rest)), &mut given)?;
                    letters = if takes_rest { &[] } else { rest };
                }
            } else {
                args.words.push(word);
            }
        }
        Ok(Asked::Run(args))
    }

    fn add(
        &mut self,
        spec: &Spec,
        value: Option<OsString>,
        given: &mut impl Iterator<Item = OsString>,
    ) -> Result<(), String> {
        let long = spec.long;
        if self.has(long) {
            return Err(format!("--{long} is given twice"));
        }
        let value = match (spec.value, value) {
            (None, None) => OsString::new(),
            (None, Some(_)) => return Err(format!("--{long} takes no value")),
            (Some(_), Some(value)) => value,
            (Some(kind), None) => given.next().ok_or_else(|| format!("--{long} wants a value, {kind}"))?,
        };
        self.options.push((long, value));
        Ok(())
    }

    /// Whether the option was given.
    pub fn has(&self, long: &str) -> bool {
        self.value(long).is_some()
    }

    /// The option's value as given.
    pub fn value(&self, long: &str) -> Option<&OsStr> {
        self.options.iter().find(|(name, _)| *name == long).map(|(_, value)| value.as_os_str())
    }

    /// The option's value as a number: 1440, 5A0H or 0x5A0.
    pub fn number(&self, long: &str) -> Result<Option<usize>, String> {
        match self.value(long) {
            Some(value) => match value.to_str().and_then(number) {
                Some(number) => Ok(Some(number)),
                None => Err(format!("--{long} wants a number, as 1440 or 5A0H, not {value:?}")),
            },
            None => Ok(None),
        }
    }

    /// The option's value as a password code: a number of 16 bits.
    pub fn code(&self, long: &str) -> Result<Option<u16>, String> {
        let too_large = |_| format!("--{long} wants a code of 16 bits, at most FFFFH");
        self.number(long)?.map(|number| u16::try_from(number).map_err(too_large)).transpose()
    }
}

/// A number as people type it: decimal, or hexadecimal with an H behind it or 0x before it.
pub fn number(typed: &str) -> Option<usize> {
    let upper = typed.to_ascii_uppercase();
    let (digits, radix) = match (upper.strip_suffix('H'), upper.strip_prefix("0X")) {
        (Some(digits), _) => (digits, 16),
        (_, Some(digits)) => (digits, 16),
        _ => (upper.as_str(), 10),
    };
    // from_str_radix takes a plus sign, people do not mean one.
    match digits.starts_with('+') {
        true => None,
        false => usize::from_str_radix(digits, radix).ok(),
    }
}

#[cfg(test)]
mod tests {
    use super::*;

    const SPECS: [Spec; 3] = [
        Spec { long: "force", short: Some(b'f'), value: None, help: "" },
        Spec { long: "all", short: Some(b'a'), value: None, help: "" },
        Spec { long: "output", short: Some(b'o'), value: Some("DIR"), help: "" },
    ];

    fn parse(words: &[&str]) -> Result<Args, String> {
        match Args::parse(&SPECS, words.iter().map(OsString::from))? {
            Asked::Run(args) => Ok(args),
            other => Err(format!("{other:?}")),
        }
    }

    #[test]
    fn options_and_words_mix() {
        for words in [
            &["a", "--output", "x", "b", "-f"][..],
            &["--output=x", "-f", "a", "b"],
            &["-fo", "x", "a", "b"],
            &["a", "-fox", "b"],
            &["-o", "x", "-f", "--", "a", "b"],
        ] {
            let args = parse(words).unwrap();
            assert_eq!(args.words, ["a", "b"], "{words:?}");
            assert_eq!(args.value("output").unwrap(), "x");
            assert!(args.has("force") && !args.has("all"));
        }
        assert_eq!(parse(&["--", "-f", "--bogus"]).unwrap().words, ["-f", "--bogus"]);
        assert_eq!(parse(&["-o", "-", "-"]).unwrap().words, ["-"]);
        assert_eq!(parse(&["--output="]).unwrap().value("output").unwrap(), "");
    }

    #[test]
    fn wrong_options() {
        for words in [
            &["--bogus"][..],
            &["-x"],
            &["-fx"],
            &["--force=yes"],
            &["--output"],
            &["-o"],
            &["-f", "--force"],
            &["--forc"],
        ] {
            assert!(parse(words).is_err(), "{words:?}");
        }
    }

    #[test]
    fn help_is_found() {
        assert_eq!(parse(&["a", "--help"]).unwrap_err(), "Help");
        assert_eq!(parse(&["-fh"]).unwrap_err(), "Help");
        assert_eq!(parse(&["-V"]).unwrap_err(), "Version");
    }

    #[test]
    fn numbers() {
        assert_eq!(number("1440"), Some(1440));
        assert_eq!(number("5A0H"), Some(1440));
        assert_eq!(number("5a0h"), Some(1440));
        assert_eq!(number("0x5A0"), Some(1440));
        assert_eq!(number("10H"), Some(16));
        for wrong in ["", "H", "0x", "-1", "+1", "+1H", "5A0", "1 ", "1.0", "99999999999999999999"] {
            assert_eq!(number(wrong), None, "{wrong}");
        }
    }
}
