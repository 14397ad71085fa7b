//! Whether the terminal is written to in colours, and which.

use crate::args::{Args, Spec};
use crate::failure::Failure;
use crate::host;

pub const COLOR: Spec = Spec {
    long: "color",
    short: None,
    value: Some("WHEN"),
    help: "colours: always, never or auto (auto: if it is a terminal and NO_COLOR is not set)",
};

/// Whether colours are wanted.
pub fn wanted(args: &Args) -> Result<bool, Failure> {
    match args.value(COLOR.long).map(|when| when.to_string_lossy()).as_deref() {
        Some("always") => Ok(true),
        Some("never") => Ok(false),
        Some("auto") | None => Ok(by_itself()),
        Some(other) => Err(Failure::Wrong(format!("--color is always, never or auto, not {other:?}"))),
    }
}

/// A terminal takes them, unless the environment says that it or its user does not.
fn by_itself() -> bool {
    let set = |name: &str| std::env::var_os(name).filter(|value| !value.is_empty());
    set("NO_COLOR").is_none() && set("TERM").map_or(true, |term| term != "dumb") && host::is_terminal()
}

/// How a text is shown.
#[derive(Clone, Copy, Debug, PartialEq, Eq)]
pub enum Look {
    /// One of the files' colours, by a running number.
    File(usize),
    Directory,
    Faint,
    Fault,
}

/// Light grounds of the 256 colours of terminals, under black letters.
const GROUNDS: [u8; 12] = [153, 229, 183, 157, 216, 252, 159, 218, 193, 189, 180, 194];

/// A text in its look, and the terminal's own behind it.
pub fn painted(text: &str, look: Look, colours: bool) -> String {
    if !colours {
        return text.to_string();
    }
    let codes = match look {
        Look::File(number) => format!("30;48;5;{}", GROUNDS[number % GROUNDS.len()]),
        Look::Directory => "97;48;5;238".to_string(),
        Look::Faint => "2".to_string(),
        Look::Fault => "1;97;41".to_string(),
    };
    format!("\x1b[{codes}m{text}\x1b[0m")
}

#[cfg(test)]
mod tests {
    use super::*;

    #[test]
    fn plain_is_plain() {
        for look in [Look::File(3), Look::Directory, Look::Faint, Look::Fault] {
            assert_eq!(painted("A1", look, false), "A1");
            let coloured = painted("A1", look, true);
            assert!(coloured.starts_with("\x1b[") && coloured.ends_with("mA1\x1b[0m"), "{coloured:?}");
        }
        assert_eq!(painted("A", Look::File(0), true), painted("A", Look::File(12), true));
    }
}
