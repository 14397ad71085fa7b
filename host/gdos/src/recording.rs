//! Recorded sessions as people write them: a call a line.
//!
//! ```text
//! # what the bench did
//! create PULS01/DAT 256            record length
//! write PULS01/DAT 0 256 41H       position, record length, fill byte: a sequential write
//! random PULS01/DAT 300 3 42H      the same, a random write
//! read PULS01/DAT 0 256            position, record length
//! allot PULS01/DAT 7               sector
//! trim PULS01/DAT
//! kill PULS01/DAT
//! ```
//!
//! A name that is not well formed is `=` and its eleven bytes in hexadecimal. `name PULS01/DAT` gives a name its number before
//! a call does: the names count in the order in which they first stand.

use crate::args::number;
use crate::text::counted;
use genie_dos::{Call, Name, Recorded, Trace};

/// The session that a text says; or what is wrong with it, and in which line.
pub fn parse(text: &str) -> Result<Trace, String> {
    let mut trace = Trace::default();
    for (at, line) in text.lines().enumerate() {
        let words: Vec<&str> = line.split('#').next().unwrap_or_default().split_whitespace().collect();
        if let Some((&what, rest)) = words.split_first() {
            take(&mut trace, what, rest).map_err(|why| format!("line {}: {why}", at + 1))?;
        }
    }
    Ok(trace)
}

fn take(trace: &mut Trace, what: &str, rest: &[&str]) -> Result<(), String> {
    let wanted = match what {
        "name" | "trim" | "kill" => 0,
        "create" | "allot" => 1,
        "read" => 2,
        "write" | "random" => 3,
        _ => return Err(format!("what is {what}? Known are create, write, random, allot, trim, kill, read and name")),
    };
    let (name, numbers) = rest.split_first().ok_or_else(|| format!("{what}: on which file?"))?;
    if numbers.len() != wanted {
        return Err(format!("{what} takes {} behind the name, not {}", counted(wanted, "number"), numbers.len()));
    }
    let numbers: Vec<usize> = numbers
        .iter()
        .map(|typed| number(typed).ok_or_else(|| format!("{typed} is no number")))
        .collect::<Result<_, _>>()?;
    let name = name_of(name)?;
    let file = trace.names.iter().position(|known| *known == name).unwrap_or_else(|| {
        trace.names.push(name);
        trace.names.len() - 1
    });
    let fill = |typed: usize| u8::try_from(typed).map_err(|_| format!("{typed} is no byte"));
    let call = match (what, &numbers[..]) {
        ("create", &[length]) => Call::Create { length },
        ("write", &[position, length, byte]) => Call::SequentialWrite { position, length, fill: fill(byte)? },
        ("random", &[position, length, byte]) => Call::RandomWrite { position, length, fill: fill(byte)? },
        ("allot", &[sector]) => Call::Allot { sector },
        ("read", &[position, length]) => Call::Read { position, length },
        ("trim", _) => Call::Trim,
        ("kill", _) => Call::Kill,
        _ => return Ok(()),
    };
    trace.calls.push(Recorded { file, call });
    Ok(())
}

/// Eleven bytes: of a name as typed, or as they stand behind `=`.
fn name_of(typed: &str) -> Result<[u8; Name::LEN], String> {
    let wrong = || format!("{typed} is no name; one that is not well formed is = and eleven bytes in hexadecimal");
    match typed.strip_prefix('=') {
        None => typed.to_ascii_uppercase().parse::<Name>().map(|name| *name.as_bytes()).map_err(|_| wrong()),
        Some(digits) if digits.len() == 2 * Name::LEN && digits.is_ascii() => {
            let mut name = [0; Name::LEN];
            for (i, byte) in name.iter_mut().enumerate() {
                *byte = u8::from_str_radix(&digits[2 * i..2 * i + 2], 16).map_err(|_| wrong())?;
            }
            Ok(name)
        }
        Some(_) => Err(wrong()),
    }
}

/// A name as [`parse`] takes it.
pub fn name_text(bytes: &[u8; Name::LEN]) -> String {
    let name = Name::from_bytes(*bytes);
    match name.is_well_formed() {
        true => name.to_string(),
        false => format!("={}", bytes.iter().map(|byte| format!("{byte:02X}")).collect::<String>()),
    }
}

/// A call as [`parse`] takes it.
pub fn line(trace: &Trace, recorded: &Recorded) -> String {
    let name = trace.names.get(recorded.file).map(name_text).unwrap_or_default();
    match recorded.call {
        Call::Create { length } => format!("create {name} {length}"),
        Call::SequentialWrite { position, length, fill } => format!("write {name} {position} {length} {fill:02X}H"),
        Call::RandomWrite { position, length, fill } => format!("random {name} {position} {length} {fill:02X}H"),
        Call::Allot { sector } => format!("allot {name} {sector}"),
        Call::Trim => format!("trim {name}"),
        Call::Kill => format!("kill {name}"),
        Call::Read { position, length } => format!("read {name} {position} {length}"),
    }
}

/// The whole session, its names first.
pub fn written(trace: &Trace) -> String {
    let names = trace.names.iter().map(|name| format!("name {}\n", name_text(name)));
    let calls = trace.calls.iter().map(|recorded| line(trace, recorded) + "\n");
    names.chain(calls).collect()
}

#[cfg(test)]
mod tests {
    use super::*;

    #[test]
    fn both_ways() {
        let text = "name B\nname A/DAT\nname =3F3F3F3F3F3F3F3F3F3F3F\ncreate A/DAT 256\nwrite A/DAT 0 256 41H\n\
                    random B 300 3 42H\nallot B 7\ntrim B\nkill A/DAT\nread =3F3F3F3F3F3F3F3F3F3F3F 16777215 511\n";
        let trace = parse(text).unwrap();
        assert_eq!((trace.names.len(), trace.calls.len()), (3, 7));
        assert_eq!(written(&trace), text);
        assert_eq!(Trace::unpack(&trace.pack().unwrap()), Ok(trace));
    }

    #[test]
    fn remarks_and_mistakes() {
        assert_eq!(parse("# nothing\n\n  # yet\n"), Ok(Trace::default()));
        let told = |text| parse(text).unwrap_err();
        assert_eq!(
            told("trim A\nfly A"),
            "line 2: what is fly? Known are create, write, random, allot, trim, kill, read and name"
        );
        assert_eq!(told("kill"), "line 1: kill: on which file?");
        assert_eq!(told("create A"), "line 1: create takes 1 number behind the name, not 0");
        assert_eq!(told("create A x"), "line 1: x is no number");
        assert_eq!(told("write A 0 1 256"), "line 1: 256 is no byte");
        assert!(told("trim =41").starts_with("line 1: =41 is no name"));
    }
}
