//! Stretches of bytes with their names, for people and for `--json`.

use crate::json::Json;
use genie_dos::Map;

/// Bytes that mean one thing.
#[derive(Clone, Debug, PartialEq, Eq)]
pub struct Field {
    /// Where the first of them stands in the image.
    pub at: usize,
    /// Their place as the rules count it there: a byte of an entry, a slot, a block; empty where there is none.
    pub place: String,
    pub bytes: Vec<u8>,
    /// What they are called; empty where they have no name.
    pub name: &'static str,
    /// What they say.
    pub meaning: String,
}

/// Fields that stand together, under a title.
#[derive(Clone, Debug, PartialEq, Eq)]
pub struct Section {
    pub title: String,
    pub fields: Vec<Field>,
}

/// More bytes than this of one value are shown as a number of them.
const MOST_ALIKE: usize = 16;

impl Field {
    fn marked(&self, map: &Map) -> Vec<usize> {
        let own = self.at..self.at + self.bytes.len();
        own.filter(|byte| map.faults.iter().any(|fault| fault.bytes.contains(byte))).collect()
    }

    /// `50 55 3C!53`: behind a byte at fault stands a mark.
    fn hex(&self, marked: &[usize]) -> String {
        match self.bytes.as_slice() {
            [first, .., _] if self.bytes.len() > MOST_ALIKE && self.bytes.iter().all(|byte| byte == first) => {
                format!("{first:02X} x {} ", self.bytes.len())
            }
            bytes => {
                let shown = (self.at..).zip(bytes).map(|(at, byte)| {
                    let mark = if marked.contains(&at) { '!' } else { ' ' };
                    format!("{byte:02X}{mark}")
                });
                shown.collect()
            }
        }
    }

    fn json(&self, map: &Map) -> Json {
        Json::object([
            ("image_byte", self.at.into()),
            ("place", self.place.as_str().into()),
            ("bytes", Json::list(self.bytes.iter().map(|&byte| byte.into()))),
            ("field", Some(self.name).filter(|name| !name.is_empty()).into()),
            ("meaning", self.meaning.as_str().into()),
            ("marked", Json::list(self.marked(map).into_iter().map(Json::from))),
        ])
    }
}

impl Section {
    /// Its title, and a line for each field: image byte, place, hex, name and meaning.
    pub fn text(&self, map: &Map) -> String {
        let shown: Vec<String> = self.fields.iter().map(|field| field.hex(&field.marked(map))).collect();
        let width = shown.iter().map(String::len).max().unwrap_or_default();
        let place = self.fields.iter().map(|field| field.place.chars().count()).max().unwrap_or_default();
        let mut text = format!("{}\n", self.title);
        for (field, hex) in self.fields.iter().zip(shown) {
            let name = match (field.name, field.meaning.as_str()) {
                ("", meaning) => meaning.to_string(),
                (name, "") => name.to_string(),
                (name, meaning) => format!("{name}: {meaning}"),
            };
            let line = format!("  {:>7}  {:<place$}  {hex:<width$} {name}", field.at, field.place);
            text += &format!("{}\n", line.trim_end());
        }
        text
    }

    pub fn json(&self, map: &Map) -> Json {
        Json::object([
            ("title", self.title.as_str().into()),
            ("fields", Json::list(self.fields.iter().map(|field| field.json(map)))),
        ])
    }

    /// Whether a byte stands in it.
    pub fn shows(&self, byte: usize) -> bool {
        self.fields.iter().any(|field| (field.at..field.at + field.bytes.len()).contains(&byte))
    }
}

/// Bytes as text in quotes; those that are no printable ones are dots.
pub fn printable(bytes: &[u8]) -> String {
    let shown = |&byte: &u8| if (b' '..=b'~').contains(&byte) { char::from(byte) } else { '.' };
    format!("|{}|", bytes.iter().map(shown).collect::<String>())
}

/// Bytes without names, 16 in a line; `place` tells a line's place.
pub fn rows(from: usize, bytes: &[u8], place: impl Fn(usize) -> String) -> Vec<Field> {
    let row = |(number, bytes): (usize, &[u8])| Field {
        at: from + 16 * number,
        place: place(16 * number),
        bytes: bytes.to_vec(),
        name: "",
        meaning: printable(bytes),
    };
    bytes.chunks(16).enumerate().map(row).collect()
}
