//! A fault of a disk for `--json`.

use crate::json::Json;
use genie_dos::Explained;

/// Number, kind, place, name and words.
pub fn json(fault: &Explained) -> Json {
    Json::object([
        ("number", fault.fault.kind.number().into()),
        ("kind", fault.fault.kind.words().into()),
        ("slot", fault.fault.slot.into()),
        ("sector", fault.sector.into()),
        ("byte", fault.byte.into()),
        ("image_byte", fault.image_byte.into()),
        ("name", fault.name.map(|name| name.to_string()).into()),
        ("message", fault.message.as_str().into()),
    ])
}
