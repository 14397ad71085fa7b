//! Calls written down with all they are given and all that the model answers and leaves, to be made again where this crate
//! cannot run: `host/source/wasm` makes them on the library compiled for WebAssembly.
//!
//! A recording is a row of calls. Numbers are little-endian; `u32` unless it says otherwise.
//!
//! ```text
//! call      length of the name (one byte), the export's name; how many arguments (one byte), the arguments; the answer (one byte)
//! argument  'n' and the number (u64)
//!           'o' and the outgoing number as the call leaves it (u64)
//!           's', a place (one byte) and a slice's length; what the call is lent, then what it leaves there
//! ```
//!
//! What is lent is written as what has to be changed of the bytes that stand at that place since the last call with it, or
//! of zeros where the length was another; what is left, as what has to be changed of what is lent: how many changes, then for
//! each where it starts, how long it is, and its bytes.

use crate::calls::{Birth, Number};
use crate::geometry::Geometry;
use crate::library::Library;
use crate::model::Model;
use std::cell::RefCell;
use std::io::Write;

/// Where a slice stands: the places that the calls have between them, each with the slices that are lent there.
const PLACES: [&[&str]; 5] = [
    &["image", "first", "image0"],
    &["second", "trace", "image1"],
    &["name"],
    &["handle"],
    &["buffer", "folded", "results"],
];

fn place_of(slice: &str) -> usize {
    PLACES.iter().position(|here| here.contains(&slice)).expect("a place for every slice")
}

/// Changes closer together than this are one.
const NEAR: usize = 16;

/// An argument of a call that was made; the numbers of a geometry or of a birth are one each in a recording.
enum Argument<'a> {
    Given(u64),
    Stated(&'a Geometry),
    Born(&'a Birth),
    Outgoing(usize),
    /// A slice that is only read.
    Kept(&'static str, &'a [u8]),
    /// A slice as it is left.
    Left(&'static str, &'a [u8]),
}
use Argument::{Born, Given, Kept, Left, Outgoing, Stated};

/// The model, which writes down every call that is made of it.
pub struct Recorder<W: Write> {
    to: RefCell<W>,
    /// What each place holds after the last call with it.
    places: RefCell<[Vec<u8>; PLACES.len()]>,
}

impl<W: Write> Recorder<W> {
    pub fn new(to: W) -> Recorder<W> {
        Recorder { to: RefCell::new(to), places: Default::default() }
    }

    fn put(&self, bytes: &[u8]) {
        self.to.borrow_mut().write_all(bytes).expect("a recording that can be written");
    }

    fn put_length(&self, length: usize) {
        self.put(&u32::try_from(length).expect("a length of 32 bits").to_le_bytes());
    }

    fn put_changes(&self, was: &[u8], is: &[u8]) {
        let mut changes: Vec<std::ops::Range<usize>> = Vec::new();
        // Eight bytes at a time: images are mostly alike.
        for (at, (a, b)) in was.chunks(8).zip(is.chunks(8)).enumerate().filter(|(_, (a, b))| a != b) {
            let (from, to) = (8 * at, 8 * at + a.len().max(b.len()));
            match changes.last_mut() {
                Some(last) if from < last.end + NEAR => last.end = to,
                _ => changes.push(from..to),
            }
        }
        self.put_length(changes.len());
        for change in changes {
            self.put_length(change.start);
            self.put_length(change.len());
            self.put(&is[change]);
        }
    }

    fn put_number(&self, value: u64) {
        self.put(b"n");
        self.put(&value.to_le_bytes());
    }

    fn put_slice(&self, name: &str, lent: &[u8], left: &[u8]) {
        let place = place_of(name);
        let last = &mut self.places.borrow_mut()[place];
        if last.len() != lent.len() {
            *last = vec![0; lent.len()];
        }
        self.put(&[b's', place as u8]);
        self.put_length(lent.len());
        self.put_changes(last, lent);
        self.put_changes(lent, left);
        last.copy_from_slice(left);
    }

    /// Writes a call down; `before` has what those slices held that it may have changed, in order.
    fn put_call(&self, export: &str, answer: Number, before: &[Vec<u8>], arguments: &[Argument]) -> Number {
        self.put(&[u8::try_from(export.len()).expect("a short name")]);
        self.put(export.as_bytes());
        let count: usize = arguments.iter().map(|one| one.numbers().len().max(1)).sum();
        self.put(&[u8::try_from(count).expect("few arguments")]);
        let mut before = before.iter();
        for argument in arguments {
            match argument {
                Given(_) | Stated(_) | Born(_) => {
                    argument.numbers().into_iter().for_each(|value| self.put_number(value))
                }
                Outgoing(value) => {
                    self.put(b"o");
                    self.put(&(*value as u64).to_le_bytes());
                }
                Kept(name, bytes) => self.put_slice(name, bytes, bytes),
                Left(name, bytes) => self.put_slice(name, before.next().expect("one for each"), bytes),
            }
        }
        self.put(&[answer]);
        answer
    }
}

impl Argument<'_> {
    /// The incoming numbers that it stands for.
    fn numbers(&self) -> Vec<u64> {
        match self {
            Given(value) => vec![*value],
            Stated(g) => vec![
                g.blocks as u64,
                g.units as u64,
                g.start as u64,
                g.open_code.into(),
                g.system_disk.into(),
                g.granule_sectors as u64,
            ],
            Born(birth) => vec![
                birth.day as u64,
                birth.month as u64,
                birth.year as u64,
                birth.length as u64,
                birth.main_code.into(),
                birth.worker_code.into(),
                birth.checking.into(),
            ],
            Outgoing(_) | Kept(..) | Left(..) => Vec::new(),
        }
    }
}

macro_rules! method {
    ($call:ident $export:ident p[$($p:tt)*] n[$($n:tt)*] m $m:tt c $c:tt w[$($w:tt)*] r[$($r:tt)*] $($rest:tt)*) => {
        fn $call(&self, $($p)*) -> Number {
            let before: &[Vec<u8>] = &[$($w)*];
            let answer = Model.$call($($n)*);
            self.put_call(stringify!($export), answer, before, &[$($r)*])
        }
    };
}
macro_rules! methods {
    ($($rows:tt)*) => {
        impl<W: Write> Library for Recorder<W> {
            fn title(&self) -> &'static str {
                "recorder"
            }
            spread! { method $($rows)* }
        }
    };
}
exports!(methods);
