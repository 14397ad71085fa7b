//! A call as a value, so that it can be made up, printed, and performed on any library.

use crate::calls::{Birth, Number};
use crate::fault;
use crate::geometry::Geometry;
use crate::library::Library;

/// A call with all it is given. Handles, buffers and names are what the caller lends, of any length.
#[derive(Clone, Debug)]
pub enum Call {
    /// The check of a name by itself, with the room for the folded one.
    Name {
        name: Vec<u8>,
        folded: Vec<u8>,
    },
    Check,
    LookUp {
        name: Vec<u8>,
    },
    Open {
        name: Vec<u8>,
        length: usize,
        checking: bool,
        code: u16,
        handle: Vec<u8>,
    },
    Create {
        name: Vec<u8>,
        birth: Birth,
        handle: Vec<u8>,
    },
    ReadRecord {
        handle: Vec<u8>,
        buffer: Vec<u8>,
    },
    ReadBytes {
        handle: Vec<u8>,
        buffer: Vec<u8>,
    },
    LoadRecord {
        handle: Vec<u8>,
        buffer: Vec<u8>,
    },
    ReadSector {
        handle: Vec<u8>,
        k: usize,
    },
    WriteRecord {
        handle: Vec<u8>,
        sequential: bool,
        buffer: Vec<u8>,
    },
    WriteBytes {
        handle: Vec<u8>,
        sequential: bool,
        buffer: Vec<u8>,
    },
    Allot {
        handle: Vec<u8>,
        k: usize,
    },
    Trim {
        handle: Vec<u8>,
    },
    Kill {
        handle: Vec<u8>,
    },
    BringBack {
        slot: usize,
    },
    Play {
        trace: Vec<u8>,
        results: Vec<u8>,
    },
    List {
        which: usize,
        name: Vec<u8>,
    },
    Count,
    Free,
}

impl Call {
    pub fn title(&self) -> &'static str {
        match self {
            Call::Name { .. } => "name",
            Call::Check => "check",
            Call::LookUp { .. } => "look up",
            Call::Open { .. } => "open",
            Call::Create { .. } => "create",
            Call::ReadRecord { .. } => "read record",
            Call::ReadBytes { .. } => "read bytes",
            Call::LoadRecord { .. } => "load record",
            Call::ReadSector { .. } => "read sector",
            Call::WriteRecord { sequential: true, .. } => "write sequential",
            Call::WriteRecord { sequential: false, .. } => "write random",
            Call::WriteBytes { sequential: true, .. } => "bytes sequential",
            Call::WriteBytes { sequential: false, .. } => "bytes random",
            Call::Allot { .. } => "allot",
            Call::Trim { .. } => "trim",
            Call::Kill { .. } => "kill",
            Call::BringBack { .. } => "bring back",
            Call::Play { .. } => "play",
            Call::List { .. } => "list",
            Call::Count => "count",
            Call::Free => "free",
        }
    }

    /// The bytes that it lends: handle, buffer and name. Play's trace is lent in the name's place, its results as a buffer.
    pub fn lends(&self) -> (&[u8], &[u8], &[u8]) {
        match self {
            Call::Check | Call::BringBack { .. } | Call::Count | Call::Free => (&[], &[], &[]),
            Call::Name { name, folded } => (&[], folded, name),
            Call::LookUp { name } | Call::List { name, .. } => (&[], &[], name),
            Call::Open { name, handle, .. } | Call::Create { name, handle, .. } => (handle, &[], name),
            Call::ReadRecord { handle, buffer }
            | Call::ReadBytes { handle, buffer }
            | Call::LoadRecord { handle, buffer }
            | Call::WriteRecord { handle, buffer, .. }
            | Call::WriteBytes { handle, buffer, .. } => (handle, buffer, &[]),
            Call::ReadSector { handle, .. }
            | Call::Allot { handle, .. }
            | Call::Trim { handle }
            | Call::Kill { handle } => (handle, &[], &[]),
            Call::Play { trace, results } => (&[], results, trace),
        }
    }

    /// Whether it looks for the disk's fault: free space looks at the GAT alone, the check of a name at no disk.
    pub fn looks_for_faults(&self) -> bool {
        !matches!(self, Call::Free | Call::Name { .. })
    }
}

/// The numbers that each call can give, 0 included; a 2 stands for all of 21 to 30.
const ROWS: [(&str, &[Number]); 22] = [
    ("name", &[0, 12, 3]),
    ("check", &[0, 1, 2]),
    ("look up", &[0, 1, 2, 3, 4]),
    ("open", &[0, 1, 2, 12, 3, 4, 5]),
    ("create", &[0, 1, 2, 12, 3, 5, 8]),
    ("read record", &[0, 1, 2, 12, 7, 6, 10]),
    ("read bytes", &[0, 1, 2, 12, 7, 6, 10]),
    ("load record", &[0, 1, 2, 12, 7, 6, 31, 32, 33]),
    ("read sector", &[0, 1, 2, 12, 7, 6, 10]),
    ("write sequential", &[0, 1, 2, 12, 7, 6, 11, 9, 8]),
    ("write random", &[0, 1, 2, 12, 7, 6, 11, 9, 8]),
    ("bytes sequential", &[0, 1, 2, 12, 7, 6, 11, 9, 8]),
    ("bytes random", &[0, 1, 2, 12, 7, 6, 11, 9, 8]),
    ("allot", &[0, 1, 2, 12, 7, 6, 11, 9, 8]),
    ("trim", &[0, 1, 2, 12, 7, 6]),
    ("kill", &[0, 1, 2, 12, 7, 6]),
    ("bring back", &[0, 1, 2, 12, 17, 6, 18, 19, 20]),
    ("play", &[0, 1, 2, 14, 15]),
    ("list", &[0, 1, 2, 12]),
    ("count", &[0, 1, 2]),
    ("free", &[0, 1]),
    ("compare", &[0, 1, 2, 12]),
];

/// The numbers that each call can give, 0 included.
pub fn possible() -> Vec<(&'static str, Vec<Number>)> {
    let split = |row: Number| if row == 2 { fault::numbers().collect() } else { vec![row] };
    ROWS.iter().map(|(title, rows)| (*title, rows.iter().flat_map(|&row| split(row)).collect())).collect()
}

/// All that a call answers and leaves, the image apart.
#[derive(Clone, Debug, PartialEq, Eq)]
pub struct Outcome {
    pub number: Number,
    /// The outgoing numbers, by name; last, where the call has one, the fault's slot.
    pub numbers: Vec<(&'static str, usize)>,
    pub handle: Vec<u8>,
    pub buffer: Vec<u8>,
    pub name: Vec<u8>,
    /// Nothing was written beside what was lent.
    pub within: bool,
}

impl Outcome {
    pub fn numbered(&self, title: &str) -> usize {
        self.numbers.iter().find(|(name, _)| *name == title).expect("an outgoing number of this call").1
    }

    /// The slot of the fault; none where it has none, and of an answer that is no fault.
    pub fn fault_slot(&self) -> Option<u8> {
        u8::try_from(self.numbered(FAULT_SLOT)).ok()
    }
}

pub const FAULT_SLOT: &str = "fault slot";
pub const PLACE: &str = "place";

const EDGE: usize = 64;
const EDGE_BYTE: u8 = 0xA7;

/// Bytes to lend, with an edge before and behind that nobody may write on. They begin at any address,
/// odd ones included.
#[derive(Clone)]
pub struct Lent {
    all: Vec<u8>,
    lent: std::ops::Range<usize>,
}

impl Lent {
    pub fn new(content: &[u8]) -> Lent {
        let first = EDGE + content.iter().take(16).fold(0, |sum, &byte| sum ^ byte as usize) % 8;
        let lent = first..first + content.len();
        let mut all = vec![EDGE_BYTE; lent.end + EDGE];
        all[lent.clone()].copy_from_slice(content);
        Lent { all, lent }
    }

    pub fn bytes(&self) -> &[u8] {
        std::hint::black_box(&self.all[self.lent.clone()])
    }

    pub fn lend(&mut self) -> &mut [u8] {
        &mut self.all[self.lent.clone()]
    }

    pub fn edges_whole(&self) -> bool {
        let all = std::hint::black_box(&self.all);
        let edges = all[..self.lent.start].iter().chain(&all[self.lent.end..]);
        edges.copied().all(|byte| byte == EDGE_BYTE)
    }
}

/// What outgoing numbers hold before the call: whoever leaves one alone is found out.
const UNSET: usize = 0x5EED_0B57_AC1E_D00D;

pub fn perform(library: &dyn Library, image: &mut [u8], g: &Geometry, call: &Call) -> Outcome {
    let (handle, buffer, name) = call.lends();
    let (mut handle, mut buffer, mut name) = (Lent::new(handle), Lent::new(buffer), Lent::new(name));
    let (mut one, mut two, mut three, mut four) = (UNSET, UNSET, UNSET, UNSET);
    let (mut place, mut fault_slot) = (UNSET, UNSET);
    let mut numbers = Vec::new();
    let number = match call {
        Call::Name { .. } => {
            let number = library.name(name.lend(), buffer.lend(), &mut place);
            numbers = vec![(PLACE, place)];
            number
        }
        Call::Check => library.check(image, g, &mut fault_slot),
        Call::LookUp { .. } => {
            let number = library.look_up(image, g, name.lend(), &mut one, &mut two, &mut place, &mut fault_slot);
            numbers = vec![("slot", one), ("compared", two), (PLACE, place)];
            number
        }
        Call::Open { length, checking, code, .. } => {
            let (name, handle) = (name.lend(), handle.lend());
            let number =
                library.open(image, g, name, *length, *checking, *code, handle, &mut place, &mut fault_slot);
            numbers = vec![(PLACE, place)];
            number
        }
        Call::Create { birth, .. } => {
            let (name, handle) = (name.lend(), handle.lend());
            let number = library.create(image, g, name, birth, &mut one, handle, &mut place, &mut fault_slot);
            numbers = vec![("old", one), (PLACE, place)];
            number
        }
        Call::ReadRecord { .. } => library.read_record(image, g, handle.lend(), buffer.lend(), &mut fault_slot),
        Call::ReadBytes { .. } => library.read_bytes(image, g, handle.lend(), buffer.lend(), &mut fault_slot),
        Call::LoadRecord { .. } => {
            let (handle, buffer) = (handle.lend(), buffer.lend());
            let number = library.load_record(
                image,
                g,
                handle,
                buffer,
                &mut one,
                &mut two,
                &mut three,
                &mut four,
                &mut fault_slot,
            );
            numbers = vec![("kind", one), ("address", two), ("count", three), ("position", four)];
            number
        }
        Call::ReadSector { k, .. } => {
            let number = library.read_sector(image, g, handle.lend(), *k, &mut one, &mut two, &mut fault_slot);
            numbers = vec![("from", one), ("to", two)];
            number
        }
        Call::WriteRecord { sequential, .. } => {
            library.write_record(image, g, handle.lend(), *sequential, buffer.lend(), &mut fault_slot)
        }
        Call::WriteBytes { sequential, .. } => {
            library.write_bytes(image, g, handle.lend(), *sequential, buffer.lend(), &mut fault_slot)
        }
        Call::Allot { k, .. } => library.allot(image, g, handle.lend(), *k, &mut fault_slot),
        Call::Trim { .. } => library.trim(image, g, handle.lend(), &mut fault_slot),
        Call::Kill { .. } => library.kill(image, g, handle.lend(), &mut fault_slot),
        Call::BringBack { slot } => {
            let number = library.bring_back(image, g, *slot, &mut one, &mut two, &mut fault_slot);
            numbers = vec![("slots", one), ("granules", two)];
            number
        }
        Call::Play { .. } => {
            let (trace, results) = (name.lend(), buffer.lend());
            let number = library.play(image, g, trace, results, &mut one, &mut two, &mut three, &mut fault_slot);
            numbers = vec![("calls", one), ("byte", two), ("bit", three)];
            number
        }
        Call::List { which, .. } => {
            let number =
                library.list(image, g, *which, name.lend(), &mut one, &mut two, &mut three, &mut fault_slot);
            numbers = vec![("size", one), ("granules", two), ("more", three)];
            number
        }
        Call::Count => {
            let number = library.count(image, g, &mut one, &mut two, &mut fault_slot);
            numbers = vec![("files", one), ("free", two)];
            number
        }
        Call::Free => {
            let number = library.free(image, g, &mut one, &mut two);
            numbers = vec![("free", one), ("longest", two)];
            number
        }
    };
    if call.looks_for_faults() {
        numbers.push((FAULT_SLOT, fault_slot));
    }
    Outcome {
        number,
        numbers,
        within: handle.edges_whole() && buffer.edges_whole() && name.edges_whole(),
        handle: handle.bytes().to_vec(),
        buffer: buffer.bytes().to_vec(),
        name: name.bytes().to_vec(),
    }
}
