//! The comparison: each call is performed on the model and on the library under test, each with an
//! image of its own, and all they answer and leave must be alike.

use crate::call::{perform, possible, Call, Lent, Outcome, PLACE};
use crate::caller::{odd_geometry, Caller};
use crate::calls::{Number, ACCEPTED, LEVEL, NAME, STALE};
use crate::consistency::consistent;
use crate::damage::{random_flips, DAMAGES};
use crate::differences::{
    differences, CONTENTS, DATE, FIRST, NO_MORE, ONLY_IN_FIRST, ONLY_IN_SECOND, OTHER, SECOND, SIZE, UNLIKE,
};
use crate::directory::{
    chain, directory_sectors, entry, gat_place, hit_place, owned, slots, ENTRY_BYTES, LENGTH_PLACE,
};
use crate::disks::{random_disk, Disk};
use crate::geometry::{Geometry, SECTOR_BYTES};
use crate::handle::{Handle, HANDLE_BYTES};
use crate::library::Library;
use crate::model::Model;
use crate::names::{fold, written, FULL_NAME_BYTES};
use crate::pairs::{holding, side, tell, Side, Told, CHANGES};
use crate::plain::files_of;
use crate::play::TRACE;
use crate::random::Random;
use crate::space::free_stretches;
use crate::two_drives::random_calls;
use std::collections::BTreeMap;

/// How often each call gave each number, and how often other things worth meeting were met.
#[derive(Default, Clone)]
pub struct Seen {
    pub numbers: BTreeMap<(&'static str, Number), usize>,
    pub events: BTreeMap<&'static str, usize>,
    pub calls: usize,
    pub disks: usize,
}

/// What a run must have met beside the numbers.
pub const EVENTS: &[&str] = &[
    "look up compared several",
    "look up compared several and found none",
    "look up finds a name in small letters",
    "open of a name in small letters",
    "open grants the stored level",
    "create finds an old file",
    "create finds a name in small letters",
    "create makes a file of a name in small letters",
    "a handle with small letters is stale",
    "create opens a system file",
    "read of a system file",
    "read crosses granules",
    "sector part under 256 bytes",
    "write fills a gap with zeros",
    "write shrinks the file",
    "write within the file",
    "write crosses granules",
    "growth lengthens a run",
    "growth adds runs",
    "growth adds an extension",
    "growth adds several extensions",
    "growth fills the disk",
    "size grows within the granules under E",
    "trim cuts a run",
    "trim empties pairs",
    "trim empties an extension",
    "trim empties several extensions",
    "trim gives back all",
    "trim under F",
    "kill of a file with extensions",
    "bring back of a file without granules",
    "bring back of a file with an extension",
    "bring back of a file with many extensions",
    "bytes: a whole file is read",
    "bytes: nothing is read at the end",
    "bytes: read over several granules",
    "bytes: a write of nothing cuts the file",
    "bytes: a write of nothing lengthens the file",
    "bytes: written over several granules",
    "load record tells data",
    "load record tells a record without data",
    "load record tells a start address",
    "load record passes a comment over",
    "a load read crosses granules",
    "play makes calls",
    "play meets a refused call",
    "play breaks off",
    "list tells a file",
    "list tells no more",
    "free space of a disk that is not consistent",
    "longest stretch over blocks",
    "longest stretch to the end",
    "bits past the last unit clear",
    "level refused on a system file",
    "a bad byte at place 0",
    "a bad byte at place 1",
    "a bad byte at place 2",
    "a bad byte at place 3",
    "a bad byte at place 4",
    "a bad byte at place 5",
    "a bad byte at place 6",
    "a bad byte at place 7",
    "a bad byte at place 8",
    "a bad byte at place 9",
    "a bad byte at place 10",
    "a long buffer's rest is untouched",
    "still consistent after flips",
    "compare tells only in the first",
    "compare tells only in the second",
    "compare tells contents",
    "compare tells a beginning of the other",
    "compare tells a size",
    "compare tells a date",
    "compare tells attributes alone",
    "compare tells no more",
    "compare tells a high number",
    "compare refuses the first image",
    "compare refuses the second image",
    "compare refuses both images",
];

impl Seen {
    fn event(&mut self, what: &'static str, happened: bool) {
        debug_assert!(EVENTS.contains(&what), "{what} is not listed");
        if happened {
            *self.events.entry(what).or_default() += 1;
        }
    }

    /// What never occurred: each number by each call that can give it, and each event.
    pub fn missing(&self) -> Vec<String> {
        let mut all = Vec::new();
        for (title, numbers) in possible() {
            for number in numbers {
                if !self.numbers.contains_key(&(title, number)) {
                    all.push(format!("{title} never gave {number}"));
                }
            }
        }
        for event in EVENTS {
            if !self.events.contains_key(event) {
                all.push(format!("never met: {event}"));
            }
        }
        all
    }

    /// A table for the reader.
    pub fn table(&self) -> String {
        let mut text = format!("{} disks, {} calls\n", self.disks, self.calls);
        for (title, numbers) in possible() {
            text += &format!("  {title:<17}");
            for number in numbers {
                let times = self.numbers.get(&(title, number)).copied().unwrap_or(0);
                text += &format!(" {number}:{times}");
            }
            text += "\n";
        }
        for event in EVENTS {
            text += &format!("  {event}: {}\n", self.events.get(event).copied().unwrap_or(0));
        }
        text
    }
}

/// What stands at a place of the image.
pub fn what_is(image: &[u8], g: &Geometry, place: usize) -> String {
    if !g.fits(image.len()) {
        return format!("byte {place}");
    }
    let from = g.start * SECTOR_BYTES;
    let d = directory_sectors(image, g).unwrap_or(10);
    if place >= from && place < from + SECTOR_BYTES {
        let byte = place - from;
        return match byte < g.blocks {
            true => format!("GAT byte {byte}"),
            false => format!("GAT sector's byte {byte}, past the last block"),
        };
    }
    if place >= from + SECTOR_BYTES && place < from + 2 * SECTOR_BYTES {
        let slot = place - from - SECTOR_BYTES;
        return match slot {
            LENGTH_PLACE => "HIT byte 1FH, the directory's length".into(),
            _ if slot % 32 <= d - 3 => format!("HIT of slot {slot:02X}H"),
            _ => format!("HIT place {slot:02X}H, no slot"),
        };
    }
    if place >= from && place < from + d * SECTOR_BYTES {
        let (sector, byte) = ((place - from) / SECTOR_BYTES, (place - from) % SECTOR_BYTES);
        let slot = byte / ENTRY_BYTES * 32 + sector - 2;
        return format!("entry byte {:02X}H of slot {slot:02X}H", byte % ENTRY_BYTES);
    }
    let granule = place / g.granule_bytes();
    let (byte, bit) = gat_place(g, granule);
    let mut text = format!("byte {} of granule {granule}", place % g.granule_bytes());
    if consistent(image, g) {
        for slot in crate::directory::files(image, g, d) {
            if let Some(at) = owned(image, g, d, slot).iter().position(|&own| own == granule) {
                let name = written(&entry(image, g, slot).name());
                text += &format!(", byte {} of {name}", at * g.granule_bytes() + place % g.granule_bytes());
            }
        }
    }
    if image[byte] & bit == 0 {
        text += ", free";
    }
    text
}

fn first_difference(mine: &[u8], theirs: &[u8]) -> Option<usize> {
    if mine == theirs {
        return None;
    }
    Some(mine.iter().zip(theirs).position(|(a, b)| a != b).unwrap_or(mine.len().min(theirs.len())))
}

/// A disk with calls on it, on both sides.
pub struct SideBySide<'a> {
    library: &'a dyn Library,
    g: Geometry,
    mine: Lent,
    theirs: Lent,
    caller: Caller,
}

impl<'a> SideBySide<'a> {
    pub fn new(library: &'a dyn Library, disk: &Disk, sober: bool) -> SideBySide<'a> {
        SideBySide {
            library,
            g: disk.g,
            mine: Lent::new(&disk.image),
            theirs: Lent::new(&disk.image),
            caller: Caller::new(disk, sober),
        }
    }

    pub fn image(&self) -> &[u8] {
        self.mine.bytes()
    }

    /// Another content of the image, on both sides.
    pub fn set_image(&mut self, image: &[u8]) {
        self.mine = Lent::new(image);
        self.theirs = Lent::new(image);
    }

    /// Performs a call on both sides, under the disk's geometry or another; the text says what differs.
    pub fn both(&mut self, g: &Geometry, length: usize, call: &Call, seen: &mut Seen) -> Result<Outcome, String> {
        let before = Before::of(self.mine.bytes(), &self.g, call);
        let mine = perform(&Model, &mut self.mine.lend()[..length], g, call);
        let theirs = perform(self.library, &mut self.theirs.lend()[..length], g, call);
        seen.calls += 1;
        *seen.numbers.entry((call.title(), mine.number)).or_default() += 1;
        if mine.number == ACCEPTED && *g == self.g {
            before.note(self.mine.bytes(), &self.g, call, &mine, seen);
        }
        seen.event(
            "level refused on a system file",
            mine.number == LEVEL && before.is_some_and(|b| b.entry.is_system() && b.handle.level <= 1),
        );
        if mine.number == NAME {
            let told = format!("a bad byte at place {}", mine.numbered(PLACE));
            seen.event(EVENTS.iter().find(|event| **event == told).expect("a place of a name"), true);
        }
        if let Call::Play { trace, .. } = call {
            let ends = mine.number == TRACE && mine.numbered("byte") == trace.len() && mine.numbered("bit") == 0;
            seen.event("play breaks off", ends);
        }
        if mine.number == STALE {
            let held = Handle::read(&mine.handle).expect("a handle of 19 bytes");
            let folded = Handle { name: held.name.map(fold), ..held };
            let d = directory_sectors(self.mine.bytes(), g).expect("a consistent disk");
            seen.event("a handle with small letters is stale", !folded.is_stale(self.mine.bytes(), g, d));
        }
        let mut wrong = Vec::new();
        if mine.number != theirs.number {
            wrong.push(format!("number: model {}, library {}", mine.number, theirs.number));
        }
        for ((title, a), (_, b)) in mine.numbers.iter().zip(&theirs.numbers) {
            if a != b {
                wrong.push(format!("{title}: model {a}, library {b}"));
            }
        }
        for (title, a, b) in [
            ("handle", &mine.handle, &theirs.handle),
            ("buffer", &mine.buffer, &theirs.buffer),
            ("name", &mine.name, &theirs.name),
        ] {
            if let Some(at) = first_difference(a, b) {
                wrong.push(format!("{title} byte {at}: model {:02X}H, library {:02X}H", a[at], b[at]));
            }
        }
        if !theirs.within || !self.theirs.edges_whole() {
            wrong.push("the library wrote beside what it was lent to write on".into());
        }
        if let Some(at) = first_difference(self.mine.bytes(), self.theirs.bytes()) {
            let (a, b) = (self.mine.bytes()[at], self.theirs.bytes()[at]);
            let what = what_is(self.mine.bytes(), &self.g, at);
            wrong.push(format!("image byte {at} ({what}): model {a:02X}H, library {b:02X}H"));
        }
        if wrong.is_empty() {
            Ok(mine)
        } else {
            Err(format!("{}\n  {call:02X?} (hexadecimal)\n  on {g:?}, image length {length}", wrong.join("\n  ")))
        }
    }

    /// One random call, seldom under an odd geometry.
    pub fn step(&mut self, random: &mut Random, seen: &mut Seen) -> Result<Outcome, String> {
        let (mut g, mut length) = (self.g, self.mine.bytes().len());
        let call = self.caller.make(random, self.mine.bytes(), &self.g);
        if random.percent(3) {
            (g, length) = odd_geometry(random, &self.g, length);
        }
        let outcome = self.both(&g, length, &call, seen)?;
        self.caller.learn(&call, &outcome);
        Ok(outcome)
    }

    /// One random call on a disk that is refused with this number: of some, the one that has met it least.
    fn refused_step(&mut self, number: Number, random: &mut Random, seen: &mut Seen) -> Result<Outcome, String> {
        let some: Vec<Call> = (0..20).map(|_| self.caller.make(random, self.mine.bytes(), &self.g)).collect();
        let met = |call: &&Call| seen.numbers.get(&(call.title(), number)).copied().unwrap_or(0);
        let rarest = some.iter().filter(|call| call.looks_for_faults()).min_by_key(met).expect("some call");
        self.both(&self.g.clone(), self.mine.bytes().len(), rarest, seen)
    }
}

/// The state of a call's file before the call.
#[derive(Clone)]
struct State {
    handle: Handle,
    entry: crate::directory::Entry,
    chain: usize,
    runs: usize,
    granules: usize,
    size: usize,
}

struct Before(Option<State>);

impl Before {
    fn state(image: &[u8], g: &Geometry, handle: &[u8]) -> Option<State> {
        let d = directory_sectors(image, g).filter(|d| g.start + d <= g.sectors())?;
        let handle = Handle::read(handle).filter(|handle| !handle.is_stale(image, g, d))?;
        let this = entry(image, g, handle.slot);
        let walked = chain(image, g, d, handle.slot);
        Some(State {
            handle,
            entry: this,
            chain: walked.len(),
            runs: walked.iter().map(|&slot| entry(image, g, slot).pairs().len()).sum(),
            granules: owned(image, g, d, handle.slot).len(),
            size: this.size()?,
        })
    }

    fn of(image: &[u8], g: &Geometry, call: &Call) -> Before {
        Before(match call {
            Call::ReadRecord { handle, .. }
            | Call::ReadBytes { handle, .. }
            | Call::LoadRecord { handle, .. }
            | Call::ReadSector { handle, .. }
            | Call::WriteRecord { handle, .. }
            | Call::WriteBytes { handle, .. }
            | Call::Allot { handle, .. }
            | Call::Trim { handle }
            | Call::Kill { handle } => Self::state(image, g, handle),
            _ => None,
        })
    }

    fn is_some_and(&self, holds: impl Fn(&State) -> bool) -> bool {
        self.0.as_ref().is_some_and(holds)
    }

    /// Notes what an accepted call did.
    fn note(&self, image: &[u8], g: &Geometry, call: &Call, outcome: &Outcome, seen: &mut Seen) {
        match call {
            Call::LookUp { name } => {
                seen.event("look up compared several", outcome.numbered("compared") > 1);
                let there = entry(image, g, outcome.numbered("slot") as u8).name();
                seen.event("look up finds a name in small letters", there[..] != name[..]);
            }
            Call::Open { name, .. } => {
                seen.event("open grants the stored level", outcome.handle[1] > 0);
                seen.event("open of a name in small letters", outcome.handle[8..HANDLE_BYTES] != name[..]);
            }
            Call::Create { name, .. } => {
                let old = outcome.numbered("old") == 1;
                seen.event("create finds an old file", old);
                let small = outcome.handle[8..HANDLE_BYTES] != name[..];
                seen.event("create finds a name in small letters", old && small);
                seen.event("create makes a file of a name in small letters", !old && small);
                let slot = outcome.handle[0];
                seen.event("create opens a system file", old && entry(image, g, slot).is_system());
            }
            Call::Play { .. } => {
                let results = &outcome.buffer[..outcome.numbered("calls")];
                seen.event("play makes calls", results.contains(&ACCEPTED));
                seen.event("play meets a refused call", results.iter().any(|&number| number != ACCEPTED));
            }
            Call::List { .. } => {
                seen.event("list tells a file", outcome.numbered("more") == 1);
                seen.event("list tells no more", outcome.numbered("more") == 0);
            }
            Call::Free => {
                let longest = outcome.numbered("longest");
                let first = free_stretches(image, g).into_iter().find(|stretch| stretch.len() == longest);
                let first = first.expect("the longest is one of them");
                seen.event("free space of a disk that is not consistent", !consistent(image, g));
                seen.event(
                    "longest stretch over blocks",
                    longest > 0 && first.start / g.units < (first.end - 1) / g.units,
                );
                seen.event("longest stretch to the end", longest > 0 && first.end == g.granules());
                let spare = |block: usize| image[g.start * SECTOR_BYTES + block] as usize >> g.units;
                let clear = (0..g.blocks).any(|block| spare(block) != 0xFF >> g.units);
                seen.event("bits past the last unit clear", g.units < 8 && clear);
            }
            Call::BringBack { .. } => {
                let slots = outcome.numbered("slots");
                seen.event("bring back of a file without granules", outcome.numbered("granules") == 0);
                seen.event("bring back of a file with an extension", slots == 2);
                seen.event("bring back of a file with many extensions", slots > 4);
            }
            Call::ReadSector { .. } => {
                seen.event("sector part under 256 bytes", outcome.numbered("to") - outcome.numbered("from") < 256)
            }
            _ => {}
        }
        let Some(was) = &self.0 else { return };
        let (position, length) = (was.handle.position(), was.handle.length());
        let crosses = position / g.granule_bytes() != (position + length - 1) / g.granule_bytes();
        match call {
            Call::ReadRecord { buffer, .. } => {
                seen.event("read of a system file", was.entry.is_system());
                seen.event("read crosses granules", crosses);
                seen.event("a long buffer's rest is untouched", buffer.len() > length);
            }
            Call::ReadBytes { buffer, .. } => {
                seen.event(
                    "bytes: a whole file is read",
                    position == 0 && buffer.len() == was.size && was.size > 0,
                );
                seen.event("bytes: nothing is read at the end", position == was.size && buffer.is_empty());
                seen.event("bytes: read over several granules", buffer.len() > 2 * g.granule_bytes());
            }
            Call::WriteBytes { sequential, buffer, .. } => {
                let nothing = buffer.is_empty();
                seen.event(
                    "bytes: a write of nothing cuts the file",
                    nothing && *sequential && position < was.size,
                );
                seen.event("bytes: a write of nothing lengthens the file", nothing && position > was.size);
                seen.event("bytes: written over several granules", buffer.len() > 2 * g.granule_bytes());
            }
            Call::LoadRecord { .. } => {
                let (data, count) = (outcome.numbered("kind") == 1, outcome.numbered("count"));
                seen.event("load record tells data", data && count > 0);
                seen.event("load record tells a record without data", data && count == 0);
                seen.event("load record tells a start address", !data);
                let behind = Handle::read(&outcome.handle).expect("19 bytes").position();
                seen.event("load record passes a comment over", data && behind - position > count + 4);
                let crosses = data && position / g.granule_bytes() != (behind - 1) / g.granule_bytes();
                seen.event("a load read crosses granules", crosses);
            }
            Call::WriteRecord { sequential, .. } => {
                let end = position + length;
                seen.event("write fills a gap with zeros", position > was.size);
                seen.event("write shrinks the file", *sequential && end < was.size);
                seen.event("write within the file", !*sequential && end <= was.size);
                seen.event("write crosses granules", crosses);
                seen.event("size grows within the granules under E", was.entry.no_growth() && end > was.size);
            }
            _ => {}
        }
        if let Call::Kill { .. } = call {
            seen.event("kill of a file with extensions", was.chain > 1);
            return;
        }
        let Some(is) = Self::state(image, g, &was.handle.bytes()) else {
            return;
        };
        if is.granules > was.granules {
            seen.event("growth lengthens a run", is.granules - was.granules > is.runs - was.runs);
            seen.event("growth adds runs", is.runs > was.runs);
            seen.event("growth adds an extension", is.chain == was.chain + 1);
            seen.event("growth adds several extensions", is.chain > was.chain + 1);
            seen.event("growth fills the disk", crate::space::free_granules(image, g).next().is_none());
        }
        if let Call::Trim { .. } = call {
            let given_back = is.granules < was.granules;
            let emptied = was.chain - is.chain;
            seen.event("trim cuts a run", given_back && was.granules - is.granules > was.runs - is.runs);
            seen.event("trim empties pairs", is.runs < was.runs);
            seen.event("trim empties an extension", emptied == 1);
            seen.event("trim empties several extensions", emptied > 1);
            seen.event("trim gives back all", given_back && is.granules == 0);
            let too_many = was.granules > was.size.div_ceil(g.granule_bytes());
            seen.event("trim under F", was.entry.keeps_space() && too_many);
        }
    }
}

/// What a whole run is given.
#[derive(Clone, Copy, Debug)]
pub struct Bounds {
    pub seed: u64,
    pub seconds: f64,
    pub calls: usize,
}

const CALLS_A_DISK: usize = 60;
const CALLS_A_BENCH: usize = 6;

/// A run: random disks, random calls on each, damaged copies of each. Ends at the bounds or at the
/// first difference; the text names the seed of the disk, so that `disk_run` repeats it.
pub fn run(library: &dyn Library, bounds: &Bounds, seen: &mut Seen) -> Result<(), String> {
    let started = std::time::Instant::now();
    let mut seeds = Random::new(bounds.seed);
    while seen.calls < bounds.calls && started.elapsed().as_secs_f64() < bounds.seconds {
        let seed = seeds.draw();
        disk_run(library, seed, seen)
            .map_err(|text| format!("run seed {}, disk seed {seed}: {text}", bounds.seed))?;
    }
    Ok(())
}

/// The part of a run that belongs to one disk.
pub fn disk_run(library: &dyn Library, seed: u64, seen: &mut Seen) -> Result<(), String> {
    let mut random = Random::new(seed);
    let disk = random_disk(&mut random);
    if !consistent(&disk.image, &disk.g) {
        return Err("the made-up disk is not consistent".into());
    }
    seen.disks += 1;
    let sober = random.percent(50);
    let mut sides = SideBySide::new(library, &disk, sober);
    for number in 0..CALLS_A_DISK {
        let outcome = sides.step(&mut random, seen).map_err(|text| format!("call {number}: {text}"))?;
        seen.event(
            "look up compared several and found none",
            outcome.number == 4
                && outcome.numbers.first().is_some_and(|(title, _)| *title == "slot")
                && outcome.numbered("compared") > 1,
        );
    }

    let mut after = disk.clone();
    after.image = sides.image().to_vec();
    // Drawn by itself, so that a disk's calls are the same with and without it.
    two_images(library, &mut Random::new(!seed), &disk, &after, seen)?;
    if consistent(&after.image, &after.g) {
        random_calls(library, &mut Random::new(seed ^ 9), [&disk, &after], CALLS_A_BENCH)?;
    }

    // Damaged copies: the check, and some calls each. A call accepted under an odd geometry may have
    // spoilt the disk for its own; then the disk as it was is damaged.
    let mut whole = disk.clone();
    if consistent(sides.image(), &disk.g) {
        whole.image = sides.image().to_vec();
    }
    let length = whole.image.len();
    for _ in 0..6 {
        let mut copy = whole.clone();
        let title = if random.percent(50) {
            let damage = random.pick(DAMAGES);
            if !damage.apply(&mut copy, &mut random) {
                continue;
            }
            damage.title
        } else {
            let times = *random.pick(&[1, 1, 2, 5]);
            random_flips(&mut copy, &mut random, times);
            "flips"
        };
        sides.set_image(&copy.image);
        let outcome = sides.both(&disk.g, length, &Call::Check, seen).map_err(|text| format!("{title}: {text}"))?;
        seen.event("still consistent after flips", title == "flips" && outcome.number == ACCEPTED);
        sides.both(&disk.g, length, &Call::Free, seen).map_err(|text| format!("{title}: {text}"))?;
        match outcome.number {
            ACCEPTED => (0..6).try_for_each(|_| sides.step(&mut random, seen).map(|_| ())),
            number => (0..3).try_for_each(|_| sides.refused_step(number, &mut random, seen).map(|_| ())),
        }
        .map_err(|text| format!("{title}: {text}"))?;
    }

    // Nonsense for a directory.
    let mut image = whole.image;
    let from = disk.g.start * SECTOR_BYTES;
    let d = directory_sectors(&image, &disk.g).expect("consistent");
    random.fill(&mut image[from + 2 * SECTOR_BYTES..from + d * SECTOR_BYTES]);
    if random.percent(50) {
        for slot in slots(d) {
            image[hit_place(&disk.g, slot)] = random.byte();
        }
    }
    sides.set_image(&image);
    sides.both(&disk.g, length, &Call::Check, seen).map_err(|text| format!("random directory: {text}"))?;

    // Nonsense for a GAT: free space is told all the same.
    let gat = from..from + SECTOR_BYTES;
    random.fill(&mut image[gat.clone()]);
    if random.percent(50) {
        // Long stretches: most bits clear, or whole blocks.
        for place in gat {
            image[place] = if random.percent(80) { 0 } else { *random.pick(&[0xFF, 0x01, 0x80, image[place]]) };
        }
    }
    sides.set_image(&image);
    sides.both(&disk.g, length, &Call::Free, seen).map_err(|text| format!("random GAT: {text}"))?;

    // Geometries for the same bytes.
    for _ in 0..4 {
        let (g, length) = odd_geometry(&mut random, &disk.g, length);
        sides.both(&g, length, &Call::Check, seen).map_err(|text| format!("odd geometry: {text}"))?;
        sides.both(&g, length, &Call::Free, seen).map_err(|text| format!("odd geometry: {text}"))?;
    }
    Ok(())
}

/// Compare on both sides; the text says what differs.
fn both_tell(
    library: &dyn Library,
    (first, second): (Side, Side),
    number: usize,
    room: &[u8],
    seen: &mut Seen,
) -> Result<Told, String> {
    let mine = tell(&Model, first, second, number, room);
    let theirs = tell(library, first, second, number, room);
    seen.calls += 1;
    *seen.numbers.entry(("compare", mine.number)).or_default() += 1;
    let unlike = mine.kind == UNLIKE;
    let has = |flag: usize| unlike && mine.flags & flag != 0;
    for (what, happened) in [
        ("compare tells only in the first", mine.kind == ONLY_IN_FIRST),
        ("compare tells only in the second", mine.kind == ONLY_IN_SECOND),
        ("compare tells contents", has(CONTENTS)),
        ("compare tells a size", has(SIZE)),
        ("compare tells a date", has(DATE)),
        ("compare tells attributes alone", unlike && mine.flags == OTHER),
        ("compare tells no more", mine.number == ACCEPTED && mine.kind == NO_MORE),
        ("compare tells a high number", mine.kind != NO_MORE && number >= 5),
        ("compare refuses the first image", mine.image == FIRST),
        ("compare refuses the second image", mine.image == SECOND),
    ] {
        seen.event(what, happened);
    }
    match mine == theirs && theirs.within {
        true => Ok(mine),
        false => Err(format!(
            "compare, number {number}, name buffer {room:02X?}:\n  model   {mine:02X?}\n  library {theirs:02X?} (hexadecimal)\n  \
             on {:?}, image length {}\n  and {:?}, image length {}",
            first.1,
            first.0.len(),
            second.1,
            second.0.len()
        )),
    }
}

/// Compare (02 §1): a disk as it was and as calls left it, either way about; with the same files laid out on another disk
/// and one of them changed; and with images of which one or both are refused.
fn two_images(
    library: &dyn Library,
    random: &mut Random,
    before: &Disk,
    after: &Disk,
    seen: &mut Seen,
) -> Result<(), String> {
    let mut pairs = vec![(before.clone(), after.clone()), (after.clone(), before.clone())];
    if before.g.granules() <= 400 {
        let mut files = files_of(&before.image, &before.g);
        random.pick(&CHANGES).apply(random, &mut files);
        if let Some(other) = holding(random, &files) {
            pairs.push((before.clone(), other));
        }
    }
    // A call accepted under an odd geometry may have spoilt the disk for its own: that too is compared.
    for (first, second) in &pairs {
        let known = match consistent(&first.image, &first.g) && consistent(&second.image, &second.g) {
            true => differences(&first.image, &first.g, &second.image, &second.g).len(),
            false => 0,
        };
        for _ in 0..3 {
            let number = match random.within(0, 7) {
                0 => random.draw() as usize,
                1 => known,
                _ => random.within(0, known),
            };
            let length = match random.within(0, 9) {
                0 => random.within(0, FULL_NAME_BYTES - 1),
                1 => random.within(FULL_NAME_BYTES, 20),
                _ => FULL_NAME_BYTES,
            };
            let room: Vec<u8> = (0..length).map(|_| random.byte()).collect();
            let told = both_tell(library, (side(first), side(second)), number, &room, seen)?;
            let whole = told.flags & (SIZE | CONTENTS) == SIZE | CONTENTS && told.kind == UNLIKE;
            seen.event("compare tells a beginning of the other", whole && begins(first, second, &told));
        }
    }
    for _ in 0..2 {
        let (mut first, mut second) = random.pick(&pairs).clone();
        let which = random.within(1, 3);
        if which & 1 != 0 {
            refusable(random, &mut first);
        }
        if which & 2 != 0 {
            refusable(random, &mut second);
        }
        let refused = |disk: &Disk| crate::calls::check(&disk.image, &disk.g) != ACCEPTED;
        seen.event("compare refuses both images", refused(&first) && refused(&second));
        both_tell(library, (side(&first), side(&second)), 0, &[0xEE; FULL_NAME_BYTES], seen)?;
    }
    Ok(())
}

/// The position told is where one of the two files ends.
fn begins(first: &Disk, second: &Disk, told: &Told) -> bool {
    let ends = |disk: &Disk| {
        let name = told.name[..FULL_NAME_BYTES].try_into().expect("11 bytes");
        files_of(&disk.image, &disk.g)
            .get::<crate::names::Name>(&name)
            .is_some_and(|f| f.bytes.len() == told.position)
    };
    ends(first) || ends(second)
}

/// Makes a disk one that is likely to be refused: damaged, or under another geometry or of another length.
fn refusable(random: &mut Random, disk: &mut Disk) {
    if random.percent(50) && consistent(&disk.image, &disk.g) {
        random.pick(DAMAGES).apply(disk, random);
    } else {
        let (g, length) = odd_geometry(random, &disk.g, disk.image.len());
        disk.g = g;
        disk.image.truncate(length);
    }
}
