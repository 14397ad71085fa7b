//! What each accepted call does to its own file in the plain list of a disk's files.

use crate::call::Call;
use crate::calls::Birth;
use crate::geometry::Geometry;
use crate::handle::Handle;
use crate::names::comes_in;
use crate::plain::{File, Files};

const DAY_BYTE: usize = 1;
const WORKED_ON: u8 = 1 << 5;
const KEEPS_SPACE: u8 = 1 << 7;

fn born(birth: &Birth) -> File {
    let (main, worker) = (birth.main_code.to_le_bytes(), birth.worker_code.to_le_bytes());
    let attributes = [
        0x10,
        birth.day as u8,
        (birth.year * 16 + birth.month) as u8,
        (birth.length % 256) as u8,
        main[0],
        main[1],
        worker[0],
        worker[1],
    ];
    File { attributes, bytes: Vec::new(), granules: 0 }
}

/// What an accepted call does to the list of a disk of this geometry. The handle, where there is one, is a good one.
pub fn effect(all: &mut Files, g: &Geometry, call: &Call) {
    let handled = |handle: &Vec<u8>| Handle::read(handle).expect("an accepted call");
    match call {
        Call::Create { name, birth, .. } => {
            let name = comes_in(name).expect("an accepted call");
            all.entry(name).or_insert_with(|| born(birth));
        }
        Call::WriteRecord { handle, sequential, buffer } => {
            let h = handled(handle);
            written(all, g, &h, *sequential, &buffer[..h.length()]);
        }
        Call::WriteBytes { handle, sequential, buffer } => written(all, g, &handled(handle), *sequential, buffer),
        Call::Allot { handle, k } => {
            let file = all.get_mut(&handled(handle).name).expect("no stale handle");
            file.granules = file.granules.max(k / g.granule_sectors + 1);
        }
        Call::Trim { handle } => {
            let file = all.get_mut(&handled(handle).name).expect("no stale handle");
            if file.attributes[DAY_BYTE] & KEEPS_SPACE == 0 {
                file.granules = file.bytes.len().div_ceil(g.granule_bytes());
            }
        }
        Call::Kill { handle } => {
            all.remove(&handled(handle).name).expect("no stale handle");
        }
        _ => {}
    }
}

/// Bytes written at a handle's position: zeros from the old size to there, then they.
fn written(all: &mut Files, g: &Geometry, h: &Handle, sequential: bool, bytes: &[u8]) {
    let file = all.get_mut(&h.name).expect("no stale handle");
    let (position, end) = (h.position(), h.position() + bytes.len());
    let size = if sequential { end } else { end.max(file.bytes.len()) };
    file.bytes.resize(size, 0);
    file.bytes[position..end].copy_from_slice(bytes);
    file.attributes[DAY_BYTE] |= WORKED_ON;
    file.granules = file.granules.max(size.div_ceil(g.granule_bytes()));
}
