//! A second drive: document 02, §9, from its words. Each call is the model's own call on one of two images; what is written
//! here is which of them, and what is told of it.

use crate::calls::{self, check, with_slot, Birth, Number, ACCEPTED, GEOMETRY, NO_PLACE, NO_SLOT};
use crate::directory::directory_sectors;
use crate::fault;
use crate::geometry::Geometry;
use crate::handle::HANDLE_BYTES;
use crate::space::first_permitted_slot;

/// "16, drive number not 0 or 1, before all others"
pub const NO_SUCH_DRIVE: Number = 16;
/// What the drive at fault is where there is none.
pub const NO_DRIVE: usize = 2;
/// "Handles carry the drive number": behind the 19 bytes.
pub const DRIVE_HANDLE_BYTES: usize = HANDLE_BYTES + 1;

type Side<'a> = (&'a [u8], &'a Geometry);

/// "1 and 2 name the drive", beside the fault's slot there; 2 is 21 to 30 now.
fn told(number: Number, drive: usize, side: Side, fault_drive: &mut usize, fault_slot: &mut usize) -> Number {
    let of_the_disk = number == GEOMETRY || fault::numbers().contains(&number);
    *fault_drive = if of_the_disk { drive } else { NO_DRIVE };
    with_slot(number, side.0, side.1, fault_slot)
}

/// "drive 0's before drive 1's", where both are tested: the refusal and its drive.
fn both(sides: &[Side; 2], fault_drive: &mut usize, fault_slot: &mut usize) -> Number {
    for (drive, &side) in sides.iter().enumerate() {
        let number = told(check(side.0, side.1), drive, side, fault_drive, fault_slot);
        if number != ACCEPTED {
            return number;
        }
    }
    ACCEPTED
}

/// "A name without a drive number is looked for on drive 0, then on drive 1."
fn holder(sides: &[Side; 2], name: &[u8]) -> Option<usize> {
    let finds = |side: &Side| calls::look_up(side.0, side.1, name, &mut 0, &mut 0, &mut 0) == ACCEPTED;
    sides.iter().position(finds)
}

#[allow(clippy::too_many_arguments)]
pub fn drives_look_up(
    image0: &[u8],
    g0: &Geometry,
    image1: &[u8],
    g1: &Geometry,
    numbered: bool,
    drive: usize,
    name: &[u8],
    found_drive: &mut usize,
    slot: &mut usize,
    compared: &mut usize,
    place: &mut usize,
    fault_drive: &mut usize,
    fault_slot: &mut usize,
) -> Number {
    let sides = [(image0, g0), (image1, g1)];
    (*found_drive, *slot, *compared, *place) = (0, 0, 0, NO_PLACE);
    (*fault_drive, *fault_slot) = (NO_DRIVE, NO_SLOT);
    if numbered && drive > 1 {
        return NO_SUCH_DRIVE;
    }
    let searched = if numbered { drive..drive + 1 } else { 0..2 };
    if !numbered {
        let refused = both(&sides, fault_drive, fault_slot);
        if refused != ACCEPTED {
            return refused;
        }
    }
    let (mut number, mut sum) = (ACCEPTED, 0);
    for here in searched {
        let side = sides[here];
        let answer = calls::look_up(side.0, side.1, name, slot, compared, place);
        number = told(answer, here, side, fault_drive, fault_slot);
        // "Comparison counts add up over the drives searched."
        sum += *compared;
        *compared = sum;
        if number == ACCEPTED {
            *found_drive = here;
        }
        if number != calls::NOT_FOUND {
            break;
        }
    }
    number
}

/// A handle that a call gives: 20 bytes where there is room for them, zeros under a refusal.
fn given(handle: &mut [u8], drive: usize, call: impl FnOnce(&mut [u8]) -> Number) -> Number {
    let mut held = [0; HANDLE_BYTES];
    // Too little room is 12, in 12's place.
    let room = if handle.len() < DRIVE_HANDLE_BYTES { 0 } else { HANDLE_BYTES };
    let number = call(&mut held[..room]);
    if room > 0 {
        handle[..HANDLE_BYTES].copy_from_slice(&held);
        handle[HANDLE_BYTES] = if number == ACCEPTED { drive as u8 } else { 0 };
    }
    number
}

#[allow(clippy::too_many_arguments)]
pub fn drives_open(
    image0: &[u8],
    g0: &Geometry,
    image1: &[u8],
    g1: &Geometry,
    numbered: bool,
    drive: usize,
    name: &[u8],
    length: usize,
    checking: bool,
    code: u16,
    handle: &mut [u8],
    place: &mut usize,
    fault_drive: &mut usize,
    fault_slot: &mut usize,
) -> Number {
    let sides = [(image0, g0), (image1, g1)];
    (*place, *fault_drive, *fault_slot) = (NO_PLACE, NO_DRIVE, NO_SLOT);
    let refused = match numbered {
        true if drive > 1 => NO_SUCH_DRIVE,
        true => ACCEPTED,
        false => both(&sides, fault_drive, fault_slot),
    };
    if refused != ACCEPTED {
        return given(handle, 0, |_| refused);
    }
    let here = if numbered { drive } else { holder(&sides, name).unwrap_or(0) };
    let side = sides[here];
    let answer = given(handle, here, |held| calls::open(side.0, side.1, name, length, checking, code, held, place));
    told(answer, here, side, fault_drive, fault_slot)
}

/// "Creating without a number opens what that search finds; if nothing, drive 0 takes it if it has a free permitted slot, else
/// drive 1."
#[allow(clippy::too_many_arguments)]
pub fn drives_create(
    image0: &mut [u8],
    g0: &Geometry,
    image1: &mut [u8],
    g1: &Geometry,
    numbered: bool,
    drive: usize,
    name: &[u8],
    birth: &Birth,
    old: &mut usize,
    handle: &mut [u8],
    place: &mut usize,
    fault_drive: &mut usize,
    fault_slot: &mut usize,
) -> Number {
    (*old, *place, *fault_drive, *fault_slot) = (0, NO_PLACE, NO_DRIVE, NO_SLOT);
    let sides: [Side; 2] = [(image0, g0), (image1, g1)];
    let refused = match numbered {
        true if drive > 1 => NO_SUCH_DRIVE,
        true => ACCEPTED,
        false => both(&sides, fault_drive, fault_slot),
    };
    if refused != ACCEPTED {
        return given(handle, 0, |_| refused);
    }
    let room = |side: Side| {
        let d = directory_sectors(side.0, side.1).expect("a consistent disk");
        first_permitted_slot(side.0, side.1, d).is_some()
    };
    let here = match numbered {
        true => drive,
        false => holder(&sides, name).unwrap_or_else(|| usize::from(!room(sides[0]))),
    };
    let (image, g) = if here == 0 { (image0, g0) } else { (image1, g1) };
    let answer = given(handle, here, |held| calls::create(image, g, name, birth, old, held, place));
    told(answer, here, (image, g), fault_drive, fault_slot)
}

/// A call by a handle, on the handle's drive: "only there, and only that drive's image is tested". A handle of under 20 bytes
/// is taken for zeros.
fn held(handle: &[u8]) -> Result<(usize, [u8; HANDLE_BYTES]), Number> {
    let mut bytes = [0; DRIVE_HANDLE_BYTES];
    if handle.len() >= DRIVE_HANDLE_BYTES {
        bytes.copy_from_slice(&handle[..DRIVE_HANDLE_BYTES]);
    }
    let drive = usize::from(bytes[HANDLE_BYTES]);
    match drive {
        0 | 1 => Ok((drive, bytes[..HANDLE_BYTES].try_into().expect("19 bytes"))),
        _ => Err(NO_SUCH_DRIVE),
    }
}

/// The handle's 19 bytes as the call left them.
fn put_back(handle: &mut [u8], held: &[u8; HANDLE_BYTES]) {
    if handle.len() >= DRIVE_HANDLE_BYTES {
        handle[..HANDLE_BYTES].copy_from_slice(held);
    }
}

macro_rules! by_handle {
    ($handle:ident, $image0:ident $g0:ident, $image1:ident $g1:ident, $fault_drive:ident $fault_slot:ident,
     |$image:ident, $g:ident, $held:ident| $call:expr) => {{
        (*$fault_drive, *$fault_slot) = (NO_DRIVE, NO_SLOT);
        match held($handle) {
            Err(number) => (number, 0),
            Ok((drive, mut bytes)) => {
                let ($image, $g, $held) =
                    if drive == 0 { ($image0, $g0, &mut bytes) } else { ($image1, $g1, &mut bytes) };
                let answer = $call;
                let number = told(answer, drive, ($image, $g), $fault_drive, $fault_slot);
                (number, drive)
            }
        }
    }};
}

#[allow(clippy::too_many_arguments)]
pub fn drives_read_record(
    image0: &[u8],
    g0: &Geometry,
    image1: &[u8],
    g1: &Geometry,
    handle: &mut [u8],
    buffer: &mut [u8],
    fault_drive: &mut usize,
    fault_slot: &mut usize,
) -> Number {
    by_handle!(handle, image0 g0, image1 g1, fault_drive fault_slot, |image, g, held| {
        let answer = calls::read_record(image, g, held, buffer);
        put_back(handle, held);
        answer
    })
    .0
}

/// "A sector read then hands back a part of whichever image holds the file, and says which (0 on a refusal)."
#[allow(clippy::too_many_arguments)]
pub fn drives_read_sector(
    image0: &[u8],
    g0: &Geometry,
    image1: &[u8],
    g1: &Geometry,
    handle: &[u8],
    k: usize,
    drive: &mut usize,
    from: &mut usize,
    to: &mut usize,
    fault_drive: &mut usize,
    fault_slot: &mut usize,
) -> Number {
    (*drive, *from, *to) = (0, 0, 0);
    let (number, here) = by_handle!(handle, image0 g0, image1 g1, fault_drive fault_slot, |image, g, held| {
        calls::read_sector(image, g, held, k, from, to)
    });
    *drive = if number == ACCEPTED { here } else { 0 };
    number
}

#[allow(clippy::too_many_arguments)]
pub fn drives_write_record(
    image0: &mut [u8],
    g0: &Geometry,
    image1: &mut [u8],
    g1: &Geometry,
    handle: &mut [u8],
    sequential: bool,
    buffer: &[u8],
    fault_drive: &mut usize,
    fault_slot: &mut usize,
) -> Number {
    by_handle!(handle, image0 g0, image1 g1, fault_drive fault_slot, |image, g, held| {
        let answer = calls::write_record(image, g, held, sequential, buffer);
        put_back(handle, held);
        answer
    })
    .0
}

#[allow(clippy::too_many_arguments)]
pub fn drives_allot(
    image0: &mut [u8],
    g0: &Geometry,
    image1: &mut [u8],
    g1: &Geometry,
    handle: &[u8],
    k: usize,
    fault_drive: &mut usize,
    fault_slot: &mut usize,
) -> Number {
    by_handle!(handle, image0 g0, image1 g1, fault_drive fault_slot, |image, g, held| calls::allot(image, g, held, k)).0
}

pub fn drives_trim(
    image0: &mut [u8],
    g0: &Geometry,
    image1: &mut [u8],
    g1: &Geometry,
    handle: &[u8],
    fault_drive: &mut usize,
    fault_slot: &mut usize,
) -> Number {
    by_handle!(handle, image0 g0, image1 g1, fault_drive fault_slot, |image, g, held| calls::trim(image, g, held)).0
}

pub fn drives_kill(
    image0: &mut [u8],
    g0: &Geometry,
    image1: &mut [u8],
    g1: &Geometry,
    handle: &[u8],
    fault_drive: &mut usize,
    fault_slot: &mut usize,
) -> Number {
    by_handle!(handle, image0 g0, image1 g1, fault_drive fault_slot, |image, g, held| calls::kill(image, g, held)).0
}
