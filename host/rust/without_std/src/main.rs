//! Makes a disk, writes a file, finds the disk's geometry, lists and damages it; without the standard library, with an allocator
//! that hands out a fixed store. It ends with status 0 where every answer is the right one, and by a trap otherwise.

#![no_std]
#![no_main]

use core::alloc::{GlobalAlloc, Layout};
use core::cell::UnsafeCell;
use core::sync::atomic::{AtomicUsize, Ordering};
use genie_dos::search::{Known, Search};
use genie_dos::{Date, Disk, Geometry, Kind, NewFile, Refusal};

const STORE: usize = 64 << 20;

/// A store from which memory is handed out and never taken back.
struct Store {
    bytes: UnsafeCell<[u8; STORE]>,
    used: AtomicUsize,
}

// SAFETY: no two callers get the same bytes: each takes its own by one atomic sum.
unsafe impl Sync for Store {}

// SAFETY: what is handed out lies in the store, is aligned, and is handed out once.
unsafe impl GlobalAlloc for Store {
    unsafe fn alloc(&self, layout: Layout) -> *mut u8 {
        let wanted = layout.size() + layout.align();
        let from = self.used.fetch_add(wanted, Ordering::Relaxed);
        if from + wanted > STORE {
            return core::ptr::null_mut();
        }
        let at = self.bytes.get().cast::<u8>().wrapping_add(from);
        at.wrapping_add(at.align_offset(layout.align()))
    }

    unsafe fn dealloc(&self, _: *mut u8, _: Layout) {}
}

#[global_allocator]
static STORE_OF_ALL: Store = Store { bytes: UnsafeCell::new([0; STORE]), used: AtomicUsize::new(0) };

extern "C" {
    fn abort() -> !;
}

#[panic_handler]
fn panic(_: &core::panic::PanicInfo) -> ! {
    // SAFETY: C's abort asks for nothing.
    unsafe { abort() }
}

/// What `alloc`, as rustc brings it, asks for where a panic would go on: here none does.
#[no_mangle]
pub extern "C" fn rust_eh_personality() {}

/// The same.
#[no_mangle]
pub extern "C" fn _Unwind_Resume() -> ! {
    // SAFETY: as above.
    unsafe { abort() }
}

fn tried() -> Result<(), Refusal> {
    let geometry = Geometry::new(16, 2, 80, 0x4296);
    let mut disk = Disk::blank(geometry, 10, &[0])?;
    let name = "PULS01/DAT".parse().expect("a name");
    let mut handle = disk.create(&name, &NewFile::open(geometry, Date::new(1983, 10, 9)))?.handle;
    disk.write_record(&mut handle, Kind::Sequential, &[0x55; 256])?;
    assert_eq!(disk.listing()?, "FILES 1\nPULS01/DAT 256 1\nFREE 28\n");
    assert_eq!(disk.map()?.cells.len(), 32);
    assert_eq!(Search::new(disk.image(), &Known::default()).geometry(), Some(geometry));

    let mut image = disk.into_image();
    image[81 * 256 + 0x80] ^= 0xff;
    let damaged = Disk::new(image.as_slice(), geometry);
    let refusal = damaged.check().expect_err("the HIT byte is not the hash");
    assert_eq!((refusal.number(), refusal.slot()), (22, Some(0x80)));
    assert_eq!(damaged.mend().expect("it can be mended").disk.files()?.len(), 1);
    Ok(())
}

#[no_mangle]
pub extern "C" fn main() -> i32 {
    tried().map_or_else(|refusal| i32::from(refusal.number()), |()| 0)
}
