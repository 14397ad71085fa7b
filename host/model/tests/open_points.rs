//! The readings that would break demand 3 (W1, W2, W3), and V1: a dead handle can come back to life.
//! Each on the model and on the linked library.

use genie_model::binding::libraries;
use genie_model::calls::{Birth, ACCEPTED, STALE};
use genie_model::disks::{empty_disk, Disk};
use genie_model::geometry::Geometry;
use genie_model::interleave::{interleaved, List, Outcome, Step};
use genie_model::library::Library;
use genie_model::names::name;

/// 2 blocks of 2 units, directory of 10 sectors at sector 10, granule 0 full of 11H, granule 1 of 22H.
fn minimal() -> Disk {
    let mut disk = empty_disk(
        Geometry { blocks: 2, units: 2, start: 10, open_code: 0, system_disk: true, granule_sectors: 5 },
        10,
        &[],
    );
    disk.image[..1280].fill(0x11);
    disk.image[1280..2560].fill(0x22);
    disk
}

fn create() -> Step {
    Step::Create {
        birth: Birth { day: 1, month: 1, year: 3, length: 1, main_code: 0, worker_code: 0, checking: false },
    }
}

fn write(by: usize, at: u32, sequential: bool) -> Step {
    Step::Write { by, at: Some(at), sequential, bytes: vec![0x77] }
}

fn list(text: &str, steps: &[Step]) -> List {
    List { name: name(text), steps: steps.to_vec() }
}

fn in_order(library: &dyn Library, lists: [&List; 2], order: &str) -> Outcome {
    let order: Vec<bool> = order.chars().map(|which| which == '2').collect();
    interleaved(library, &minimal(), lists, &order)
}

/// Both orders are accepted, and the file's first ten bytes are zeros in both.
fn zeros_in_both(steps: &[Step], orders: [&str; 2]) {
    let lists = [&list("A", steps), &list("B", steps)];
    for library in libraries() {
        let [one, two] = orders.map(|order| in_order(&*library, lists, order));
        assert!(one.accepted && two.accepted, "{}", library.title());
        assert_eq!(one.files, two.files, "{}", library.title());
        for text in ["A", "B"] {
            let bytes = &one.files.as_ref().expect("accepted")[&name(text)].bytes;
            assert_eq!(bytes[..], [0, 0, 0, 0, 0, 0, 0, 0, 0, 0, 0x77], "{}", library.title());
        }
    }
}

#[test]
fn w1_the_gap_is_zeroed_in_sequential_writes_too() {
    zeros_in_both(&[create(), write(0, 10, true)], ["1122", "2211"]);
}

#[test]
fn w2_granules_owned_before_are_zeroed_too() {
    zeros_in_both(&[create(), Step::Allot { by: 0, k: 0 }, write(0, 10, false)], ["111222", "222111"]);
}

#[test]
fn w3_a_handle_is_judged_by_its_name_too() {
    let first = list("A", &[create(), Step::Kill { by: 0 }, create(), write(0, 0, true)]);
    let second = list("B", &[create()]);
    for library in libraries() {
        // B takes A's old slot: the old handle does not reach it.
        let between = in_order(&*library, [&first, &second], "11211");
        assert_eq!(between.numbers, [0, 0, 0, 0, STALE], "{}", library.title());
        let last = in_order(&*library, [&first, &second], "11112");
        assert!(last.accepted, "{}", library.title());
        assert_eq!(last.files.expect("accepted")[&name("A")].bytes, [0x77]);
    }
}

#[test]
fn v1_a_dead_handle_can_come_back_to_life() {
    let first = list("A", &[create(), Step::Kill { by: 0 }, create(), Step::Trim { by: 0 }]);
    let second = list("B", &[create()]);
    for library in libraries() {
        assert!(in_order(&*library, [&first, &second], "11112").accepted, "{}", library.title());
        let between = in_order(&*library, [&first, &second], "11211");
        assert_eq!(between.numbers.last(), Some(&STALE), "{}", library.title());
        assert!(between.numbers[..4].iter().all(|&number| number == ACCEPTED));
    }
}

#[test]
fn bytes_left_from_a_larger_file_are_zeroed_too() {
    // Point 9: the old size is the size just before the write, also after a shrink.
    let steps = [create(), write(0, 9, true), write(0, 0, true), write(0, 10, false)];
    let lists = [&list("A", &steps), &list("B", &[])];
    for library in libraries() {
        let outcome = in_order(&*library, lists, "1111");
        let bytes = &outcome.files.expect("accepted")[&name("A")].bytes;
        assert_eq!(bytes[..], [0x77, 0, 0, 0, 0, 0, 0, 0, 0, 0, 0x77], "{}", library.title());
    }
}
