//! The made-up disks: consistent as built, and each damage breaks the clause it names.

use genie_model::consistency::{faults, Clause, CLAUSES};
use genie_model::damage::DAMAGES;
use genie_model::directory::{directory_sectors, entry, slots};
use genie_model::disks::random_disk;
use genie_model::random::Random;
use std::collections::{BTreeMap, BTreeSet};

#[test]
fn random_disks_are_consistent_and_of_all_kinds() {
    let mut random = Random::new(1);
    let (mut lengths, mut units, mut blocks) = (BTreeSet::new(), BTreeSet::new(), BTreeSet::new());
    let mut seen: BTreeMap<&str, usize> = BTreeMap::new();
    for number in 0..1500 {
        let disk = random_disk(&mut random);
        assert_eq!(faults(&disk.image, &disk.g), [], "disk {number} of seed 1: {:?}", disk.g);
        let d = directory_sectors(&disk.image, &disk.g).expect("consistent");
        lengths.insert(d);
        units.insert(disk.g.units);
        blocks.insert(disk.g.blocks);
        for slot in slots(d) {
            let e = entry(&disk.image, &disk.g, slot);
            let kept = !genie_model::space::permitted(&disk.g, slot);
            let mut note = |what, holds| *seen.entry(what).or_default() += usize::from(holds);
            if e.in_use() && e.is_extension() {
                note("extension", true);
                note("extension in a kept slot", kept);
            } else if e.in_use() {
                note("system file", e.is_system());
                note("system file outside the kept slots", e.is_system() && !kept);
                note("file in a kept slot", !e.is_system() && kept);
                note("F", e.keeps_space());
                note("E", e.no_growth());
                note("invisible", e.is_invisible());
                note("empty", e.pairs().is_empty());
                note("run of 32", e.pairs().iter().any(|pair| pair.further == 31));
            }
        }
    }
    assert_eq!(lengths.into_iter().collect::<Vec<_>>(), [10, 15, 20, 25, 30]);
    assert_eq!(units.into_iter().collect::<Vec<_>>(), [1, 2, 3, 4, 5, 6, 7, 8]);
    assert!(blocks.contains(&1) && blocks.contains(&192) && blocks.len() > 100);
    for (what, times) in seen {
        assert!(times >= 20, "{what}: only {times} times");
    }
}

#[test]
fn every_damage_breaks_its_clause_and_every_clause_is_once_broken_alone() {
    let mut random = Random::new(2);
    let mut alone: BTreeMap<Clause, usize> = BTreeMap::new();
    let mut done: BTreeMap<&str, usize> = BTreeMap::new();
    for number in 0..400 {
        let whole = random_disk(&mut random);
        for damage in DAMAGES {
            let mut disk = whole.clone();
            if !damage.apply(&mut disk, &mut random) {
                continue;
            }
            *done.entry(damage.title).or_default() += 1;
            let found = faults(&disk.image, &disk.g);
            assert!(found.contains(&damage.breaks), "{} on disk {number} of seed 2: found {found:?}", damage.title);
            if found.len() == 1 {
                *alone.entry(damage.breaks).or_default() += 1;
            }
        }
    }
    for damage in DAMAGES {
        assert!(done.get(damage.title).copied().unwrap_or(0) >= 5, "too seldom possible: {}", damage.title);
    }
    for clause in CLAUSES {
        assert!(alone.get(&clause).copied().unwrap_or(0) >= 3, "never broken alone: {clause:?}");
    }
}
