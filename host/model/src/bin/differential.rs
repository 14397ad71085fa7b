//! Holds the library against the model on random disks and random calls, and runs demand 3's
//! interleavings on it. Ends with status 0 only if nothing differed and every refusal of every call
//! occurred. The same seed and number of calls give the same run; a disk's seed gives that disk's part.

use genie_model::binding::{linked, LINKED};
use genie_model::compare::{disk_run, run, Bounds, Seen};
use genie_model::interleave::{demand_three, Tally};
use genie_model::random::Random;
use std::process::ExitCode;
use std::time::Instant;

const USAGE: &str = "usage: differential [--seed N] [--seconds S] [--calls N] [--disk N]
  --seed N      the run's seed (1)
  --seconds S   at most so many seconds (40)
  --calls N     at most so many random calls (no limit)
  --disk N      only the disk with this seed, as a difference told it";

/// Of the seconds, the part that goes to interleavings.
const INTERLEAVING_PART: f64 = 0.2;

/// The bounds, and the one disk to run if there is one.
fn asked() -> Result<(Bounds, Option<u64>), String> {
    let mut disk = None;
    let mut bounds = Bounds { seed: 1, seconds: 40.0, calls: usize::MAX };
    let mut given = std::env::args().skip(1);
    while let Some(option) = given.next() {
        let value = given.next().ok_or(USAGE)?;
        let no_number = format!("{option} {value}: no number\n{USAGE}");
        match option.as_str() {
            "--seed" => bounds.seed = value.parse().map_err(|_| no_number)?,
            "--calls" => bounds.calls = value.parse().map_err(|_| no_number)?,
            "--seconds" => bounds.seconds = value.parse().map_err(|_| no_number)?,
            "--disk" => disk = Some(value.parse().map_err(|_| no_number)?),
            _ => return Err(USAGE.into()),
        }
    }
    Ok((bounds, disk))
}

fn compare(bounds: &Bounds, disk: Option<u64>) -> Result<(), String> {
    let library = linked();
    if let Some(seed) = disk {
        return disk_run(&*library, seed, &mut Seen::default());
    }
    println!("{LINKED}; seed {}, at most {} seconds", bounds.seed, bounds.seconds);

    let mut seen = Seen::default();
    let calls = Bounds { seconds: bounds.seconds * (1.0 - INTERLEAVING_PART), ..*bounds };
    let verdict = run(&*library, &calls, &mut seen);
    print!("{}", seen.table());
    verdict?;

    let (started, mut tally, mut seeds) = (Instant::now(), Tally::default(), Random::new(bounds.seed));
    while tally.accepted < bounds.calls && started.elapsed().as_secs_f64() < bounds.seconds * INTERLEAVING_PART {
        demand_three(&*library, seeds.draw(), &mut tally)?;
    }
    println!("interleavings: {tally:?}");

    let missing = seen.missing();
    if missing.is_empty() {
        Ok(())
    } else {
        Err(format!("the run was too short or the library answers too little:\n  {}", missing.join("\n  ")))
    }
}

fn main() -> ExitCode {
    match asked().and_then(|(bounds, disk)| compare(&bounds, disk)) {
        Ok(()) => {
            println!("{LINKED}: no difference");
            ExitCode::SUCCESS
        }
        Err(text) => {
            eprintln!("{text}");
            ExitCode::FAILURE
        }
    }
}
