//! Writes a recording of random calls to standard output: `record [CALLS [SEED]]`. `src/record.rs` says its form.

use genie_model::compare::{run, Bounds, Seen};
use genie_model::record::Recorder;
use std::io::{stdout, BufWriter, IsTerminal};
use std::process::ExitCode;

fn main() -> ExitCode {
    let mut given = std::env::args().skip(1).map(|word| word.parse::<u64>().ok());
    let (calls, seed) = (given.next().unwrap_or(Some(25_000)), given.next().unwrap_or(Some(1)));
    let (Some(calls), Some(seed), None, false) = (calls, seed, given.next(), stdout().is_terminal()) else {
        eprintln!("usage: record [CALLS [SEED]] > FILE");
        return ExitCode::from(2);
    };
    let recorder = Recorder::new(BufWriter::new(stdout().lock()));
    let mut seen = Seen::default();
    let bounds = Bounds { seed, seconds: f64::INFINITY, calls: usize::try_from(calls).unwrap_or(usize::MAX) };
    if let Err(text) = run(&recorder, &bounds, &mut seen) {
        eprintln!("the model differs from itself: {text}");
        return ExitCode::FAILURE;
    }
    eprintln!("recorded: {} calls on {} disks", seen.calls, seen.disks);
    let missing = seen.missing();
    if !missing.is_empty() {
        eprintln!("not met in them: {}", missing.join(", "));
    }
    ExitCode::SUCCESS
}
