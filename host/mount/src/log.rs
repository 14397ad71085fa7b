//! The log: a line for each refusal.

use std::fs::File;
use std::io::Write;
use std::time::{SystemTime, UNIX_EPOCH};

/// Where lines go.
pub enum Log {
    /// Standard error, of a mount in the foreground.
    Terminal,
    /// The host's log.
    Host,
    /// A file, each line with the time in seconds since 1970.
    File(File),
    /// Kept, for tests.
    #[cfg(test)]
    Kept(Vec<String>),
}

impl Log {
    /// Writes a line. A lesser one tells only that something was asked for that is not there. A log that cannot be written stops
    /// nothing.
    pub fn line(&mut self, line: &str, lesser: bool) {
        match self {
            Log::Terminal => eprintln!("gdos-mount: {line}"),
            Log::Host => crate::ffi::host_log(line, lesser),
            Log::File(file) => {
                let seconds = SystemTime::now().duration_since(UNIX_EPOCH).map_or(0, |since| since.as_secs());
                let _ = file.write_all(format!("{seconds} {line}\n").as_bytes());
            }
            #[cfg(test)]
            Log::Kept(lines) => lines.push(line.to_string()),
        }
    }
}
