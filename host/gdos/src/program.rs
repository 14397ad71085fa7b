//! One run of the program.

use crate::args::{Args, Asked};
use crate::command::{Command, Output};
use crate::commands::{self, COMMANDS};
use crate::failure::Failure;
use crate::help;
use std::ffi::{OsStr, OsString};
use std::io::{ErrorKind, Write};

/// Runs one command and answers its exit status: 0 done, 1 refused, 2 wrong usage or I/O (of `diff`: 0 alike, 1 different,
/// 2 trouble). What it tells goes to `out`, remarks and what goes wrong to `err`.
pub fn run(mut words: impl Iterator<Item = OsString>, out: &mut dyn Write, err: &mut dyn Write) -> u8 {
    let mut streams = Streams { out, err };
    let first = match words.next() {
        Some(first) => first,
        None => {
            streams.complain(help::overview(COMMANDS).trim_end());
            return 2;
        }
    };
    match first.to_str() {
        Some("--help" | "-h") => return streams.print(help::overview(COMMANDS).as_bytes()),
        Some("--version" | "-V") => return streams.print(help::version().as_bytes()),
        Some("help") => return streams.help_on(words.next()),
        _ => {}
    }
    let command = match commands::find(&first) {
        Some(command) => command,
        None => return streams.no_command(&first),
    };
    let words: Vec<OsString> = words.collect();
    match Args::parse(&command.options(), words.iter().cloned()) {
        Ok(Asked::Run(args)) => streams.perform(command, &args),
        Ok(Asked::Help) => streams.print(help::on(command).as_bytes()),
        Ok(Asked::Version) => streams.print(help::version().as_bytes()),
        Err(wrong) => {
            let message = format!("{wrong}; `gdos {} --help` tells more", command.name);
            streams.complain(&format!("gdos {}: {message}", command.name));
            // Whoever asked for JSON gets it, though the options could not be read.
            if command.knows("json") && words.iter().take_while(|word| *word != "--").any(|word| word == "--json") {
                streams.print(format!("{}\n", Failure::Wrong(message).json()).as_bytes());
            }
            2
        }
    }
}

/// Where the program writes.
struct Streams<'a> {
    out: &'a mut dyn Write,
    err: &'a mut dyn Write,
}

impl Streams<'_> {
    /// `gdos help` and `gdos help COMMAND`.
    fn help_on(&mut self, word: Option<OsString>) -> u8 {
        match word.as_ref().map(|word| (word, commands::find(word))) {
            None => self.print(help::overview(COMMANDS).as_bytes()),
            Some((_, Some(command))) => self.print(help::on(command).as_bytes()),
            Some((word, None)) => self.no_command(word),
        }
    }

    fn no_command(&mut self, word: &OsStr) -> u8 {
        self.complain(&format!("gdos: there is no command {word:?}; `gdos --help` lists them"));
        2
    }

    fn perform(&mut self, command: &Command, args: &Args) -> u8 {
        let output = (command.run)(args).unwrap_or_else(|failure| Output {
            json: failure.json(),
            failures: vec![failure],
            ..Output::default()
        });
        for note in &output.notes {
            self.complain(&format!("gdos: note: {note}"));
        }
        for failure in &output.failures {
            self.complain(&format!("gdos: {failure}"));
        }
        let status = output.failures.iter().map(Failure::status).fold(output.status, u8::max);
        let printed = match args.has("json") {
            true => self.print(format!("{}\n", output.json).as_bytes()),
            false => self.print(&output.text),
        };
        if printed != 0 && status == 0 && output.changed {
            self.complain("gdos: apart from its report the command was carried out");
        }
        status.max(printed)
    }

    /// Writes to standard output. Whoever reads it may stop reading: that is no fault.
    fn print(&mut self, bytes: &[u8]) -> u8 {
        match self.out.write_all(bytes).and_then(|()| self.out.flush()) {
            Ok(()) => 0,
            Err(e) if e.kind() == ErrorKind::BrokenPipe => 0,
            Err(e) => {
                self.complain(&format!("gdos: cannot write to standard output: {e}"));
                2
            }
        }
    }

    /// Writes a line to standard error, if anybody is there to read it.
    fn complain(&mut self, line: &str) {
        let _ = writeln!(self.err, "{line}");
    }
}
