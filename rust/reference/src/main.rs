//! Prints the rows of the schedule in a file, or of standard input if no file is named; with `--screen K` the service screen of controller K after its
//! last line.

use std::ffi::OsString;
use std::fs::File;
use std::io::{self, Read, Write};
use std::process::ExitCode;

use reference::bench::{run, screen_after, SCHEDULE_LIMIT};
use reference::text::read_small;
use reference::view::CONTROLLERS;

const USAGE: &str = "usage: ring-reference [--screen K] [FILE], with K from 0 to 15";

fn schedule(path: Option<OsString>) -> io::Result<Vec<u8>> {
    let source: Box<dyn Read> = match path {
        Some(path) => Box::new(File::open(path)?),
        None => Box::new(io::stdin().lock()),
    };
    let mut bytes = Vec::new();
    // One byte above the limit is enough to know that a schedule is too long.
    source.take(SCHEDULE_LIMIT as u64 + 1).read_to_end(&mut bytes)?;
    Ok(bytes)
}

fn text() -> Result<Vec<u8>, String> {
    let mut arguments = std::env::args_os().skip(1).peekable();
    let mut screen = None;
    if arguments.next_if(|word| word == "--screen").is_some() {
        let number = arguments.next().and_then(|word| read_small(word.as_encoded_bytes()));
        screen = Some(number.filter(|&k| k < CONTROLLERS).ok_or(USAGE)?);
    }
    let schedule = schedule(arguments.next()).map_err(|error| error.to_string())?;
    Ok(screen.map_or_else(|| run(&schedule), |k| screen_after(&schedule, k).into_bytes()))
}

fn main() -> ExitCode {
    match text().and_then(|text| io::stdout().lock().write_all(&text).map_err(|error| error.to_string())) {
        Ok(()) => ExitCode::SUCCESS,
        Err(error) => {
            eprintln!("ring-reference: {error}");
            ExitCode::FAILURE
        }
    }
}
