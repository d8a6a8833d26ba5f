//! Prints a seeded schedule: `ring-generate --seed N --lines N --style NAME`.

use std::io::{self, Write};
use std::process::ExitCode;

struct Options {
    seed: u64,
    lines: usize,
    style: String,
}

fn options() -> Option<Options> {
    let mut options = Options { seed: 0, lines: 400, style: "honest".into() };
    let mut arguments = std::env::args().skip(1);
    while let Some(name) = arguments.next() {
        let value = arguments.next()?;
        match name.as_str() {
            "--seed" => options.seed = value.parse().ok()?,
            "--lines" => options.lines = value.parse().ok()?,
            "--style" => options.style = value,
            _ => return None,
        }
    }
    Some(options)
}

fn main() -> ExitCode {
    let made = options().and_then(|options| generate::schedule(&options.style, options.seed, options.lines));
    let Some(schedule) = made else {
        eprintln!("usage: ring-generate [--seed N] [--lines N] [--style NAME]");
        eprintln!("styles: {} {}", generate::RANDOM.join(" "), generate::LIMITS.join(" "));
        eprintln!("honest-64 is honest with 64 notices, and so for each of the first {}", generate::RANDOM.len());
        return ExitCode::FAILURE;
    };
    match io::stdout().lock().write_all(&schedule) {
        Ok(()) => ExitCode::SUCCESS,
        Err(error) => {
            eprintln!("ring-generate: {error}");
            ExitCode::FAILURE
        }
    }
}
