//! `ring-compare FILE` compares the rows of one schedule and the service screens after it; `ring-compare --soak SEED COUNT LINES` those of that many
//! seeds of each random style, of as many mutated schedules and of as many of setup and turn lines, and statement lines.

use std::process::ExitCode;

use compare::rows::{compare_all, PROVED};
use compare::{schedules, screens, statements};
use reference::bench::run;

fn one(path: &str) -> Result<(), String> {
    let schedule = std::fs::read(path).map_err(|error| format!("{path}: {error}"))?;
    let mut shown = screens::Tally::default();
    screens::compare_after(&schedule, 0..16, &mut shown)?;
    println!("{}", compare_all(PROVED, run, std::iter::once(schedule))?);
    println!("{shown}");
    Ok(())
}

/// Prints after every hundred seeds how far it is, so that a long run can be left alone and stopped.
fn soak(numbers: &[String]) -> Result<(), String> {
    let usage = || "usage: ring-compare FILE | --soak SEED COUNT LINES".to_string();
    let numbers: Vec<u64> = numbers.iter().map(|word| word.parse().map_err(|_| usage())).collect::<Result<_, _>>()?;
    let [seed, count, lines] = numbers[..] else { return Err(usage()) };
    for first in (0..count).step_by(100) {
        let seeds = (seed + first)..(seed + (first + 100).min(count));
        let others = |seed| [schedules::mutated(seed, lines as usize), schedules::setups_and_turns(seed)];
        let made = |seed| schedules::random(seed, lines as usize).chain(others(seed));
        let tally = compare_all(PROVED, run, seeds.clone().flat_map(made)).map_err(|found| format!("seeds {seeds:?}\n{found}"))?;
        println!("seeds {seeds:?}: {tally}");
        let mut shown = screens::Tally::default();
        for schedule in seeds.clone().flat_map(made) {
            // Two controllers of each schedule, other ones in each.
            let first = (shown.screens % 16) as u8;
            screens::compare_after(&schedule, [first, 15 - first].into_iter(), &mut shown)?;
        }
        println!("{shown}");
        println!("{}", statements::compare(seeds.start, 100_000)?);
    }
    Ok(())
}

fn main() -> ExitCode {
    let arguments: Vec<String> = std::env::args().skip(1).collect();
    let done = match arguments.first().map(String::as_str) {
        Some("--soak") => soak(&arguments[1..]),
        Some(path) => one(path),
        None => soak(&[]),
    };
    match done {
        Ok(()) => ExitCode::SUCCESS,
        Err(message) => {
            eprintln!("ring-compare: {message}");
            ExitCode::FAILURE
        }
    }
}
