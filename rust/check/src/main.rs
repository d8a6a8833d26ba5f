//! `ring-check [FILE]` judges one schedule; `ring-check --soak SEED COUNT LINES` judges that many of each style.

use std::fs::File;
use std::io::{self, Read};
use std::process::ExitCode;

use check::{judge, soak, Run};
use reference::Document;

fn judge_one(path: Option<&String>) -> io::Result<bool> {
    let mut schedule = Vec::new();
    match path {
        Some(path) => File::open(path)?.read_to_end(&mut schedule)?,
        None => io::stdin().lock().read_to_end(&mut schedule)?,
    };
    let verdict = judge(&Run::of::<Document>(&schedule));
    println!("within the premises: {}", verdict.within_premises);
    println!("demand 3 holds: {}", verdict.breaches.is_empty());
    println!("breaches: {:?}", verdict.breaches);
    println!("the statements contradict each other: {}", verdict.contradiction);
    println!("{:?}", verdict.depth);
    Ok(verdict.holds())
}

fn soak_all(numbers: &[String]) -> Option<bool> {
    let [seed, count, lines] = numbers else { return None };
    let (seed, count, lines) = (seed.parse().ok()?, count.parse().ok()?, lines.parse().ok()?);
    let mut good = true;
    for style in generate::RANDOM {
        let totals = soak(style, seed, count, lines)?;
        println!("{style}: {totals}");
        good &= totals.failed.is_empty();
        if !totals.failed.is_empty() {
            println!("{style}: failed seeds {:?}", totals.failed);
        }
    }
    Some(good)
}

fn main() -> ExitCode {
    let arguments: Vec<String> = std::env::args().skip(1).collect();
    let good = match arguments.first().map(String::as_str) {
        Some("--soak") => soak_all(&arguments[1..]).ok_or("usage: ring-check --soak SEED COUNT LINES".to_string()),
        _ => judge_one(arguments.first()).map_err(|error| error.to_string()),
    };
    match good {
        Ok(true) => ExitCode::SUCCESS,
        Ok(false) => ExitCode::FAILURE,
        Err(message) => {
            eprintln!("ring-check: {message}");
            ExitCode::FAILURE
        }
    }
}
