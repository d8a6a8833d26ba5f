//! Reading statement lines and writing them again.

use std::hint::black_box;

use compare::lines::{line, Damage, DAMAGES};
use generate::Rng;
use pekdrav::statement::{rewrite, TEXT_MAX};
use reference::{Binding, Body, Statement, Told};

use crate::measure::{self, head, measure, row};

const LINES: usize = 8_192;

/// A line, and the number of notices of its ring.
type Line = (usize, Vec<u8>);

/// Lines that `keep` takes, of one damage after the other, in a ring of that many notices.
fn lines(notices: usize, damages: &[Damage], keep: impl Fn(Option<Statement>) -> bool) -> Vec<Line> {
    let mut rng = Rng::new(7);
    let mut lines = Vec::new();
    for &damage in damages.iter().cycle() {
        if lines.len() == LINES {
            break;
        }
        let line = line(&mut rng, damage, notices);
        if keep(Statement::read(&line, notices)) {
            lines.push((notices, line));
        }
    }
    lines
}

fn mine(lines: &[Line]) {
    let mut out = [0u8; TEXT_MAX];
    for (notices, line) in lines {
        black_box(rewrite(black_box(line), *notices, &mut out));
        black_box(&out);
    }
}

/// The text goes into memory that is kept, as the proved code's does.
fn theirs(lines: &[Line]) {
    let mut out = Vec::with_capacity(TEXT_MAX);
    for (notices, line) in lines {
        out.clear();
        if let Some(statement) = Statement::read(black_box(line), *notices) {
            statement.write_into(&mut out);
        }
        black_box(&out);
    }
}

const KINDS: [&str; 11] = [
    "all kinds",
    "no views",
    "1 to 15 views",
    "16 views",
    "damaged, refused",
    "reports",
    "64 notices, no report",
    "64 notices, damaged, refused",
    "64 notices, reports",
    "64 notices, reports that tell nothing",
    "64 notices, reports that are bound and keep all",
];

/// Reports that tell the same of every notice.
fn alike(notices: usize, told: impl Fn(&mut Rng) -> Told) -> Vec<Line> {
    let mut rng = Rng::new(11);
    let reports = lines(notices, &[Damage::Proper], |read| read.is_some_and(|statement| statement.kind() == 5));
    let mut told_anew = |line: &[u8]| {
        let mut statement = Statement::read(line, notices)?;
        if let Body::Report(report) = &mut statement.body {
            report.told = (0..notices).map(|_| told(&mut rng)).collect();
        }
        Some((notices, statement.write()))
    };
    reports.iter().filter_map(|(_, line)| told_anew(line)).collect()
}

/// The lines of a kind.
fn lines_of(kind: &str) -> Vec<Line> {
    let views = |read: Option<Statement>| read.map(|statement| statement.fields().count);
    let is_report = |statement: &Statement| statement.kind() == 5;
    let proper = [Damage::Proper];
    let damages: Vec<Damage> = DAMAGES.into_iter().filter(|damage| *damage != Damage::Long).collect();
    let bound = |rng: &mut Rng| Told { binding: Binding::Bound(rng.draw() >> rng.below(64)), kept: Some(rng.draw() >> rng.below(64)) };
    match kind {
        "no views" => lines(1, &proper, |read| views(read) == Some(0)),
        "1 to 15 views" => lines(1, &proper, |read| views(read).is_some_and(|count| (1..16).contains(&count))),
        "16 views" => lines(1, &proper, |read| views(read) == Some(16)),
        "damaged, refused" => lines(1, &damages, |read| read.is_none()),
        "reports" => lines(1, &proper, |read| read.is_some_and(|statement| is_report(&statement))),
        "64 notices, no report" => lines(64, &proper, |read| read.is_some_and(|statement| !is_report(&statement))),
        "64 notices, damaged, refused" => lines(64, &damages, |read| read.is_none()),
        "64 notices, reports" => lines(64, &proper, |read| read.is_some_and(|statement| is_report(&statement))),
        "64 notices, reports that tell nothing" => alike(64, |_| Told::default()),
        "64 notices, reports that are bound and keep all" => alike(64, bound),
        _ => lines(1, &proper, |read| read.is_some()),
    }
}

/// Does the work of one side on the lines of a kind.
pub fn repeat(kind: &str, side: &str, rounds: usize) {
    let lines = lines_of(kind);
    measure::repeat(rounds, side, &lines, mine, theirs);
}

pub fn print() {
    head("Reading a line and writing it again", "line");
    for kind in KINDS {
        let lines = lines_of(kind);
        let bytes: usize = lines.iter().map(|(_, line)| line.len()).sum();
        let name = format!("{kind} ({} bytes a line)", bytes / lines.len());
        row(&name, &measure(&lines, 64, mine, theirs));
    }
}
