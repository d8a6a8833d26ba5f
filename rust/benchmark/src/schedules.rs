//! Whole schedules to their rows.

use std::hint::black_box;

use compare::records::{breadth, depth, mixed, prepares, votes, Case};
use pekdrav::schedule::{rows_into, ROWS_MAX};
use reference::bench::SCHEDULE_LIMIT;

use crate::measure::{head, measure_in, row};

/// A schedule takes milliseconds.
const ROUNDS: usize = 60;

/// Turns over the worst lies, each of which takes a good part of a millisecond.
const TURNS: usize = 60;

fn lines(schedule: &[u8]) -> usize {
    schedule.split_inclusive(|&byte| byte == b'\n').count()
}

fn compared(name: &str, schedules: &[Vec<u8>]) {
    let count = schedules.iter().map(|schedule| lines(schedule)).sum::<usize>() / schedules.len();
    let mut rows = vec![0; ROWS_MAX];
    let mine = |schedules: &[Vec<u8>]| {
        for schedule in schedules {
            black_box(rows_into(black_box(schedule), &mut rows));
        }
    };
    let theirs = |schedules: &[Vec<u8>]| {
        for schedule in schedules {
            black_box(reference::bench::run(black_box(schedule)));
        }
    };
    row(&format!("{name}, {count} lines"), &measure_in(ROUNDS, schedules, 1, mine, theirs).of(count));
}

/// A setup, and then one line as often as there is room for it.
fn repeated(line: &[u8]) -> Vec<u8> {
    let setup = b"setup,0001,1,0,0000,0\n";
    let room = (SCHEDULE_LIMIT - setup.len()) / line.len();
    [&setup[..], &line.repeat(room)].concat()
}

/// The longest of the schedules of a style, without windows and with minute 0 but for `leavers`.
fn longest(style: &str) -> Vec<u8> {
    let made = (0..8).filter_map(|seed| generate::still(style, seed, SCHEDULE_LIMIT));
    made.max_by_key(|schedule| lines(schedule)).unwrap_or_default()
}

/// The statements of a record as lies, as many as there is room for, and then turns over all of them.
fn lied(case: &Case) -> Vec<u8> {
    let senders: String = case.senders.iter().map(|sender| format!("{sender},")).collect();
    let mut schedule = format!("setup,{:04x},{},{senders}ffff,0\n", case.initial.joined(), case.senders.len()).into_bytes();
    for statement in &case.statements {
        let mut line = b"lie,".to_vec();
        statement.write_into(&mut line);
        line.push(b'\n');
        if schedule.len() + line.len() > SCHEDULE_LIMIT - 10 * TURNS {
            break;
        }
        schedule.extend(line);
    }
    schedule.extend(b"all,0\n");
    schedule.extend(b"turn,0,0\n".repeat(TURNS));
    schedule
}

pub fn print() {
    head("The rows of a schedule", "line");
    compared("empty lines", &[vec![b'\n'; 65_519]]);
    compared("`turn,0,0`", &[repeated(b"turn,0,0\n")]);
    compared("`join,0`, refused", &[repeated(b"join,0\n")]);
    compared("`all,0`", &[repeated(b"all,0\n")]);
    compared("honest, the longest", &[longest("honest-1")]);
    compared("honest until the pool is full", &[longest("ring-512")]);
    compared("liars, the longest", &[longest("liars-1")]);
    for (name, case) in [("breadth", breadth(512)), ("depth", depth(512)), ("mixed", mixed(512))] {
        compared(&format!("{name}, as lies and then turns"), &[lied(&case)]);
    }
    compared("leavers that wait for windows, the longest", &[longest("leavers-1")]);
    compared("64 notices, honest, the longest", &[longest("honest-64")]);
    compared("64 notices, honest until the pool is full", &[longest("notices-64")]);
    compared("64 notices, liars, the longest", &[longest("liars-64")]);
    for (name, case) in [("votes", votes(512)), ("prepares", prepares(512, true))] {
        compared(&format!("64 notices, {name}, as lies and then turns"), &[lied(&case)]);
    }
}
