//! The service screen of a controller whose record is full.

use std::hint::black_box;

use compare::records::{pool_of, reports, short_of_quorum, unreported, votes, Case, NEWCOMER, WAITING};
use pekdrav::{SCREEN_BYTES, STATEMENTS};
use reference::Evidence;

use crate::measure::{self, head, measure_in, row};
use crate::turns::{seated, Seat};

/// Screens of a record, each of which takes a good part of a millisecond or less.
const ROUNDS: usize = 400;

const KINDS: [&str; 6] = [
    "one notice, honest",
    "64 notices, honest",
    "64 notices, votes",
    "reports missing on 14 views",
    "64 notices, reports missing on 14 views",
    "64 notices, reports without a quorum",
];

/// The first full pool of a style whose turns are not refused, and an initial member.
fn honest(style: &str) -> Option<(Case, u8)> {
    let mut pools = (0..16).filter_map(|seed| pool_of(&generate::still(style, seed, 0)?));
    let judged = |case: &Case| Evidence::of(case.initial, &case.senders, &case.statements).is_judged();
    let case = pools.find(|case| case.statements.len() == STATEMENTS && judged(case))?;
    let member = (0..16).find(|&k| case.initial.has_member(k))?;
    Some((case, member))
}

/// The record of a kind, and whose it is.
fn case(kind: &str) -> Option<(Case, u8)> {
    match kind {
        "one notice, honest" => honest("ring-512"),
        "64 notices, honest" => honest("notices-64"),
        // Certificates and stores of every notice, by three of four members.
        "64 notices, votes" => Some((votes(512), 0)),
        "reports missing on 14 views" => Some((unreported(512, 1), NEWCOMER)),
        "64 notices, reports missing on 14 views" => Some((unreported(512, 64), NEWCOMER)),
        _ => Some((short_of_quorum(reports(512)), WAITING)),
    }
}

/// The memory that is lent is kept from screen to screen.
fn mine() -> impl FnMut(&[Seat]) {
    let mut memory = vec![0; SCREEN_BYTES];
    move |seats| {
        for seat in seats {
            black_box(black_box(&seat.mine).screen_into(&seat.pool, &mut memory));
            black_box(&memory);
        }
    }
}

fn theirs(seats: &[Seat]) {
    for seat in seats {
        black_box(black_box(&seat.theirs).screen());
    }
}

fn lent(kind: &str) -> Option<Seat> {
    let (case, k) = case(kind)?;
    Some(seated(k, &case, &case.senders, &[]))
}

/// Does the work of one side on a record of a kind.
pub fn repeat(kind: &str, side: &str, rounds: usize) {
    let seats: Vec<Seat> = lent(kind).into_iter().collect();
    measure::repeat(rounds, side, &seats, mine(), theirs);
}

pub fn print() {
    head("The service screen of a controller with a record of 512", "screen");
    for kind in KINDS {
        let seat = lent(kind).expect("a record of the kind");
        let (text, length) = (seat.theirs.screen(), seat.mine.record().len());
        assert!(seat.mine.screen(&seat.pool) == text && length == STATEMENTS, "{kind}: they differ, or the record of {length} is not full");
        row(&format!("{kind}, {} bytes", text.len()), &measure_in(ROUNDS, &[seat], 1, mine(), theirs));
    }
}
