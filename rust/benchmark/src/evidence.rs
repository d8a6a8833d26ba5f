//! All that a record shows, as a turn asks it.

use std::hint::black_box;

use compare::evidence::{lend, Lent};
use compare::records::{breadth, depth, gaps, mixed, pool_of, prepares, reports, skipped, votes, Case};
use pekdrav::EvidenceWords;
use reference::Evidence;

use crate::measure::{self, head, measure, row};

/// Records of the first `count` statements of honest runs, of a style that fills the pool.
fn honest(style: &str, count: usize) -> Vec<Case> {
    let pools = (0..8).filter_map(|seed| pool_of(&generate::schedule(style, seed, 0)?));
    pools.map(|case| case.first(count)).filter(|case| case.statements.len() == count).collect()
}

/// The memory that is lent is kept from record to record.
fn mine() -> impl FnMut(&[(Case, Lent)]) {
    let mut out = EvidenceWords::default();
    move |cases| {
        for (_, lent) in cases {
            black_box(&lent.record).evidence_into(&lent.pool, &lent.ring, &mut out);
            black_box(&out);
        }
    }
}

fn theirs(cases: &[(Case, Lent)]) {
    for (case, _) in cases {
        black_box(Evidence::of(case.initial, &case.senders, black_box(&case.statements)));
    }
}

fn lent(cases: Vec<Case>) -> Vec<(Case, Lent)> {
    cases.into_iter().filter_map(|case| lend(&case).ok().map(|lent| (case, lent))).collect()
}

fn compared(name: &str, cases: Vec<Case>) {
    let lent = lent(cases);
    if !lent.is_empty() {
        row(name, &measure(&lent, 1, mine(), theirs));
    }
}

/// The records of a kind.
fn cases(kind: &str, count: usize) -> Vec<Case> {
    match kind {
        "honest" => honest("ring-512", count),
        "breadth" => vec![breadth(count)],
        "depth" => vec![depth(count)],
        "mixed" => vec![mixed(count)],
        "skipped" => vec![skipped(count, 1)],
        "gaps" => vec![gaps(count, 1)],
        "64 notices, honest" => honest("notices-64", count),
        "64 notices, reports" => vec![reports(count)],
        "64 notices, prepares" => vec![prepares(count, true)],
        "64 notices, prepares of one" => vec![prepares(count, false)],
        _ => vec![votes(count)],
    }
}

/// Does the work of one side on a record, as `honest, 64`.
pub fn repeat(record: &str, side: &str, rounds: usize) {
    let (kind, count) = record.rsplit_once(", ").unwrap_or((record, "0"));
    let count = count.parse().unwrap_or(0);
    let cases = cases(kind, count);
    // One record, so that a round is a record.
    let lent = lent(cases.into_iter().take(1).collect());
    measure::repeat(rounds, side, &lent, mine(), theirs);
}

pub fn print() {
    head("All that a record shows", "record");
    for count in [64, 256, 512] {
        compared(&format!("honest, {count} statements"), cases("honest", count));
        for kind in ["breadth", "depth", "mixed"] {
            compared(&format!("{kind}, {count}"), cases(kind, count));
        }
    }
    for kind in ["honest", "votes", "reports", "prepares", "prepares of one"] {
        let name = format!("64 notices, {kind}");
        compared(&format!("{name}, 512"), cases(&name, 512));
    }
    for kind in ["skipped", "gaps"] {
        compared(&format!("{kind}, 512"), cases(kind, 512));
    }
}
