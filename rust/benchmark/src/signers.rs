//! Who signed, in a record of 512: all members that did, and the sets behind certificates and stores.

use std::hint::black_box;

use compare::evidence::{as_mine, lend, Lent};
use compare::records::{pool_of, tops_apart, votes, Case};
use generate::Rng;
use reference::{who_reported, Body, Evidence, Question, Statement};

use crate::counts::{acks, reports, EVERYBODY, PAYLOAD, RECORDS};
use crate::measure::{head, measure, row};

/// What is asked of a record.
#[derive(Clone, Copy)]
enum Asked {
    Acked,
    Reported,
    AckSet(u8, u64),
    StoreSet(u8, u64),
}

fn mine(asked: Asked, Lent { pool, record, ring }: &Lent) -> Option<u32> {
    let (record, at) = (black_box(record), as_mine(EVERYBODY));
    match asked {
        Asked::Acked => Some(record.who(pool, &pekdrav::Question::Ack { at, notice: 0, payload: PAYLOAD })),
        Asked::Reported => record.who_reported(pool, ring, at),
        Asked::AckSet(notice, payload) => Some(record.ack_set(pool, ring, notice, payload)),
        Asked::StoreSet(notice, payload) => Some(record.store_set(pool, ring, notice, payload)),
    }
}

fn theirs(asked: Asked, case: &Case) -> Option<u32> {
    let statements = black_box(&case.statements);
    let evidence = || Evidence::of(case.initial, &case.senders, statements);
    match asked {
        Asked::Acked => Some(Question::Ack { at: EVERYBODY, notice: 0, payload: PAYLOAD }.who(statements)),
        Asked::Reported => who_reported(case.initial, &case.senders, statements, EVERYBODY),
        Asked::AckSet(notice, payload) => Some(evidence().ack_set(notice, payload)),
        Asked::StoreSet(notice, payload) => Some(evidence().store_set(notice, payload)),
    }
}

fn compared(name: &str, asked: Asked, cases: Vec<Case>) {
    let lent: Vec<(Case, Lent)> = cases.into_iter().filter_map(|case| lend(&case).ok().map(|lent| (case, lent))).collect();
    let told = |(case, lent): &(Case, Lent)| mine(asked, lent).filter(|&set| set != 0 && Some(set) == theirs(asked, case)).is_some();
    assert!(!lent.is_empty() && lent.iter().all(told), "{name}: the sets differ, or one is empty");
    // The sets are taken together, so that each is found.
    let all_mine = |cases: &[(Case, Lent)]| {
        black_box(cases.iter().fold(0, |all, (_, lent)| all ^ mine(asked, lent).unwrap_or(0)));
    };
    let all_theirs = |cases: &[(Case, Lent)]| {
        black_box(cases.iter().fold(0, |all, (case, _)| all ^ theirs(asked, case).unwrap_or(0)));
    };
    row(name, &measure(&lent, 1, all_mine, all_theirs));
}

/// Many records of one view with sixteen members.
fn made(mut statements: impl FnMut(&mut Rng) -> Vec<Statement>) -> Vec<Case> {
    let mut rng = Rng::new(11);
    (0..RECORDS).map(|_| Case { initial: EVERYBODY, senders: vec![0], statements: statements(&mut rng) }).collect()
}

/// The acks with the prepare in place of one that is for another payload.
fn certified(rng: &mut Rng) -> Vec<Statement> {
    let mut statements = acks(rng, true);
    let other = |said: &Statement| !matches!(said.body, Body::Ack { payload: PAYLOAD, .. });
    if let Some(place) = statements.iter().position(other) {
        statements[place] = Statement::new(0, Body::Prepare { notice: 0, payload: PAYLOAD });
    }
    statements
}

/// The pool of an honest ring of 64 notices, and one that was stored.
fn honest() -> Option<(Case, Asked)> {
    let case = pool_of(&generate::still("notices-64", 0, 0)?)?;
    let evidence = Evidence::of(case.initial, &case.senders, &case.statements);
    let stored = |notice: &usize| evidence.notices[*notice].stored.first().copied();
    let (notice, stores) = (0..64).rev().find_map(|notice| Some((notice, stored(&notice)?)))?;
    Some((case, Asked::StoreSet(notice as u8, stores.payload)))
}

pub fn print() {
    head("Who signed, in a record of 512", "record");
    compared("acks of all sixteen", Asked::Acked, made(|rng| acks(rng, true)));
    compared("acks of ten", Asked::Acked, made(|rng| acks(rng, false)));
    compared("reports of all sixteen", Asked::Reported, made(|rng| reports(rng, true)));
    compared("reports of ten", Asked::Reported, made(|rng| reports(rng, false)));
    compared("the ack set of one notice, other acks for other payloads", Asked::AckSet(0, PAYLOAD), made(certified));
    compared("the ack set of the last of 64 notices, votes", Asked::AckSet(63, 63 << 32), vec![votes(512)]);
    compared("the store set of the last of 64 notices, votes", Asked::StoreSet(63, 63 << 32), vec![votes(512)]);
    if let Some((case, asked)) = honest() {
        compared("the store set of one of 64 notices, honest", asked, vec![case]);
    }
    compared("the ack set at the least of tops apart", Asked::AckSet(0, 7), vec![tops_apart(&mut Rng::new(1), 40)]);
}
