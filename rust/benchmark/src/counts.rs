//! A quorum of sixteen members, counted in a record of 512 in which all statements are of the kind that is asked for.

use std::hint::black_box;

use compare::evidence::{as_mine, lend, Lent};
use compare::records::Case;
use generate::Rng;
use pekdrav::STATEMENTS;
use reference::{count_reports, Body, Count, History, Question, Report, Statement, Told, View};

use crate::measure::{self, head, measure, row};

/// The completing signer is the last of the first tenth.
const TENTH: usize = STATEMENTS / 10;

pub const EVERYBODY: View = View::new(0xffff, 0);
/// Of sixteen members eleven are a quorum.
const QUORUM: usize = 11;
pub const PAYLOAD: u64 = 7;

/// Records of each kind, so that no count goes by what the processor learnt from the one before.
pub const RECORDS: usize = 32;

const KINDS: [&str; 4] = ["complete after a tenth", "without a quorum", "reports, complete after a tenth", "reports, without a quorum"];

fn shuffle<T>(rng: &mut Rng, list: &mut [T]) {
    (1..list.len()).for_each(|place| list.swap(place, rng.below(place + 1)));
}

/// Acks at one view. Eleven members acknowledge the payload, the last of them as statement 51, and the others later; or ten do, anywhere. All other acks are
/// for other payloads.
pub fn acks(rng: &mut Rng, complete: bool) -> Vec<Statement> {
    let mut members: Vec<u8> = (0..16).collect();
    shuffle(rng, &mut members);
    let ack = |origin, payload| Statement::new(origin, Body::Ack { at: EVERYBODY, notice: 0, payload });
    let others =
        |rng: &mut Rng, count: usize| -> Vec<Statement> { (0..count).map(|_| ack(rng.below(16) as u8, 8 + (rng.draw() >> 1))).collect() };
    let (first, later) = if complete { (TENTH - QUORUM, &members[QUORUM..]) } else { (STATEMENTS - QUORUM + 1, &[][..]) };
    let mut statements = others(rng, first);
    statements.extend(members[..QUORUM - 1].iter().map(|&origin| ack(origin, PAYLOAD)));
    shuffle(rng, &mut statements);
    if complete {
        statements.push(ack(members[QUORUM - 1], PAYLOAD));
        let mut rest = others(rng, STATEMENTS - TENTH - later.len());
        rest.extend(later.iter().map(|&origin| ack(origin, PAYLOAD)));
        shuffle(rng, &mut rest);
        statements.extend(rest);
    }
    statements
}

/// Reports on one view, all of which count. Ten members report again and again, an eleventh as statement 51 and everybody later; or ten do to the end.
pub fn reports(rng: &mut Rng, complete: bool) -> Vec<Statement> {
    let mut members: Vec<u8> = (0..16).collect();
    shuffle(rng, &mut members);
    let history = History::new(&[EVERYBODY]);
    let report = |(place, origin): (usize, u8)| {
        // The wished views differ, so that no two reports are alike.
        let view = View::new(place as u16, 0);
        Some(Statement::new(origin, Body::Report(Report { at: EVERYBODY, view, told: [Told::default()].into(), history: history? })))
    };
    let origin = |place: usize| match place + 1 {
        // Each of the ten once, then any of them.
        number if number < QUORUM => members[place],
        number if number == TENTH && complete => members[QUORUM - 1],
        number if number < TENTH || !complete => members[rng.below(QUORUM - 1)],
        _ => members[rng.below(16)],
    };
    (0..STATEMENTS).map(origin).enumerate().filter_map(report).collect()
}

/// Records of a kind, lent, with what a count comes to.
fn lent(kind: &str) -> (Vec<(Case, Lent)>, Count) {
    let mut rng = Rng::new(9);
    let complete = kind.ends_with("complete after a tenth");
    let made = if is_of_reports(kind) { reports } else { acks };
    let case = |_| Case { initial: EVERYBODY, senders: vec![0], statements: made(&mut rng, complete) };
    let cases = (0..RECORDS).map(case).filter_map(|case| lend(&case).ok().map(|lent| (case, lent)));
    (cases.collect(), Count { reached: complete, read: if complete { TENTH } else { STATEMENTS } })
}

fn is_of_reports(kind: &str) -> bool {
    kind.starts_with("reports")
}

fn mine(reports: bool, lent: &Lent) -> Option<Count> {
    let at = as_mine(EVERYBODY);
    let count = if reports {
        black_box(&lent.record).count_reports(&lent.pool, &lent.ring, at)?
    } else {
        black_box(&lent.record).count(&lent.pool, &pekdrav::Question::Ack { at, notice: 0, payload: PAYLOAD })
    };
    Some(Count { reached: count.reached, read: count.read })
}

fn theirs(reports: bool, case: &Case) -> Option<Count> {
    let statements = black_box(&case.statements);
    if reports {
        count_reports(case.initial, &case.senders, statements, EVERYBODY)
    } else {
        Some(Question::Ack { at: EVERYBODY, notice: 0, payload: PAYLOAD }.count(statements))
    }
}

fn all_mine(reports: bool) -> impl FnMut(&[(Case, Lent)]) {
    move |cases| {
        for (_, lent) in cases {
            black_box(mine(reports, lent));
        }
    }
}

fn all_theirs(reports: bool) -> impl FnMut(&[(Case, Lent)]) {
    move |cases| {
        for (case, _) in cases {
            black_box(theirs(reports, case));
        }
    }
}

/// Does the work of one side on a record of a kind.
pub fn repeat(kind: &str, side: &str, rounds: usize) {
    let (lent, _) = lent(kind);
    let reports = is_of_reports(kind);
    // One record, so that a round is a record.
    measure::repeat(rounds, side, &lent[..1], all_mine(reports), all_theirs(reports));
}

pub fn print() {
    head("A quorum, counted in a record of 512", "record");
    for kind in KINDS {
        let (lent, count) = lent(kind);
        let reports = is_of_reports(kind);
        let expected = |(case, lent): &(Case, Lent)| mine(reports, lent) == Some(count) && theirs(reports, case) == Some(count);
        assert!(lent.len() == RECORDS && lent.iter().all(expected), "{kind}: a count is not {count:?}");
        row(kind, &measure(&lent, 8, all_mine(reports), all_theirs(reports)));
    }
}
