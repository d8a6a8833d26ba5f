//! The count that ends with the completing signer, against the shortest beginning of the record that has a quorum.

use check::{Definition, Run};
use generate::{schedule, LIMITS, RANDOM};
use reference::controller::Ring;
use reference::{count_reports, Body, Document, Evidence, Question, Quorum, Record, Statement, View};

/// How many counts came out how.
#[derive(Default, Debug)]
struct Tally {
    /// A quorum, completed by the last statement of the record or by an earlier one.
    last: u64,
    earlier: u64,
    /// All were read in vain.
    missed: u64,
    reports: u64,
    /// Reports that are not judged.
    refused: u64,
    certificates: u64,
}

/// The different bodies of a record that are counted as one question.
fn asked(statements: &[Statement]) -> Vec<&Body> {
    let mut bodies = Vec::new();
    for Statement { body, .. } in statements {
        if Question::of(body).is_some() && !bodies.contains(&body) {
            bodies.push(body);
        }
    }
    bodies
}

fn agrees(ring: &Ring, statements: &[Statement], tally: &mut Tally) {
    let fast = Evidence::of(ring.initial, &ring.senders, statements);
    let slow = Definition::new(ring.initial, &ring.senders, statements);
    for body in asked(statements) {
        let question = Question::of(body).expect("it is asked");
        let count = question.count(statements);
        assert_eq!(count, slow.count_signed(question.at(), body), "{question:?}");
        *(match count.completed() {
            Some(read) if read == statements.len() => &mut tally.last,
            Some(_) => &mut tally.earlier,
            None => &mut tally.missed,
        }) += 1;
    }
    let greatest = fast.greatest().map_or(&[][..], |history| history.views());
    for &view in greatest.iter().chain([&ring.initial, &fast.wished, &View::EMPTY]) {
        let count = count_reports(ring.initial, &ring.senders, statements, view);
        assert_eq!(count, slow.count_reported(view), "reports on {view}");
        tally.reports += u64::from(count.is_some_and(|count| count.reached));
        tally.refused += u64::from(count.is_none());
    }
    for (notice, known) in (0..).zip(&fast.notices) {
        for &Quorum { payload, .. } in &known.certificates {
            let after = fast.acked_after(statements, notice, payload);
            assert_eq!(after, slow.acked_after(notice, payload));
            assert!(after.is_some(), "a certificate has a quorum of acks");
            tally.certificates += 1;
        }
    }
}

#[test]
fn the_number_read_is_that_of_the_shortest_beginning_that_has_a_quorum() {
    let mut tally = Tally::default();
    for style in RANDOM.iter().chain(LIMITS) {
        let (seeds, lines) = if RANDOM.contains(style) { (60, 300) } else { (2, 0) };
        for seed in 0..seeds {
            let run = Run::of::<Document>(&schedule(style, 9_000 + seed, lines).expect("a style"));
            let Some(ring) = &run.ring else { continue };
            agrees(ring, &run.statements, &mut tally);
            for record in run.records.iter().filter(|record| record.len() < Record::LIMIT / 4) {
                agrees(ring, record, &mut tally);
                // Without its last statements, so that the completing one is often the last.
                agrees(ring, &record[..record.len() * 2 / 3], &mut tally);
            }
        }
    }
    println!("{tally:?}");
    assert!(tally.last > 1_000 && tally.earlier > 10_000 && tally.missed > 10_000, "too few of a kind");
    assert!(tally.reports > 5_000 && tally.refused > 1_000 && tally.certificates > 2_000, "too few of a kind");
}
