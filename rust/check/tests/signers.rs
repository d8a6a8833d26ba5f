//! The sets of all who signed, those behind certificates and stores, against the definitions put down once more.

use check::{Definition, Run};
use generate::{schedule, LIMITS, RANDOM};
use reference::controller::Ring;
use reference::{who_reported, Body, Document, Evidence, Question, Record, Statement, View};

/// How many sets came out how.
#[derive(Default, Debug)]
struct Tally {
    /// Somebody signed: a quorum, fewer, and more than a quorum needs.
    quorums: u64,
    fewer: u64,
    more: u64,
    reporters: u64,
    /// Reports that are not judged.
    refused: u64,
    acked: u64,
    stored: u64,
    /// The least top, as written, has other signers than the greatest, than the smallest by size, than the one with the fewest members, and than the
    /// least if the left set were written first.
    not_greatest: u64,
    not_smallest: u64,
    not_fewest: u64,
    not_by_left: u64,
    /// Payloads without a quorum, and quorums of acks without a prepare.
    none: u64,
    unprepared: u64,
}

impl Tally {
    fn add_question(&mut self, at: View, signers: u32, reached: bool) {
        let quorum = at.quorum().unwrap_or(u32::MAX);
        assert_eq!(reached, signers.count_ones() >= quorum, "A3's count says yes where the set makes a quorum");
        self.quorums += u64::from(reached);
        self.fewer += u64::from(signers != 0 && !reached);
        self.more += u64::from(reached && signers.count_ones() > quorum);
    }

    fn add_tops(&mut self, tops: &[(View, u16)]) {
        let Some(&(_, least)) = tops.first() else { return };
        let by = |key: fn(View) -> u32| tops.iter().min_by_key(|(top, _)| key(*top)).map_or(least, |top| top.1);
        self.not_greatest += u64::from(tops[tops.len() - 1].1 != least);
        self.not_smallest += u64::from(by(View::size) != least);
        self.not_fewest += u64::from(by(|top| top.members().count_ones()) != least);
        self.not_by_left += u64::from(by(|top| u32::from(top.left()) << 16 | u32::from(top.joined())) != least);
    }
}

/// The different votes, acks and stores of a record.
fn asked(statements: &[Statement]) -> Vec<&Body> {
    let mut bodies = Vec::new();
    for Statement { body, .. } in statements {
        if Question::of(body).is_some() && !bodies.contains(&body) {
            bodies.push(body);
        }
    }
    bodies
}

/// The notices and payloads that somebody acknowledged or stored, and some that nobody did.
fn payloads(bodies: &[&Body]) -> Vec<(u8, u64)> {
    let said = bodies.iter().filter_map(|body| match **body {
        Body::Ack { notice, payload, .. } | Body::Store { notice, payload, .. } => Some((notice, payload)),
        _ => None,
    });
    let mut all: Vec<(u8, u64)> = said.flat_map(|(notice, payload)| [(notice, payload), (notice ^ 1, payload)]).collect();
    all.extend([(0, 0), (63, 0), (64, 7), (255, 7)]);
    all.sort_unstable();
    all.dedup();
    all
}

fn agrees(ring: &Ring, statements: &[Statement], tally: &mut Tally) {
    let fast = Evidence::of(ring.initial, &ring.senders, statements);
    let slow = Definition::new(ring.initial, &ring.senders, statements);
    let bodies = asked(statements);
    for body in &bodies {
        let question = Question::of(body).expect("it is asked");
        let signers = question.who(statements);
        assert_eq!(signers, slow.who_signed(question.at(), body).into(), "{question:?}");
        tally.add_question(question.at(), signers, question.count(statements).reached);
    }
    let greatest = fast.greatest().map_or(&[][..], |history| history.views());
    for &view in greatest.iter().chain([&ring.initial, &fast.wished, &View::EMPTY]) {
        let reporters = who_reported(ring.initial, &ring.senders, statements, view);
        assert_eq!(reporters, slow.who_reported(view).map(u32::from), "reports on {view}");
        tally.reporters += u64::from(reporters.is_some_and(|reporters| reporters != 0));
        tally.refused += u64::from(reporters.is_none());
    }
    for (notice, payload) in payloads(&bodies) {
        let (acks, stores) = (slow.ack_sets(notice, payload), slow.store_sets(notice, payload));
        let least = |tops: &[(View, u16)]| tops.first().map_or(0, |&(_, signers)| u32::from(signers));
        assert_eq!(fast.ack_set(notice, payload), least(&acks), "acks of {notice} {payload}");
        assert_eq!(stored(ring, &fast, notice, payload), least(&stores), "stores of {notice} {payload}");
        tally.acked += u64::from(!acks.is_empty());
        tally.stored += u64::from(!stores.is_empty());
        tally.none += u64::from(acks.is_empty() && stores.is_empty());
        let quorum = |&top: &View| Question::Ack { at: top, notice, payload }.count(statements).reached;
        tally.unprepared += u64::from(acks.is_empty() && slow.tops().iter().any(quorum));
        [acks, stores].iter().for_each(|tops| tally.add_tops(tops));
    }
}

/// The store set; the definition does not ask whether the setup has the notice, and no record has another.
fn stored(ring: &Ring, fast: &Evidence, notice: u8, payload: u64) -> u32 {
    let set = fast.store_set(notice, payload);
    assert!(set == 0 || usize::from(notice) < ring.senders.len());
    set
}

#[test]
fn the_sets_are_those_of_the_definitions() {
    let mut tally = Tally::default();
    for style in RANDOM.iter().chain(LIMITS) {
        let (seeds, lines) = match *style {
            style if RANDOM.contains(&style) => (60, 300),
            "tops-apart" => (40, 0),
            _ => (2, 0),
        };
        for seed in 0..seeds {
            let run = Run::of::<Document>(&schedule(style, 30_000 + seed, lines).expect("a style"));
            let Some(ring) = &run.ring else { continue };
            agrees(ring, &run.statements, &mut tally);
            for record in run.records.iter().filter(|record| record.len() < Record::LIMIT / 4) {
                agrees(ring, record, &mut tally);
                agrees(ring, &record[..record.len() * 2 / 3], &mut tally);
            }
        }
    }
    println!("{tally:?}");
    assert!(tally.quorums > 10_000 && tally.fewer > 10_000 && tally.more > 3_000, "too few of a kind");
    assert!(tally.reporters > 5_000 && tally.refused > 1_000, "too few of a kind");
    assert!(tally.acked > 2_000 && tally.stored > 1_000 && tally.none > 10_000 && tally.unprepared > 20, "too few of a kind");
    assert!(tally.not_greatest > 200 && tally.not_smallest > 20 && tally.not_fewest > 50 && tally.not_by_left > 20, "too few of a kind");
}
