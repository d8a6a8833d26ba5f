//! The sets of all who signed, those behind certificates and behind stores, by the proved code and by the reference.

use compare::counts::{damaged, repeated, scattered};
use compare::evidence::lend;
use compare::records::{
    breadth, changed, deepest, depth, gaps, mixed, pool_of, prepares, quorums, reports, short_of_quorum, skipped, tops_apart, unreported,
    votes, Case,
};
use compare::schedules;
use compare::signers::{compare, go_together, Tally};
use generate::{schedule, Rng};

/// Each record twice: with its statements in a pool in their order, and scattered in one.
fn agree(name: &str, cases: impl Iterator<Item = Case>) -> Tally {
    let mut tally = Tally::default();
    let (mut rng, mut order) = (Rng::new(61), Rng::new(67));
    for case in cases {
        let both = compare(&mut rng, &case, lend, &mut tally)
            .and_then(|()| compare(&mut rng, &case, |case| scattered(&mut order, case), &mut tally));
        both.unwrap_or_else(|difference| panic!("{name}: they differ\n{difference}"));
    }
    println!("sets on {name}: {tally}");
    tally
}

#[test]
fn records_of_runs() {
    let made = (0..60).flat_map(|seed| schedules::random(6_000 + seed, 100 + 80 * (seed as usize % 8))).chain(schedules::limits(8));
    let tally = agree("records of runs", made.filter_map(|schedule| pool_of(&schedule)));
    assert!(tally.quorums > 5_000 && tally.fewer > 5_000 && tally.more > 1_000, "too few of a kind");
    assert!(tally.reporters > 500 && tally.refused > 300, "too few of a kind");
    assert!(tally.acked > 500 && tally.stored > 300 && tally.apart > 100 && tally.payloads > 10 * tally.acked, "too few of a kind");
}

#[test]
fn changed_records() {
    let mut rng = Rng::new(71);
    let made = (7_000..7_040).flat_map(|seed| schedules::random(seed, 100 + 80 * (seed as usize % 8))).chain(schedules::limits(9));
    let pools: Vec<Case> = made.filter_map(|schedule| pool_of(&schedule)).collect();
    let tally = agree("changed records", pools.iter().flat_map(|case| (0..4).map(|_| changed(&mut rng, case)).collect::<Vec<_>>()));
    assert!(tally.quorums > 5_000 && tally.fewer > 5_000 && tally.reporters > 500 && tally.refused > 300, "too few of a kind");
    assert!(tally.acked > 500 && tally.stored > 300 && tally.apart > 100, "too few of a kind");
}

#[test]
fn worst_records() {
    let many = |count| [reports(count), prepares(count, true), prepares(count, false), votes(count)];
    let past =
        |count| [skipped(count, 1), gaps(count, 1), skipped(count, 64), gaps(count, 64), unreported(count, 1), unreported(count, 64)];
    let made = [16, 64, 512].into_iter().flat_map(|count| [breadth(count), depth(count), mixed(count)]);
    let made = made.chain([140, 512].into_iter().flat_map(many)).chain([40, 160, 512].into_iter().flat_map(past));
    let made = made.chain([reports(512), prepares(512, true)].map(short_of_quorum)).chain([quorums(), deepest()]);
    let mut rng = Rng::new(73);
    let cases: Vec<Case> = made.collect();
    let shuffled: Vec<Case> = cases.iter().flat_map(|case| (0..2).map(|_| changed(&mut rng, case)).collect::<Vec<_>>()).collect();
    let tally = agree("worst records", cases.into_iter().chain(shuffled));
    assert!(tally.quorums > 1_000 && tally.reporters > 50 && tally.refused > 50 && tally.acked > 500, "too few of a kind");
}

/// Sealed tops that are not comparable: which is the least is a matter of how they are written, not of their size or of the words they stand in.
#[test]
fn tops_that_are_not_comparable() {
    let mut rng = Rng::new(79);
    let made = (0..60).filter_map(|seed| pool_of(&schedule("tops-apart", seed, 0)?));
    let cases: Vec<Case> = (0..150).map(|place| tops_apart(&mut rng, 2 + place % 5)).chain(made).collect();
    let tally = agree("tops that are not comparable", cases.into_iter());
    assert!(tally.apart > 300 && tally.acked > 200 && tally.stored > 200, "too few of a kind");
}

/// Records in which a member signs the same more than once.
#[test]
fn statements_that_come_twice() {
    let mut rng = Rng::new(83);
    let mut tally = Tally::default();
    let made = (8_000..8_030).flat_map(|seed| schedules::random(seed, 100 + 60 * (seed as usize % 8)));
    for case in made.filter_map(|schedule| pool_of(&schedule)).chain([votes(300), gaps(300, 5), quorums()]) {
        let case = repeated(&mut rng, &case);
        let mut order = Rng::new(rng.draw());
        let compared = compare(&mut rng, &case, |case| scattered(&mut order, case), &mut tally);
        compared.unwrap_or_else(|difference| panic!("they differ\n{difference}"));
    }
    println!("sets on statements that come twice: {tally}");
    assert!(tally.quorums > 2_000 && tally.reporters > 100 && tally.acked > 100, "too few of a kind");
}

/// Any memory means some pool: the sets over it go together with the counts and with the evidence.
#[test]
fn memory_that_holds_anything() {
    let mut rng = Rng::new(89);
    let mut tally = Tally::default();
    let made = (9_000..9_030).flat_map(|seed| schedules::random(seed, 100 + 80 * (seed as usize % 8))).chain(schedules::limits(10));
    for case in made.filter_map(|schedule| pool_of(&schedule)).chain([votes(512), gaps(512, 64), mixed(512), quorums()]) {
        let lent = lend(&case).unwrap_or_else(|difference| panic!("{difference}"));
        for _ in 0..3 {
            let changed = damaged(&mut rng, &lent);
            go_together(&mut rng, &case, &changed, &mut tally).unwrap_or_else(|difference| panic!("{difference}"));
        }
    }
    println!("sets in memory that holds anything: {tally}");
    assert!(tally.quorums > 3_000 && tally.fewer > 3_000 && tally.reporters > 100 && tally.acked > 100, "too few of a kind");
}
