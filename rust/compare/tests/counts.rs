//! Counts that end with the completing signer, by the proved code and by the reference.

use compare::counts::{compare, damaged, ends_where_it_says, repeated, scattered, Tally};
use compare::evidence::lend;
use compare::records::{
    breadth, changed, deepest, depth, gaps, mixed, pool_of, prepares, quorums, reports, short_of_quorum, skipped, votes, Case,
};
use compare::schedules;
use generate::Rng;
use pekdrav::{Count, Pool, Question, Record, View, POOL_WORDS};

/// Each record twice: with its statements in a pool in their order, and scattered in one.
fn agree(name: &str, cases: impl Iterator<Item = Case>) -> Tally {
    let mut tally = Tally::default();
    let mut rng = Rng::new(29);
    for case in cases {
        let both = compare(&case, lend, &mut tally).and_then(|()| compare(&case, |case| scattered(&mut rng, case), &mut tally));
        both.unwrap_or_else(|difference| panic!("{name}: they differ\n{difference}"));
    }
    println!("counts on {name}: {tally}");
    tally
}

#[test]
fn records_of_runs() {
    let made = (0..80).flat_map(|seed| schedules::random(2_000 + seed, 100 + 80 * (seed as usize % 8))).chain(schedules::limits(5));
    let tally = agree("records of runs", made.filter_map(|schedule| pool_of(&schedule)));
    assert!(tally.earlier > 10_000 && tally.last > 100 && tally.questions > 4 * tally.earlier, "too few of a kind");
    assert!(tally.reported > 500 && tally.refused > 500, "too few of a kind");
}

#[test]
fn changed_records() {
    let mut rng = Rng::new(31);
    let made = (3_000..3_060).flat_map(|seed| schedules::random(seed, 100 + 80 * (seed as usize % 8))).chain(schedules::limits(6));
    let pools: Vec<Case> = made.filter_map(|schedule| pool_of(&schedule)).collect();
    let tally = agree("changed records", pools.iter().flat_map(|case| (0..4).map(|_| changed(&mut rng, case)).collect::<Vec<_>>()));
    assert!(tally.earlier > 10_000 && tally.last > 100 && tally.reported > 500 && tally.refused > 500, "too few of a kind");
}

#[test]
fn worst_records() {
    let many = |count| [reports(count), prepares(count, true), prepares(count, false), votes(count)];
    let short = |count| [reports(count), prepares(count, true), prepares(count, false)].map(short_of_quorum);
    let past = |count| [skipped(count, 1), gaps(count, 1), skipped(count, 64), gaps(count, 64)];
    let made = [16, 64, 256, 512].into_iter().flat_map(|count| [breadth(count), depth(count), mixed(count)]);
    let made = made.chain([140, 256, 512].into_iter().flat_map(many)).chain([140, 512].into_iter().flat_map(short));
    let made = made.chain([40, 160, 512].into_iter().flat_map(past));
    let mut rng = Rng::new(37);
    let cases: Vec<Case> = made.chain([quorums(), deepest()]).collect();
    let shuffled: Vec<Case> = cases.iter().flat_map(|case| (0..3).map(|_| changed(&mut rng, case)).collect::<Vec<_>>()).collect();
    let tally = agree("worst records", cases.into_iter().chain(shuffled));
    assert!(tally.earlier > 1_000 && tally.reported > 50 && tally.refused > 50, "too few of a kind");
}

/// Records in which a member signs the same more than once.
#[test]
fn statements_that_come_twice() {
    let mut rng = Rng::new(43);
    let mut tally = Tally::default();
    let made = (5_000..5_040).flat_map(|seed| schedules::random(seed, 100 + 60 * (seed as usize % 8)));
    for case in made.filter_map(|schedule| pool_of(&schedule)).chain([votes(300), gaps(300, 5), quorums()]) {
        let case = repeated(&mut rng, &case);
        let compared = compare(&case, |case| scattered(&mut rng, case), &mut tally);
        compared.unwrap_or_else(|difference| panic!("they differ\n{difference}"));
    }
    println!("counts on statements that come twice: {tally}");
    assert!(tally.earlier > 3_000 && tally.reported > 200 && tally.refused > 100, "too few of a kind");
}

/// Any memory means some pool: a count over it ends with the completing signer too.
#[test]
fn memory_that_holds_anything() {
    let mut rng = Rng::new(41);
    let mut tally = Tally::default();
    let made = (4_000..4_040).flat_map(|seed| schedules::random(seed, 100 + 80 * (seed as usize % 8))).chain(schedules::limits(7));
    for case in made.filter_map(|schedule| pool_of(&schedule)).chain([votes(512), gaps(512, 64), mixed(512), quorums()]) {
        let lent = lend(&case).unwrap_or_else(|difference| panic!("{difference}"));
        for _ in 0..3 {
            let changed = damaged(&mut rng, &lent);
            ends_where_it_says(&case, &changed, &mut tally).unwrap_or_else(|difference| panic!("not a count: {difference}"));
        }
    }
    println!("counts in memory that holds anything: {tally}");
    assert!(tally.earlier > 5_000 && tally.last > 20 && tally.reported > 100 && tally.refused > 100, "too few of a kind");
}

/// The same word everywhere, and the same number everywhere.
#[test]
fn memory_that_holds_one_word() {
    let mut pools: Vec<Pool> = Vec::new();
    for word in [0, 1, 7, 0x0001_0001, u64::MAX] {
        let words = vec![word; POOL_WORDS].into_boxed_slice();
        pools.push(Pool::from(<Box<[u64; POOL_WORDS]>>::try_from(words).expect("as many words as a pool has")));
    }
    let mut proper = Pool::new();
    assert_eq!(proper.append(b"7,0,000f0000,00000000,0,0,7,0,0,0", 1), Ok(0));
    assert_eq!(proper.append(b"7,0,00010000,00000000,0,0,7,0,0,0", 1), Ok(1));
    pools.push(proper);
    let count = |pool: &Pool, number: u16, at: View| {
        let record = Record::of(&[number; 512]).expect("a record of 512");
        record.count(pool, &Question::Ack { at, notice: 0, payload: 7 })
    };
    for (pool, number) in pools.iter().flat_map(|pool| [0, 1, 511, 512, u16::MAX].map(|number| (pool, number))) {
        // One signer, again and again, is a quorum of a view with one member at once, or never.
        assert_eq!(count(pool, number, View::new(0x000f, 0)), Count { reached: false, read: 512 });
        let Count { reached, read } = count(pool, number, View::new(1, 0));
        assert_eq!(read, if reached { 1 } else { 512 });
    }
    assert_eq!(count(&pools[5], 1, View::new(1, 0)), Count { reached: true, read: 1 });
}
