//! What records show, by the proved code and by the reference.

use compare::evidence::{compare, lend, mine, theirs, words, Tally};
use compare::records::{breadth, changed, deepest, depth, gaps, mixed, pool_of, prepares, quorums, reports, skipped, votes, Case};
use compare::schedules;
use generate::Rng;
use pekdrav::{AppendError, Pool, POOL_WORDS};

fn agree(name: &str, cases: impl Iterator<Item = Case>) -> Tally {
    let mut tally = Tally::default();
    for case in cases {
        compare(&case, &mut tally).unwrap_or_else(|difference| panic!("{name}: they differ\n{difference}"));
    }
    println!("{name}: {tally}");
    tally
}

#[test]
fn records_of_runs() {
    let made = (0..120).flat_map(|seed| schedules::random(seed, 100 + 80 * (seed as usize % 8))).chain(schedules::limits(1));
    let tally = agree("records of runs", made.filter_map(|schedule| pool_of(&schedule)));
    assert!(tally.conflicts > 20 && tally.sealed > 100 && tally.certified > 100 && tally.stored > 50, "too few of a kind");
    assert!(tally.several > 20, "too few with certificates of several notices");
    assert_eq!(tally.longest, 512);
}

#[test]
fn changed_records() {
    let mut rng = Rng::new(17);
    let made = (1_000..1_120).flat_map(|seed| schedules::random(seed, 100 + 80 * (seed as usize % 8))).chain(schedules::limits(2));
    let pools: Vec<Case> = made.filter_map(|schedule| pool_of(&schedule)).collect();
    let tally = agree("changed records", pools.iter().flat_map(|case| (0..10).map(|_| changed(&mut rng, case)).collect::<Vec<_>>()));
    assert!(tally.conflicts > 100 && tally.many > 5 && tally.sealed > 500 && tally.certified > 500, "too few of a kind");
}

#[test]
fn worst_records() {
    let sizes = [16, 17, 64, 256, 511, 512];
    let many = |count| [reports(count), prepares(count, true), prepares(count, false), votes(count)];
    let made = sizes.into_iter().flat_map(|count| [breadth(count), depth(count), mixed(count)]);
    let past = |count| [skipped(count, 1), gaps(count, 1), skipped(count, 64), gaps(count, 64)];
    let made = made.chain([140, 256, 511, 512].into_iter().flat_map(many)).chain([quorums()]);
    let made = made.chain([40, 160, 512].into_iter().flat_map(past));
    let mut rng = Rng::new(19);
    let cases: Vec<Case> = made.collect();
    let shuffled: Vec<Case> = cases.iter().flat_map(|case| (0..8).map(|_| changed(&mut rng, case)).collect::<Vec<_>>()).collect();
    let tally = agree("worst records", cases.into_iter().chain(shuffled));
    assert!(tally.conflicts > 50 && tally.sealed > 10 && tally.several > 10, "too few of a kind");
    assert_eq!(tally.longest, 512);
}

/// The two functions that call each other go as deep as a record can have them; 128 KiB of stack are enough, with the arrays of a turn.
#[test]
fn the_deepest_record_on_a_small_stack() {
    let case = deepest();
    let expected = words(&theirs(&case));
    assert_eq!(case.statements.len(), 30 + 2 * 45);
    let lent = lend(&case).unwrap_or_else(|difference| panic!("{difference}"));
    let small = std::thread::Builder::new().stack_size(128 * 1024);
    let told = small.spawn(move || mine(&lent)).expect("a thread").join().expect("the stack suffices");
    assert_eq!(told, expected);
}

#[test]
fn a_pool_takes_512_statements_and_no_line_that_is_none() {
    let mut pool = Pool::new();
    for number in 0..512u16 {
        let line = format!("6,3,00000000,00000000,0,0,{number},0,0,0");
        assert_eq!(pool.append(line.as_bytes(), 1), Ok(number));
        assert_eq!(pool.append(line.as_bytes(), 64), Ok(number), "a number is reused");
    }
    let full = pool.clone();
    assert_eq!(pool.append(b"6,3,00000000,00000000,0,0,512,0,0,0", 1), Err(AppendError::Full));
    assert_eq!(pool.append(b"6,3,00000000,00000000,1,0,0,0,0,0", 1), Err(AppendError::Full), "another notice is another statement");
    assert_eq!(pool.append(b"6,16,00000000,00000000,0,0,512,0,0,0", 1), Err(AppendError::NoStatement));
    assert_eq!(pool.append(b"", 1), Err(AppendError::NoStatement));
    assert_eq!(pool.append(b"6,3,00000000,00000000,0,0,0,0,0,0", 1), Ok(0));
    assert!(pool == full, "the pool is as it was");
}

/// Reports go in and come out with all their groups, whatever number of notices; a cleared pool has none.
#[test]
fn a_pool_keeps_every_group() {
    let mut pool = Pool::new();
    for notices in 1..=64usize {
        let groups: String =
            (0..notices).map(|j| format!("{},{},1,{},", 1 + j % 2, if j % 2 == 0 { 900 + j } else { 0 }, u64::MAX)).collect();
        let line = format!("5,3,00010000,00030000,0,{groups}1,00010000").into_bytes();
        assert_eq!(pool.append(&line, notices), Ok(notices as u16 - 1));
        assert_eq!(pool.append(&line, notices), Ok(notices as u16 - 1), "a number is reused");
        assert_eq!(pool.append(&line, notices % 64 + 1), Err(AppendError::NoStatement));
        assert_eq!(pool.text(notices as u16 - 1), Some(line));
    }
    pool.clear();
    assert_eq!(pool.text(0), None);
}

/// The columns of a pool, each with a word for each statement, and after them the views and the groups of each.
const COLUMNS: usize = 7;
const VIEWS_FROM: usize = COLUMNS * 512;
const GROUPS_FROM: usize = VIEWS_FROM + 16 * 512;

/// Only the words of a new statement and the number of statements are written, whatever the others hold.
#[test]
fn an_addition_writes_no_other_word() {
    let mut words = vec![u64::MAX; POOL_WORDS];
    words[POOL_WORDS - 1] = 3;
    let mut pool = Pool::from(<Box<[u64; POOL_WORDS]>>::try_from(words.into_boxed_slice()).expect("as many words as a pool has"));
    assert_eq!(pool.append(b"4,2,00070000,00000000,0,0,0,0,0,2,00070000,000f0000", 1), Ok(3));
    assert_eq!(pool.append(b"5,2,00070000,00070000,0,1,7,0,0,0,0,1,8,1,00070000", 2), Ok(4));
    let own = |place: usize| match place {
        _ if place < VIEWS_FROM => [3, 4].contains(&(place % 512)),
        _ if place < GROUPS_FROM => [3, 4].contains(&((place - VIEWS_FROM) / 16)),
        _ => [3, 4].contains(&((place - GROUPS_FROM) / 128)),
    };
    let written = pool.words()[..POOL_WORDS - 1].iter().enumerate().filter(|&(_, &word)| word != u64::MAX);
    let strays: Vec<usize> = written.map(|(place, _)| place).filter(|&place| !own(place)).collect();
    assert_eq!(strays, []);
    assert_eq!(pool.words()[POOL_WORDS - 1], 5);
}
