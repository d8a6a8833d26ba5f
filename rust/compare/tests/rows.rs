//! The rows of thousands of schedules, by the proved bench and by the reference.

use compare::rows::{compare_all, Tally, PROVED};
use compare::schedules;
use generate::alike;
use pekdrav::schedule::{rows_into, ROWS_MAX};
use reference::bench::run;

fn agree(name: &str, schedules: impl Iterator<Item = Vec<u8>>) -> Tally {
    let tally = compare_all(PROVED, run, schedules).unwrap_or_else(|difference| panic!("{name}: they differ\n{difference}"));
    println!("{name}: {tally}");
    tally
}

fn each_is_met(tally: &Tally, answers: &[&str], least: u64) {
    for answer in answers {
        let count = tally.answers.get(*answer).copied().unwrap_or(0);
        assert!(count >= least, "{answer}: {count} rows are too few");
    }
}

#[test]
fn every_string_of_up_to_two_bytes() {
    let tally = agree("short schedules", schedules::short());
    assert_eq!(tally.schedules, 1 + 256 + 65_536);
}

#[test]
fn limits() {
    let tally = agree("limits", (0..3).flat_map(schedules::limits));
    each_is_met(&tally, &["refused 1", "refused 4", "refused 6", "refused 7", "refused 8", "refused 10", "refused 11"], 6);
}

#[test]
fn random_styles() {
    let tally = agree("random styles", (0..600).flat_map(|seed| schedules::random(seed, 100 + 40 * (seed as usize % 12))));
    let answers = ["taken", "signed", "entered", "delivered", "left", "quiet"];
    each_is_met(&tally, &answers, 1_000);
    each_is_met(&tally, &["refused 1", "refused 2", "refused 3", "refused 5", "refused 7", "refused 8", "refused 9"], 20);
    each_is_met(&tally, &["refused 10", "refused 11"], 20);
}

#[test]
fn mutated_schedules() {
    let tally = agree("mutated schedules", (0..2_000).map(|seed| schedules::mutated(seed, 60 + 30 * (seed as usize % 8))));
    each_is_met(&tally, &["taken", "signed", "entered", "delivered", "refused 3", "refused 5", "refused 8"], 200);
}

#[test]
fn setup_and_turn_lines() {
    let tally = agree("setup and turn lines", (0..20_000).map(schedules::setups_and_turns));
    let answers = ["taken", "signed", "delivered", "quiet", "refused 1", "refused 8", "refused 10", "refused 11"];
    each_is_met(&tally, &answers, 2_000);
}

/// Two runs with no leave request that are alike but for their minutes, all in range, are equal in every answer.
#[test]
fn without_a_leave_the_minutes_change_no_row() {
    let mut pairs = 0;
    let made = (0..60).flat_map(|seed| schedules::random(seed, 300)).chain((0..2).flat_map(schedules::limits));
    for (schedule, seed) in made.zip(0..) {
        let [one, other] = alike(&schedule, seed);
        pairs += usize::from(one != other);
        let rows = PROVED(&one);
        assert!(
            rows == PROVED(&other),
            "the rows of these differ:\n{}\n{}",
            String::from_utf8_lossy(&one),
            String::from_utf8_lossy(&other)
        );
        assert!(rows == run(&one), "they differ:\n{}", String::from_utf8_lossy(&one));
    }
    assert!(pairs > 400, "{pairs} pairs are too few");
}

/// Memory of exactly the length of the rows, of one byte less, of some more, and none.
fn in_memory_of_any_length(schedule: &[u8]) {
    let rows = run(schedule);
    for length in [0, 1, 21, 22, rows.len() - 1, rows.len(), rows.len() + 1, rows.len() + 39, rows.len() + 41] {
        let mut memory = vec![0xa5; length];
        let written = rows_into(schedule, &mut memory);
        if length < rows.len() {
            assert_eq!(written, None);
            assert!(memory.iter().all(|&byte| byte == 0xa5), "a byte was written though the rows have no room");
        } else {
            assert_eq!(written, Some(rows.len()));
            assert_eq!(memory[..rows.len()], rows);
            assert!(memory[rows.len()..].iter().all(|&byte| byte == 0xa5), "a byte after the rows was written");
        }
    }
}

#[test]
fn memory_of_any_length() {
    let made = (0..20).flat_map(|seed| schedules::random(seed, 60)).chain(schedules::limits(4));
    made.chain([Vec::new(), b"\n".to_vec(), b"x".to_vec(), vec![b'\n'; 65_536]]).for_each(|schedule| in_memory_of_any_length(&schedule));
}

/// The most rows that a schedule can have.
#[test]
fn the_longest_rows() {
    let rows = run(&[b'\n'; 65_536]);
    assert!(rows.len() < ROWS_MAX);
    assert_eq!(PROVED(&[b'\n'; 65_536]), rows);
}
