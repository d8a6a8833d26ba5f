//! Service screens after schedules, by the proved code and by the reference.

use compare::schedules;
use compare::screens::{compare_after, Tally};
use generate::{kinds, schedule};
use pekdrav::schedule::{screen, screen_into};
use pekdrav::{Controller, Pool, SCREEN_BYTES};
use reference::bench::screen_after;

/// All controllers of every fifth schedule, and some of the others.
fn agree(name: &str, schedules: impl Iterator<Item = Vec<u8>>) -> Tally {
    let mut tally = Tally::default();
    for (schedule, place) in schedules.zip(0u64..) {
        let step = if place % 5 == 0 { 1 } else { 5 };
        let numbers = (place % step..=16).step_by(step as usize).map(|k| k as u8);
        compare_after(&schedule, numbers, &mut tally).unwrap_or_else(|difference| panic!("{name}: they differ\n{difference}"));
    }
    println!("{name}: {tally}");
    tally
}

/// Enough of every kind of line.
#[test]
fn after_schedules_of_all_styles() {
    let random = (0..80).flat_map(|seed| schedules::random(seed, 60 + 60 * (seed as usize % 8)));
    let waits = (0..40).filter_map(|seed| schedule("waits", seed, 0));
    let tally = agree("screens", random.chain((0..4).flat_map(schedules::limits)).chain(waits));
    assert_eq!(tally.lacks(10), None, "too few of a kind, or one that is none");
    assert!(tally.screens > 3_000 && tally.longest > 5_000);
}

#[test]
fn after_mutated_schedules() {
    let tally = agree("screens after mutated schedules", (0..300).map(|seed| schedules::mutated(seed, 60 + 30 * (seed as usize % 8))));
    assert!(tally.count("not set up") > 10 && tally.count("stands in ") > 200);
}

#[test]
fn after_setup_and_turn_lines() {
    let tally = agree("screens after setup and turn lines", (0..1_000).map(schedules::setups_and_turns));
    assert!(tally.count("not set up") > 100 && tally.count("waits for a window to leave") > 20 && tally.count("left") == 0);
}

/// Schedules that run nothing: nobody is set up.
#[test]
fn after_schedules_that_run_nothing() {
    let mut long = b"setup,0001,1,0,0000,0\n".to_vec();
    long.resize(65_537, b'\n');
    let some = schedules::short().step_by(997).chain([long, b"setup,0001,1,0,0000,0".to_vec()]);
    let tally = agree("screens after schedules that run nothing", some);
    assert_eq!(tally.kinds.keys().copied().collect::<Vec<_>>(), ["not set up"]);
}

/// Memory of any length: less than there may be need of is left as it was, and no byte after the text is written.
#[test]
fn memory_of_any_length() {
    for seed in 0..10 {
        let schedule = schedule("leavers", seed, 200).unwrap_or_default();
        for length in [0, 1, 11, 4_096, SCREEN_BYTES - 1, SCREEN_BYTES, SCREEN_BYTES + 1, 2 * SCREEN_BYTES] {
            let text = screen_after(&schedule, 3);
            let mut memory = vec![0xa5; length];
            let written = screen_into(&schedule, 3, &mut memory);
            let kept = if length < SCREEN_BYTES { 0 } else { text.len() };
            assert_eq!(written, (kept > 0).then_some(kept));
            assert_eq!(memory[..kept], text.as_bytes()[..kept]);
            assert!(memory[kept..].iter().all(|&byte| byte == 0xa5), "another byte was written");
        }
    }
    let mut memory = vec![0xa5; SCREEN_BYTES];
    for number in [16, 17, 32, 255] {
        assert_eq!(screen_into(b"setup,0001,1,0,0000,0\n", number, &mut memory), None);
        assert_eq!(screen(b"setup,0001,1,0,0000,0\n", number), "");
    }
    assert_eq!(Controller::new().screen_into(&Pool::new(), &mut memory[1..]), None);
    assert!(memory.iter().all(|&byte| byte == 0xa5), "a byte was written though there is no text");
    assert_eq!(Controller::new().screen_into(&Pool::new(), &mut memory), Some("not set up\n".len()));
}

#[test]
fn the_kinds_of_lines_are_told_apart() {
    let text = "controller 2\nentered 00010000: 0\nwished 00010001:\nconflict\nnotice 0: barred; delivered\nturns are refused with 7\n";
    let expected = [
        "controller ",
        "entered ",
        "wished ",
        "wished by nobody",
        "conflict",
        "notice ",
        "notice after a conflict",
        "barred",
        "delivered",
        "turns are refused with 7",
    ];
    assert_eq!(kinds(text), expected);
    assert_eq!(kinds("anything\nnotice 0: x; y; z\n"), ["strange", "notice ", "strange", "strange", "strange"]);
}
