//! Two runs with no leave request that are alike but for their minutes, all in range, are equal in every answer.

use generate::{alike, schedule_for, LIMITS, RANDOM};
use reference::bench::run_watched;
use reference::{Bench, Document, Rules, WEEK};

/// No rule but that for a join is changed: it too waits for a window.
struct JoinsInWindow;

impl Rules for JoinsInWindow {
    const LEAVE_ALONE_IN_WINDOW: bool = false;
}

/// The rows of a schedule, and whether its ring has windows.
fn rows<R: Rules>(schedule: &[u8]) -> (String, bool) {
    let mut bench = Bench::<R>::new();
    let rows = run_watched(&mut bench, schedule, |_, _, _| {});
    let windows = bench.controllers().any(|controller| controller.ring().is_some_and(|ring| !ring.windows.is_empty()));
    (String::from_utf8(rows).unwrap(), windows)
}

/// How many pairs there were whose schedules differ, how many of them in rings with windows, and the rows that did something.
#[derive(Default, Debug)]
struct Tally {
    pairs: usize,
    windows: usize,
    signed: usize,
    entered: usize,
    delivered: usize,
}

/// Runs pairs of all styles by engines that follow `R`, and answers the styles and seeds of those whose rows differ.
fn differing<R: Rules>(seeds: u64, tally: &mut Tally) -> Vec<(&'static str, u64)> {
    let mut differing = Vec::new();
    for style in RANDOM.iter().chain(LIMITS).copied() {
        let (seeds, lines) = if RANDOM.contains(&style) { (seeds, 300) } else { (2, 0) };
        for seed in 0..seeds {
            let [one, other] = alike(&schedule_for::<R>(style, 20_000 + seed, lines).unwrap(), seed);
            let ((first, windows), (second, _)) = (rows::<R>(&one), rows::<R>(&other));
            tally.pairs += usize::from(one != other);
            tally.windows += usize::from(one != other && windows);
            tally.signed += first.matches(",signed,").count();
            tally.entered += first.matches(",entered,").count();
            tally.delivered += first.matches(",delivered,").count();
            if first != second {
                differing.push((style, seed));
            }
        }
    }
    differing
}

#[test]
fn without_a_leave_the_minutes_change_no_row() {
    let mut tally = Tally::default();
    assert_eq!(differing::<Document>(60, &mut tally), []);
    println!("{tally:?}");
    assert!(tally.pairs > 400 && tally.windows > 150, "too few that differ");
    assert!(tally.signed > 10_000 && tally.entered > 1_000 && tally.delivered > 500, "too little happens");
}

#[test]
fn an_engine_in_which_more_than_a_leave_waits_is_noticed() {
    assert!(differing::<JoinsInWindow>(8, &mut Tally::default()).iter().any(|(style, _)| *style == "leavers"));
}

#[test]
fn two_that_are_alike_differ_in_minutes_alone() {
    for seed in 0..40 {
        let schedule = schedule_for::<Document>("leavers", seed, 300).unwrap();
        let [one, other] = alike(&schedule, seed).map(|bytes| String::from_utf8(bytes).unwrap());
        assert!(one != other && one.lines().count() == other.lines().count() && !one.contains("leave,"));
        for (one, other) in one.lines().zip(other.lines()) {
            let [(word, minute), (same, second)] = [one, other].map(|line| line.rsplit_once(',').unwrap());
            assert!(one == other || (word == same && word.starts_with("turn,")), "{one} {other}");
            let in_range = |text: &str| text.parse::<u16>().is_ok_and(|minute| minute < WEEK);
            assert!(!word.starts_with("turn,") || (in_range(minute) && in_range(second)), "{one} {other}");
        }
    }
}

/// With leaves they do: the rows depend on the minutes where a leave waits.
#[test]
fn with_a_leave_the_minutes_change_rows() {
    let differs = |seed: &u64| {
        let schedule = String::from_utf8(schedule_for::<Document>("leavers", *seed, 300).unwrap()).unwrap();
        let still =
            |line: &str| if line.starts_with("turn,") { format!("{},0\n", line.rsplit_once(',').unwrap().0) } else { format!("{line}\n") };
        let stopped: String = schedule.lines().map(still).collect();
        rows::<Document>(schedule.as_bytes()).0 != rows::<Document>(stopped.as_bytes()).0
    };
    assert!((0..40).filter(differs).count() > 20);
}
