//! What the service screens show at the end of generated schedules: each kind of line comes up, and says what the rows said before.

use std::collections::BTreeMap;

use generate::{all_kinds, kinds, schedule, LIMITS, RANDOM, STRANGE};
use reference::bench::{run_watched, screen_after, Line};
use reference::screen::SCREEN_LIMIT;
use reference::{Answer, Bench, Controller, Document, Evidence, Outcome, Refusal};

/// The screens of all controllers at the end of a schedule.
fn screens(schedule: &[u8]) -> Vec<String> {
    let mut bench = Bench::<Document>::new();
    run_watched(&mut bench, schedule, |_, _, _| {});
    bench.controllers().map(|controller| controller.screen()).collect()
}

/// Schedules of all styles.
fn made(first: u64, seeds: u64, lines: usize) -> impl Iterator<Item = Vec<u8>> {
    let random = RANDOM.iter().flat_map(move |style| (first..first + seeds).map(move |seed| schedule(style, seed, lines)));
    let limits = LIMITS.iter().flat_map(move |style| (first..first + 8).map(move |seed| schedule(style, seed, 0)));
    random.chain(limits).map(|schedule| schedule.expect("a style"))
}

#[test]
fn each_kind_of_line_is_at_the_end_of_some_schedules() {
    let mut tally: BTreeMap<&str, u64> = BTreeMap::new();
    for screen in made(40_000, 80, 300).flat_map(|schedule| screens(&schedule)) {
        assert!(screen.len() <= SCREEN_LIMIT && screen.ends_with('\n'));
        kinds(&screen).into_iter().for_each(|kind| *tally.entry(kind).or_default() += 1);
    }
    println!("{tally:?}");
    assert_eq!(tally.get(STRANGE), None);
    for kind in all_kinds() {
        assert!(tally.get(kind).is_some_and(|&count| count >= 10), "too few: {kind}");
    }
}

#[test]
fn the_screen_after_a_schedule_is_that_of_its_controller() {
    for schedule in made(41_000, 4, 100) {
        for (k, screen) in (0..).zip(screens(&schedule)) {
            assert_eq!(screen_after(&schedule, k), screen);
        }
        assert_eq!(screen_after(&schedule, 16), "");
    }
}

/// The rows say what a screen says: `left` where a turn then answers so, a refusal where it is refused, and a delivery that was made.
#[test]
fn screens_say_what_turns_answer() {
    let (mut left, mut refused, mut delivered) = (0, 0, 0);
    for schedule in made(42_000, 20, 300) {
        let mut told = [0u64; 16];
        let mut bench = Bench::<Document>::new();
        run_watched(&mut bench, &schedule, |bench, line, row| {
            let Some(Line::Turn { k, .. }) = Line::read(line, bench.groups()) else { return };
            let Some(screen) = bench.controller(k).map(|controller| controller.screen()) else { return };
            let says = |line: &str| screen.lines().any(|said| said == line);
            match row.outcome {
                Outcome::Left => {
                    assert!(says("left"));
                    left += 1;
                }
                Outcome::Refused(refusal @ (Refusal::Conflict | Refusal::Candidates)) => {
                    assert!(says(&format!("turns are refused with {}", refusal as u8)));
                    refused += 1;
                }
                Outcome::Delivered { notice, .. } => told[usize::from(k)] |= 1 << notice,
                _ => {}
            }
        });
        for (controller, told) in bench.controllers().zip(told) {
            let screen = controller.screen();
            let shown = screen.lines().filter(|line| line.ends_with("; delivered")).count();
            assert_eq!(shown as u32, told.count_ones());
            delivered += shown;
        }
    }
    println!("left {left}, refused {refused}, delivered {delivered}");
    assert!(left > 50 && refused > 200 && delivered > 500);
}

/// The sets of a delivery are those that the screen shows then.
#[test]
fn a_delivery_tells_what_the_screen_shows() {
    let mut met = 0;
    for schedule in made(43_000, 20, 300) {
        let mut bench = Bench::<Document>::new();
        run_watched(&mut bench, &schedule, |bench, line, row| {
            let (Some(Line::Turn { k, .. }), Outcome::Delivered { notice, payload, signers }) =
                (Line::read(line, bench.groups()), row.outcome)
            else {
                return;
            };
            let screen = bench.controller(k).map(|controller| controller.screen()).unwrap_or_default();
            let line = screen.lines().find(|line| line.starts_with(&format!("notice {notice}: "))).unwrap_or_default();
            assert!(line.contains(&format!("; certificate for {payload} acked by ")), "{line}");
            assert!(line.contains(&format!("; stored by {signers:04x}: ")), "{line} {signers:x}");
            met += 1;
        });
    }
    println!("{met} deliveries");
    assert!(met > 500);
}

/// A turn that finds nothing to do is that of one who waits for reports exactly where it is a member of the top and has not entered it; nobody who waits
/// for reports enters.
#[test]
fn who_waits_for_reports_does_not_enter() {
    let (mut waiting, mut entered) = (0, 0);
    for schedule in made(44_000, 20, 300) {
        let mut bench = Bench::<Document>::new();
        for line in schedule.split(|&byte| byte == b'\n') {
            let Some(Line::Turn { k, .. }) = Line::read(line, bench.groups()) else {
                bench.step(line);
                continue;
            };
            let waits = bench.controller(k).is_some_and(|controller| controller.screen().contains("waits to enter "));
            let outcome = bench.step(line).outcome;
            assert!(!waits || !matches!(outcome, Outcome::Entered(_)));
            entered += u64::from(matches!(outcome, Outcome::Entered(_)));
            if let (Outcome::Quiet, Some(controller)) = (outcome, bench.controller(k)) {
                assert_eq!(waits, is_due(controller));
                waiting += u64::from(waits);
            }
        }
    }
    println!("{waiting} waiting, {entered} entered");
    assert!(waiting > 200 && entered > 500);
}

/// Whether the controller is a member of the top and has not entered it.
fn is_due(controller: &Controller<Document>) -> bool {
    let shown = controller.ring().map(|ring| Evidence::of(ring.initial, &ring.senders, controller.record().statements()));
    let top = shown.and_then(|shown| shown.greatest().map(|greatest| greatest.top()));
    top.is_some_and(|top| top.has_member(controller.number()) && !controller.entered().contains(&top))
}

#[test]
fn a_controller_that_is_not_set_up_has_one_line() {
    let mut controller = Controller::<Document>::new(3);
    assert_eq!(controller.screen(), "not set up\n");
    assert_eq!(controller.setup(0, &[0], &[]), Answer::Refused(Refusal::Setup));
    assert_eq!(controller.screen(), "not set up\n");
}
