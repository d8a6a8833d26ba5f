//! The proved controller and the reference's in lock step.

use compare::lockstep::{compare_all, Ring, Tally, STORED_APART};
use compare::records::{changed, gaps, prepares, reports, short_of_quorum, skipped, unreported, votes, Case, NEWCOMER, WAITING};
use compare::{schedules, screens};
use generate::{schedule, Rng};
use pekdrav::{Answer, Binding, Certificate, Controller, Count, Kind, Notice, Pool, Question, Refusal, View, Window};

fn agree(name: &str, schedules: impl Iterator<Item = Vec<u8>>) -> (Tally, screens::Tally) {
    let (tally, screens) = compare_all(schedules).unwrap_or_else(|difference| panic!("{name}: they differ, {difference}"));
    println!("{name}: {tally:?}\n{screens}");
    (tally, screens)
}

#[test]
fn runs_of_all_styles() {
    let (tally, screens) = agree("lock step", (0..60).flat_map(|seed| schedules::random(seed, 60 + 60 * (seed as usize % 8))));
    for answer in ["taken", "signed", "entered", "delivered", "left", "quiet"] {
        assert!(tally.get(answer).is_some_and(|&count| count > 100), "too few: {answer}");
    }
    for refusal in [1, 2, 3, 5, 7, 8, 9, 10, 11] {
        assert!(tally.get(&format!("refused {refusal}")).is_some_and(|&count| count > 10), "too few: refused {refusal}");
    }
    assert!(tally.get(STORED_APART).is_some_and(|&count| count > 30) && screens.screens > 10_000, "too few of a kind");
}

#[test]
fn limits() {
    let waits = (0..12).filter_map(|seed| schedule("waits", seed, 0));
    let (tally, screens) = agree("lock step at the limits", schedules::limits(3).chain(waits));
    for refusal in [4, 6, 7, 9, 10, 11] {
        assert!(tally.contains_key(&format!("refused {refusal}")), "none: refused {refusal}");
    }
    for kind in ["candidates: more than 16", "conflict", "turns are refused with 7", "turns are refused with 6"] {
        assert!(screens.count(kind) > 30, "too few: {kind}");
    }
    for kind in ["waits for reports on several views", "waits for reports and for a window", "waits for a window to leave"] {
        assert!(screens.count(kind) > 10, "too few: {kind}");
    }
}

#[test]
fn mutated_runs() {
    agree("lock step on mutated schedules", (0..300).map(|seed| schedules::mutated(seed, 60 + 30 * (seed as usize % 8))));
}

/// A turn over reports of 64 groups, bound, kept and barred.
#[test]
fn turns_over_the_worst_records() {
    let mut ring = Ring::new();
    for count in [140, 256, 511, 512] {
        let told = [reports(count), prepares(count, true), prepares(count, false)];
        let short = told.clone().map(short_of_quorum);
        for case in told.into_iter().chain(short).chain([votes(count)]) {
            ring.turn_on(WAITING, &case).unwrap_or_else(|difference| panic!("they differ, {difference}"));
        }
    }
    println!("turns over the worst records: {:?}\n{}", ring.tally, ring.screens);
}

/// Service screens of one who waits for reports on as many views as there may be, with reports missing, signed by others or not counted.
#[test]
fn waits_for_reports_on_many_views() {
    let mut rng = Rng::new(53);
    let mut ring = Ring::new();
    for (count, notices) in [(60, 1), (200, 1), (512, 1), (512, 5), (512, 64)] {
        let case = unreported(count, notices);
        for case in std::iter::once(case.clone()).chain((0..12).map(|_| changed(&mut rng, &case))) {
            [NEWCOMER, 0, 7]
                .into_iter()
                .for_each(|k| ring.turn_on(k, &case).unwrap_or_else(|difference| panic!("they differ, {difference}")));
        }
    }
    println!("waits for reports on many views: {:?}\n{}", ring.tally, ring.screens);
    assert!(
        ring.screens.count("waits for reports on several views") > 100 && ring.screens.count("waits to enter ") > 1_000,
        "too few of a kind"
    );
}

/// Turns over records with skipped views: the newcomer enters past them, and with statements missing or signed by others it does or does not; the members
/// report.
#[test]
fn turns_past_skipped_views() {
    let mut rng = Rng::new(23);
    let mut ring = Ring::new();
    let mut turn_on = |k: u8, case: &Case| ring.turn_on(k, case).unwrap_or_else(|difference| panic!("they differ, {difference}"));
    for count in [40, 64, 160, 200, 300, 512] {
        for case in [skipped(count, 1), gaps(count, 1), skipped(count, 5), gaps(count, 64)] {
            [NEWCOMER, 0, 7, 14].into_iter().for_each(|k| turn_on(k, &case));
            (0..8).for_each(|_| turn_on(NEWCOMER, &changed(&mut rng, &case)));
        }
    }
    println!("turns past skipped views: {:?}", ring.tally);
    let least = [("entered", 50), ("quiet", 50), ("signed", 20)];
    assert!(least.iter().all(|&(answer, count)| ring.tally.get(answer).is_some_and(|&met| met > count)), "too few of a kind");
}

/// Counts over a prepare, an ack and a store of one who is alone in its ring.
fn counts_of_everything(controller: &Controller, pool: &Pool) {
    let at = View::new(1, 0);
    let (complete, missed) = (|read| Count { reached: true, read }, Count { reached: false, read: 3 });
    assert_eq!(controller.count(pool, &Question::Ack { at, notice: 1, payload: 7 }), complete(2));
    assert_eq!(controller.count(pool, &Question::Store { at, notice: 1, payload: 7 }), complete(3));
    assert_eq!(controller.count(pool, &Question::Ack { at, notice: 0, payload: 7 }), missed);
    assert_eq!(controller.count(pool, &Question::Store { at: View::new(1, 1), notice: 1, payload: 7 }), missed);
    assert_eq!(controller.count(pool, &Question::AgreeView { at, view: at }), missed);
    for length in [0, 1, 16, 17, 1_000] {
        assert_eq!(controller.count(pool, &Question::AgreeHistory { at, views: &vec![at; length] }), missed);
    }
    assert_eq!(controller.count_reports(pool, at), Some(missed));
}

/// Sets over the same.
fn sets_of_everything(controller: &Controller, pool: &Pool) {
    let at = View::new(1, 0);
    assert_eq!(controller.who(pool, &Question::Ack { at, notice: 1, payload: 7 }), 1);
    assert_eq!(controller.who(pool, &Question::Store { at, notice: 1, payload: 7 }), 1);
    assert_eq!(controller.who(pool, &Question::Ack { at, notice: 0, payload: 7 }), 0);
    assert_eq!(controller.who(pool, &Question::Store { at: View::new(1, 1), notice: 1, payload: 7 }), 0);
    assert_eq!(controller.who(pool, &Question::AgreeView { at, view: at }), 0);
    for length in [0, 1, 16, 17, 1_000] {
        assert_eq!(controller.who(pool, &Question::AgreeHistory { at, views: &vec![at; length] }), 0);
    }
    assert_eq!(controller.who_reported(pool, at), Some(0));
    assert_eq!([0, 1, 2, 255].map(|notice| controller.ack_set(pool, notice, 7)), [0, 1, 0, 0]);
    assert_eq!([0, 1, 2, 255].map(|notice| controller.store_set(pool, notice, 7)), [0, 1, 0, 0]);
    assert_eq!((controller.ack_set(pool, 1, 8), controller.store_set(pool, 1, 8)), (0, 0));
}

/// A window from any minute of the day on.
fn any_window(rng: &mut Rng) -> reference::Window {
    let first = rng.below(1_440);
    let end = if rng.chance(30) { 1_440 } else { rng.between(first + 1, 1_440.min(first + 90)) };
    reference::Window::new(rng.below(7) as u16, first as u16, end as u16)
}

/// A leave in minutes at the edges of its windows, and in all of a week.
#[test]
fn leaves_at_the_edges_of_windows() {
    let mut rng = Rng::new(31);
    let mut ring = Ring::new();
    let mut leave_in = |windows: &[reference::Window], minutes: &[u16]| {
        ring.leave_in(windows, minutes.iter().copied()).unwrap_or_else(|difference| panic!("{windows:?}: they differ, {difference}"))
    };
    for _ in 0..200 {
        let windows: Vec<_> = (0..rng.between(1, 8)).map(|_| any_window(&mut rng)).collect();
        let start = |window: &reference::Window| 1_440 * window.weekday;
        let edges = windows.iter().flat_map(|window| [window.first, window.end].map(|minute| start(window) + minute));
        let mut minutes: Vec<u16> = edges.flat_map(|edge| [edge.saturating_sub(1), edge, edge + 1]).collect();
        // The same minutes of the day, on other days.
        minutes.extend(minutes.clone().iter().map(|minute| (minute + 1_440 * (1 + minute % 6)) % 10_080));
        minutes.extend([0, 1_439, 1_440, 10_079, 10_080, 65_535]);
        leave_in(&windows, &minutes);
    }
    let week: Vec<u16> = (0..10_090).collect();
    let two = [reference::Window::new(2, 480, 540), reference::Window::new(6, 1_430, 1_440)];
    leave_in(&two, &week);
    println!("leaves at the edges of windows: {:?}", ring.tally);
    let least = [("signed", 1_000), ("quiet", 3_000), ("refused 11", 400)];
    assert!(least.iter().all(|&(answer, count)| ring.tally.get(answer).is_some_and(|&met| met > count)), "too few of a kind");
}

/// Windows that no setup takes, and how many of them there may be.
#[test]
fn windows_of_a_setup() {
    let mut controller = Controller::new();
    let good = Window::new(6, 480, 1_440);
    for count in [9, 10, 255, 256, 257, 264, 65_536] {
        assert_eq!(controller.setup(0, 1, &[0], &vec![good; count]), Answer::Refused(Refusal::BadWindow), "{count}");
    }
    for bad in [Window::new(7, 0, 1), Window::new(0, 5, 5), Window::new(0, 0, 1_441), Window::new(0, 0, 65_535), Window::new(65_535, 0, 1)]
    {
        assert_eq!(controller.setup(0, 1, &[0], &[good, bad]), Answer::Refused(Refusal::BadWindow), "{bad:?}");
        assert_eq!(controller.setup(0, 0, &[0], &[good, bad]), Answer::Refused(Refusal::BadSetup), "{bad:?}");
    }
    assert!(!controller.is_set_up() && controller.windows().len() == 0);
    let windows: Vec<Window> = (0..8).map(|place| Window::new(place % 7, place, 1_440 - place)).collect();
    assert_eq!(controller.setup(0, 1, &[0], &windows), Answer::Taken);
    assert!(controller.windows().eq(windows.iter().copied()));
    assert_eq!(controller.setup(0, 1, &[0], &[good; 9]), Answer::Refused(Refusal::BadSetup));
    assert!(controller.windows().eq(windows));
}

/// Every memory means a controller: a call on any answers, and a refusal leaves the pool as it was.
#[test]
fn one_of_everything() {
    let (mut controller, mut pool) = (Controller::new(), Pool::new());
    assert_eq!(controller.screen(&pool), "not set up\n");
    assert_eq!(controller.turn(&mut pool, 10_079), Answer::Refused(Refusal::OutOfPlace));
    assert_eq!(controller.add(&mut pool, b"1,0,00000000,00000000,0,0,0,0,0,0"), Answer::Refused(Refusal::OutOfPlace));
    assert_eq!(controller.setup(16, 1, &[0], &[]), Answer::Refused(Refusal::BadSetup));
    assert_eq!(controller.setup(0, 1, &[], &[]), Answer::Refused(Refusal::BadSetup));
    for count in [65, 255, 256, 1_000] {
        assert_eq!(controller.setup(0, 1, &vec![0; count], &[]), Answer::Refused(Refusal::BadSetup));
    }
    assert_eq!(controller.setup(0, 1, &[1, 0], &[Window::new(0, 0, 1)]), Answer::Taken);
    assert_eq!(controller.add(&mut pool, b"1,0,00000000,00000000,0,0,0,0,0"), Answer::Refused(Refusal::BadStatement));
    assert_eq!(controller.add(&mut pool, b"6,1,00000000,00000000,2,0,7,0,0,0"), Answer::Refused(Refusal::UnknownNotice));
    assert_eq!(controller.send(2, 7), Answer::Refused(Refusal::UnknownNotice));
    assert_eq!(controller.send(0, 7), Answer::Refused(Refusal::BadRequest));
    assert_eq!(controller.send(1, 7), Answer::Taken);
    assert_eq!(controller.notice(1).and_then(|notice| notice.send_requested), Some(7));
    assert_eq!(controller.turn(&mut pool, 10_079), Answer::Signed(0));
    assert_eq!(pool.text(0), Some(b"6,0,00000000,00000000,1,0,7,0,0,0".to_vec()));
    assert_eq!(pool.text(1), None);
    assert_eq!(controller.turn(&mut pool, 10_079), Answer::Signed(1));
    assert_eq!(controller.turn(&mut pool, 10_079), Answer::Signed(2));
    assert_eq!(controller.turn(&mut pool, 10_079), Answer::Delivered { notice: 1, payload: 7, signers: 1 });
    assert_eq!(controller.turn(&mut pool, 10_079), Answer::Quiet);
    assert_eq!(controller.record().numbers(), [0, 1, 2]);
    let shown = controller.evidence(&pool).shown.expect("no conflict");
    assert_eq!(shown.greatest, [View::new(1, 0)]);
    assert_eq!(shown.certificates, [Certificate { notice: 1, payload: 7, stored: true }]);
    assert_eq!(controller.signers(&pool, Kind::Ack, View::new(1, 0)), 1);
    assert_eq!(controller.signers(&pool, Kind::Report, View::new(1, 0)), 0);
    counts_of_everything(&controller, &pool);
    sets_of_everything(&controller, &pool);
    let shown = "wished,00010000\ncandidates,1,00010000\ngreatest,1,00010000\ncertificate,1,7,stored,2\n";
    assert_eq!(controller.record().screen(&pool, &controller.ring()), shown);
    let place = "controller 0\nstands in 00010000: 0\nwished 00010000: 0\ncandidates 00010000\n";
    let notices = "notice 0: unbound; no certificate; not stored; not delivered\nnotice 1: bound to 7; certificate for 7 acked by 0001: 0; stored by 0001: 0; delivered\n";
    assert_eq!(controller.screen(&pool), format!("{place}{notices}waits for nothing\n"));
    let notice = Notice { sender: 0, binding: Binding::Bound(7), delivered: true, send_requested: Some(7) };
    assert_eq!(controller.notice(1), Some(notice));
    assert_eq!(controller.notice(0), Some(Notice { sender: 1, binding: Binding::Unbound, delivered: false, send_requested: None }));
    assert_eq!(controller.notice(2), None);
    assert_eq!(controller.leave(), Answer::Taken);
    assert_eq!(controller.screen(&pool), format!("{place}{notices}waits for a window to leave\n"));
    assert_eq!(controller.turn(&mut pool, 10_080), Answer::Refused(Refusal::BadMinute));
    assert_eq!(controller.turn(&mut pool, 1), Answer::Quiet);
    assert_eq!(controller.turn(&mut pool, 0), Answer::Signed(3));
}
