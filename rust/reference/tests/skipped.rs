//! Rule 2 where a history lists views that nobody topped.

use reference::bench::{run, run_watched};
use reference::{Answer, Bench, Binding, Body, Controller, Evidence, History, Report, Rules, Statement, Told, View};

/// The initial view, in which 0 is alone and so a quorum by itself.
const FIRST: View = View::new(0x0001, 0);
/// Four members, of which three are a quorum.
const SMALL: View = View::new(0x000f, 0);
const MIDDLE: View = View::new(0x001f, 0);
const LARGE: View = View::new(0x003f, 0);

/// Who takes the turns: a member of `LARGE` alone, so that it has no reports to sign.
const NEWCOMER: u8 = 5;

/// Statements of a ring in which 0 sends notice 0; 1 to 5 asked to join, and each view is a candidate.
struct Ring(Vec<Statement>);

impl Ring {
    fn new() -> Ring {
        let mut ring = Ring((1..=5).map(|origin| Statement::new(origin, Body::Join)).collect());
        for view in [SMALL, MIDDLE, LARGE] {
            ring.sign(0, Body::AgreeView { at: FIRST, view });
        }
        ring
    }

    fn sign(&mut self, origin: u8, body: Body) -> &mut Ring {
        self.0.push(Statement::new(origin, body));
        self
    }

    /// Has the initial view seal the history.
    fn seal(&mut self, views: &[View]) -> &mut Ring {
        let history = History::new(views).unwrap();
        self.sign(0, Body::AgreeHistory { at: FIRST, history })
    }

    fn prepare(&mut self, payload: u64) -> &mut Ring {
        self.sign(0, Body::Prepare { notice: 0, payload })
    }

    /// Has each of the origins report on the view.
    fn report(&mut self, at: View, origins: &[u8], binding: Binding) -> &mut Ring {
        for &origin in origins {
            let told = [Told { binding, kept: None }].into();
            let report = Report { at, view: FIRST, told, history: History::new(&[FIRST]).unwrap() };
            self.sign(origin, Body::Report(report));
        }
        self
    }

    fn controller(&self, number: u8) -> Controller {
        let mut controller = Controller::new(number);
        assert_eq!(controller.setup(FIRST.joined(), &[0], &[]), Answer::Taken);
        assert!(self.0.iter().all(|statement| controller.add(statement) == Answer::Taken));
        controller
    }

    /// What the newcomer's turn answers.
    fn turn(&self) -> Answer {
        self.controller(NEWCOMER).turn(0)
    }

    /// The newcomer's binding after it entered.
    fn binding(&self) -> Binding {
        let mut controller = self.controller(NEWCOMER);
        assert_eq!(controller.turn(0), Answer::Entered(LARGE));
        controller.notices()[0].binding
    }
}

#[test]
fn a_skipped_view_does_not_hold_up_entering() {
    let mut ring = Ring::new();
    ring.seal(&[FIRST, SMALL, LARGE]).report(FIRST, &[0], Binding::Unbound);
    assert_eq!(ring.turn(), Answer::Quiet);
    ring.seal(&[FIRST, LARGE]);
    assert_eq!(ring.turn(), Answer::Entered(LARGE));
}

#[test]
fn several_views_are_skipped_by_several_histories() {
    let mut ring = Ring::new();
    ring.seal(&[FIRST, SMALL, MIDDLE, LARGE]).seal(&[FIRST, MIDDLE, LARGE]).report(FIRST, &[0], Binding::Unbound);
    assert_eq!(ring.turn(), Answer::Quiet);
    ring.seal(&[FIRST, LARGE]);
    assert_eq!(ring.turn(), Answer::Entered(LARGE));
}

#[test]
fn a_history_that_is_not_sealed_skips_nothing() {
    let mut ring = Ring::new();
    ring.seal(&[FIRST, SMALL, LARGE]).report(FIRST, &[0], Binding::Unbound);
    let shorter = || Body::AgreeHistory { at: FIRST, history: History::new(&[FIRST, LARGE]).unwrap() };
    ring.sign(1, shorter()).sign(NEWCOMER, shorter());
    assert_eq!(ring.turn(), Answer::Quiet);
    ring.sign(0, shorter());
    assert_eq!(ring.turn(), Answer::Entered(LARGE));
}

#[test]
fn a_view_that_only_histories_without_a_greater_top_lack_is_needed() {
    // The initial history lacks all but its own view, and the second lacks the middle view, which lies above its top.
    let mut ring = Ring::new();
    ring.seal(&[FIRST, SMALL]).seal(&[FIRST, SMALL, MIDDLE, LARGE]);
    ring.report(FIRST, &[0], Binding::Unbound).report(SMALL, &[0, 1, 2], Binding::Unbound);
    assert_eq!(ring.turn(), Answer::Quiet);
    ring.report(MIDDLE, &[0, 1, 2], Binding::Unbound);
    assert_eq!(ring.turn(), Answer::Quiet, "four of five are a quorum");
    ring.report(MIDDLE, &[3], Binding::Unbound);
    assert_eq!(ring.turn(), Answer::Entered(LARGE));
}

#[test]
fn a_view_that_every_history_with_a_greater_top_has_is_needed() {
    let mut ring = Ring::new();
    ring.seal(&[FIRST, SMALL]).seal(&[FIRST, SMALL, MIDDLE]).seal(&[FIRST, SMALL, MIDDLE, LARGE]);
    ring.report(FIRST, &[0], Binding::Unbound).report(MIDDLE, &[0, 1, 2, 3], Binding::Unbound);
    assert_eq!(ring.turn(), Answer::Quiet);
    ring.report(SMALL, &[0, 1, 2], Binding::Unbound);
    assert_eq!(ring.turn(), Answer::Entered(LARGE));
}

#[test]
fn a_needed_view_is_asked_beside_a_skipped_one() {
    let mut ring = Ring::new();
    ring.seal(&[FIRST, MIDDLE]).seal(&[FIRST, SMALL, MIDDLE, LARGE]).report(FIRST, &[0], Binding::Unbound);
    ring.report(SMALL, &[0, 1, 2, 3], Binding::Unbound).report(MIDDLE, &[0, 1, 2], Binding::Unbound);
    assert_eq!(ring.turn(), Answer::Quiet);
    ring.report(MIDDLE, &[4], Binding::Unbound);
    assert_eq!(ring.turn(), Answer::Entered(LARGE));
}

#[test]
fn reports_on_a_skipped_view_do_not_bind() {
    for (skipped, expected) in [(false, Binding::Barred), (true, Binding::Bound(7))] {
        let mut ring = Ring::new();
        ring.prepare(7).prepare(8).seal(&[FIRST, SMALL, LARGE]);
        ring.report(FIRST, &[0], Binding::Bound(7)).report(SMALL, &[1, 2, 3], Binding::Bound(8));
        if skipped {
            ring.seal(&[FIRST, LARGE]);
        }
        assert_eq!(ring.binding(), expected);
    }
    for told in [Binding::Bound(7), Binding::Barred] {
        let mut ring = Ring::new();
        ring.prepare(7).prepare(8).seal(&[FIRST, SMALL, LARGE]).seal(&[FIRST, LARGE]);
        ring.report(FIRST, &[0], Binding::Unbound).report(SMALL, &[1, 2, 3], told);
        assert_eq!(ring.binding(), Binding::Unbound);
    }
}

#[test]
fn reports_on_the_needed_views_bind_beside_a_skipped_one() {
    let told = [
        (Binding::Bound(7), Binding::Unbound, Binding::Bound(7)),
        (Binding::Unbound, Binding::Bound(7), Binding::Bound(7)),
        (Binding::Bound(7), Binding::Bound(8), Binding::Barred),
    ];
    for (on_first, on_middle, expected) in told {
        let mut ring = Ring::new();
        ring.prepare(7).prepare(8).seal(&[FIRST, MIDDLE]).seal(&[FIRST, SMALL, MIDDLE, LARGE]);
        ring.report(FIRST, &[0], on_first).report(MIDDLE, &[0, 1, 2, 3], on_middle);
        assert_eq!(ring.binding(), expected);
    }
}

#[test]
fn a_member_of_a_skipped_view_still_reports_on_it() {
    let mut ring = Ring::new();
    ring.seal(&[FIRST, SMALL, LARGE]).seal(&[FIRST, LARGE]).report(FIRST, &[0], Binding::Unbound);
    let mut member = ring.controller(1);
    let Answer::Signed(Statement { body: Body::Report(report), .. }) = member.turn(0) else { panic!("no report") };
    assert_eq!(report.at, SMALL);
    assert_eq!(member.turn(0), Answer::Entered(LARGE));
}

#[test]
fn what_is_skipped_depends_on_the_sealed_histories_alone() {
    let mut ring = Ring::new();
    ring.seal(&[FIRST, MIDDLE]).seal(&[FIRST, SMALL, MIDDLE, LARGE]);
    let shown = Evidence::of(FIRST, &[0], &ring.0);
    assert_eq!([FIRST, SMALL, MIDDLE, LARGE].map(|view| shown.skips(view)), [false, true, false, false]);
}

/// The engine before views were skipped.
struct Waiting;

impl Rules for Waiting {
    const VIEWS_SKIPPED: bool = false;
}

#[test]
fn the_example_differs_from_the_line_on_where_the_short_road_is_taken() {
    let schedule = include_bytes!("../../../examples/skipped_view.schedule");
    let stored = include_str!("../../../examples/skipped_view.rows");
    assert_eq!(String::from_utf8(run(schedule)).unwrap(), stored);
    let before = String::from_utf8(run_watched(&mut Bench::<Waiting>::new(), schedule, |_, _, _| {})).unwrap();
    let first = stored.lines().zip(before.lines()).find(|(now, then)| now != then);
    assert_eq!(first, Some(("34,4,entered,001f0000", "34,4,quiet,0")));
}
