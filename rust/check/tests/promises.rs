//! Generated runs keep demand 3, go deep, and agree with the definitions put down once more.

use check::{soak, Definition, Run};
use generate::{schedule, LIMITS, RANDOM};
use reference::bench::run;
use reference::controller::Ring;
use reference::{Answer, Binding, Body, Controller, Document, Evidence, Quorum, Statement, View};

#[test]
fn honest_runs_keep_the_promises_and_go_deep() {
    let totals = soak("honest", 1, 700, 400).unwrap();
    println!("honest: {totals}");
    assert!(totals.failed.is_empty(), "{:?}", totals.failed);
    assert_eq!(totals.within_premises, totals.runs);
    assert!(totals.four_entered * 2 > totals.runs && totals.late * 4 > totals.runs);
    assert!(totals.most.tops >= 8 && totals.most.entered >= 8);
    assert!(totals.two_notices > 30 && totals.refused[9] > 30);
    assert!(totals.stored_apart * 5 > totals.runs);
}

#[test]
fn runs_with_liars_keep_the_promises_and_go_deep() {
    let totals = soak("liars", 1, 700, 400).unwrap();
    println!("liars: {totals}");
    assert!(totals.failed.is_empty(), "{:?}", totals.failed);
    assert_eq!(totals.within_premises, totals.runs);
    assert!(totals.four_entered * 4 > totals.runs && totals.late * 4 > totals.runs);
    assert!(totals.two_notices > 30 && totals.refused[2] > 20 && totals.refused[9] > 60);
}

#[test]
fn attacks_within_the_premises_fail() {
    let totals = soak("attack", 1, 700, 800).unwrap();
    println!("attack: {totals}");
    assert!(totals.failed.is_empty(), "{:?}", totals.failed);
    assert_eq!(totals.within_premises, totals.runs);
    assert!(totals.four_tops > 20 && totals.late > 50 && totals.two_notices > 30);
}

#[test]
fn runs_past_skipped_views_keep_the_promises_and_take_the_short_road() {
    let totals = soak("skips", 1, 700, 600).unwrap();
    println!("skips: {totals}");
    assert!(totals.failed.is_empty(), "{:?}", totals.failed);
    assert_eq!(totals.within_premises, totals.runs);
    assert!(totals.short_roads * 5 > totals.runs * 2 && totals.bound_otherwise * 4 > totals.runs);
    assert!(totals.late * 4 > totals.runs && totals.two_notices > 30 && totals.most.short_roads >= 10);
}

#[test]
fn rings_whose_members_leave_in_windows_keep_the_promises() {
    let totals = soak("leavers", 1, 500, 400).unwrap();
    println!("leavers: {totals}");
    assert!(totals.failed.is_empty(), "{:?}", totals.failed);
    assert_eq!(totals.within_premises, totals.runs);
    assert!(totals.appointed * 4 > totals.runs * 3 && totals.four_entered * 4 > totals.runs && totals.late > 50);
    assert!(totals.refused[11] * 4 > totals.runs && totals.most.appointed >= 5);
}

#[test]
fn rings_of_each_number_of_notices_keep_the_promises() {
    for notices in [1, 2, 5, 64] {
        for style in ["honest", "liars", "attack", "skips"] {
            let totals = soak(&format!("{style}-{notices}"), 1, 40, 800).unwrap();
            println!("{style}-{notices}: {totals}");
            assert!(totals.failed.is_empty(), "{style}-{notices}: {:?}", totals.failed);
            assert!(totals.delivering > 10 && totals.most.notices >= notices.min(3));
        }
    }
}

#[test]
fn too_many_liars_bring_up_refusal_7() {
    let totals = soak("overrun", 1, 300, 300).unwrap();
    println!("overrun: {totals}");
    assert!(totals.refused[7] * 2 > totals.runs);
    assert!(totals.failed.is_empty() && totals.broken_outside > 0);
}

#[test]
fn damaged_schedules_keep_the_promises() {
    let totals = soak("damaged", 1, 500, 300).unwrap();
    println!("damaged: {totals}");
    assert!(totals.failed.is_empty(), "{:?}", totals.failed);
    assert!(totals.refused[8] * 10 > totals.runs * 9 && totals.refused[2] > 0);
    assert!(totals.refused[10] > 30 && totals.refused[11] > 100);
}

/// What the engine's tables show is what the definitions say.
fn agrees(run: &Run, statements: &[Statement]) {
    let ring = run.ring.as_ref().unwrap();
    let fast = Evidence::of(ring.initial, &ring.senders, statements);
    let slow = Definition::new(ring.initial, &ring.senders, statements);
    assert_eq!(fast.wished, slow.wished());
    same(&fast.candidates, &slow.all_candidates());
    same(&fast.tops, slow.tops());
    assert_eq!(fast.sealed.len(), slow.sealed_histories().len());
    assert!(fast.sealed.iter().all(|history| slow.is_sealed(history)));
    assert!(fast.candidates.iter().all(|view| fast.skips(*view) == slow.is_skipped(*view)));
    assert!(fast.conflict() || fast.greatest().copied() == slow.greatest());
    let stores = slow.stores();
    for (notice, known) in (0..).zip(&fast.notices) {
        let payloads = |quorums: &[Quorum]| quorums.iter().map(|quorum| quorum.payload).collect::<Vec<_>>();
        same(&payloads(&known.certificates), &slow.certificates(notice));
        let mut stored: Vec<u64> = stores.iter().filter(|store| store.notice == notice).map(|store| store.payload).collect();
        stored.sort_unstable();
        stored.dedup();
        same(&payloads(&known.stored), &stored);
    }
    for Statement { origin, body } in statements {
        if let Body::Report(report) = body {
            assert_eq!(fast.counts(*origin, report), slow.counts(*origin, report));
        }
    }
}

fn same<T: Copy + Ord + std::fmt::Debug>(one: &[T], other: &[T]) {
    let (mut one, mut other) = (one.to_vec(), other.to_vec());
    one.sort_unstable();
    other.sort_unstable();
    assert_eq!(one, other);
}

#[test]
fn the_tables_agree_with_the_definitions() {
    for style in RANDOM.iter().chain(LIMITS) {
        let seeds = if RANDOM.contains(style) { 60 } else { 2 };
        for seed in 0..seeds {
            let run = Run::of::<Document>(&schedule(style, 1_000 + seed, 300).unwrap());
            if run.ring.is_some() {
                agrees(&run, &run.statements);
                run.records.iter().for_each(|record| agrees(&run, record));
            }
        }
    }
}

/// Whether rule 2 applies to who starts anew on the record, if it has no report to sign before, and what it is bound to then.
fn rule_2(ring: &Ring, k: u8, record: &[Statement]) -> Option<(View, bool, Vec<Binding>)> {
    let shown = Definition::new(ring.initial, &ring.senders, record);
    let greatest = shown.greatest()?;
    let reported = |at: View| {
        let on = |body: &Body| matches!(body, Body::Report(report) if report.at == at);
        record.iter().any(|statement| statement.origin == k && on(&statement.body))
    };
    let top = greatest.top();
    let owes = |view: &View| view.has_member(k) && !reported(*view);
    if top == ring.initial || !top.has_member(k) || greatest.below_top().iter().any(owes) {
        return None;
    }
    let needed: Vec<View> = greatest.below_top().iter().copied().filter(|view| !shown.is_skipped(*view)).collect();
    let mut bindings = vec![Binding::Unbound; ring.senders.len()];
    for report in needed.iter().flat_map(|view| shown.counted(*view)) {
        bindings.iter_mut().zip(&*report.told).for_each(|(binding, told)| *binding = binding.join(told.binding));
    }
    Some((top, needed.iter().all(|view| shown.is_reported(*view)), bindings))
}

#[test]
fn who_starts_anew_on_a_record_enters_as_defined() {
    let (mut entered, mut waited) = (0, 0);
    let runs = (0..40).map(|seed| ("skips", seed)).chain((0..8).flat_map(|seed| [("honest", seed), ("liars", seed), ("attack", seed)]));
    for (style, seed) in runs {
        let run = Run::of::<Document>(&schedule(style, 5_000 + seed, 400).unwrap());
        let ring = run.ring.as_ref().unwrap();
        for (k, record) in (0..).zip(&run.records) {
            for length in [record.len() * 3 / 4, record.len() * 7 / 8, record.len()] {
                let Some((top, due, bindings)) = rule_2(ring, k, &record[..length]) else { continue };
                let mut anew = Controller::<Document>::new(k);
                anew.setup(ring.initial.members(), &ring.senders, &ring.windows);
                record[..length].iter().for_each(|statement| assert_eq!(anew.add(statement), Answer::Taken));
                assert_eq!(anew.turn(0) == Answer::Entered(top), due, "{style} {seed}, controller {k}, {length} statements");
                let bound: Vec<Binding> = anew.notices().iter().map(|notice| notice.binding).collect();
                assert!(!due || bound == bindings, "{style} {seed}, controller {k}, {length} statements");
                *(if due { &mut entered } else { &mut waited }) += 1;
            }
        }
    }
    println!("entered {entered}, waited {waited}");
    assert!(entered > 200 && waited > 50);
}

#[test]
fn a_longer_list_shows_all_that_its_prefix_shows() {
    for style in ["liars", "attack", "skips", "overrun"] {
        for seed in 0..15 {
            let run = Run::of::<Document>(&schedule(style, seed, 300).unwrap());
            let ring = run.ring.unwrap();
            let mut last = Evidence::of(ring.initial, &ring.senders, &[]);
            for length in 1..=run.statements.len() {
                let next = Evidence::of(ring.initial, &ring.senders, &run.statements[..length]);
                assert!(last.wished.within(next.wished));
                assert!(last.candidates.iter().all(|view| next.candidates.contains(view)));
                assert!(last.sealed.iter().all(|history| next.sealed.contains(history)));
                assert!(last.candidates.iter().all(|view| next.skips(*view) || !last.skips(*view)));
                for (earlier, later) in last.notices.iter().zip(&next.notices) {
                    assert!(earlier.certificates.iter().all(|acks| later.acks(acks.payload).is_some()));
                }
                last = next;
            }
        }
    }
}

fn rows(style: &str, seed: u64) -> String {
    String::from_utf8(run(&schedule(style, seed, 0).unwrap())).unwrap()
}

#[test]
fn each_limit_is_met() {
    for seed in 0..4 {
        for (style, needle, expected) in [
            ("pool-512", "refused,4", true),
            ("pool-513", "refused,4", true),
            ("record-512", "signed,511", true),
            ("record-513", "refused,4", true),
            ("record-513", "signed", false),
            ("candidates-15", "refused", false),
            ("candidates-16", "refused", false),
            ("candidates-17", "refused,6", true),
            ("candidates-20", "refused,6", true),
            ("candidates-20", "refused,7", false),
            ("incomparable", "refused,7", true),
            ("two-sealed", "refused,7", true),
            ("two-certificates", "refused,7", true),
            ("seven-before-six", "refused,6", true),
            ("seven-before-six", "refused,7", true),
            ("bytes-65536", "delivered,9", true),
            ("no-newline", ",16,refused,8", true),
            ("everyone-leaves", "entered,000f000f", false),
            ("count-0", "1,16,refused,1", true),
            ("count-64", ",delivered,163", true),
            ("count-65", ",refused,1", true),
            ("count-255", ",refused,1", true),
            ("unknown-notice", ",refused,9", true),
            ("groups", ",16,refused,2", true),
            ("one-sender", ",delivered,20", true),
            ("one-sender", ",delivered,21", true),
            ("mixed-notices", ",delivered,7", true),
            ("mixed-notices", ",refused", false),
            ("certificates-apart", ",delivered,4", true),
            ("certificates-apart", ",refused,7", true),
            ("leave-waits", ",delivered,30", true),
            ("leave-waits", ",delivered,31", true),
            ("notices-64", ",signed,511", true),
            ("skipped-14", ",15,entered,ffff0000", true),
            ("skipped-14", ",0,entered,ffff0000", true),
            ("windows-8", ",7,signed,7", true),
            ("windows-8", ",refused,10", false),
            ("windows-8", ",15,signed,8", true),
            ("windows-9", "1,0,refused,10", true),
            ("windows-9", "4,0,refused,1\n", true),
            ("windows-many", ",1,signed,0", true),
            ("bad-windows", ",5,refused,10", true),
            ("bad-windows", ",5,refused,1\n", true),
            ("bad-windows", ",16,refused,1\n", true),
            ("bad-windows", ",16,refused,10", false),
            ("bad-minutes", "1,0,refused,8", true),
            ("bad-minutes", ",3,refused,11", true),
            ("bad-minutes", ",3,refused,7", true),
            ("bad-minutes", ",4,refused,6", true),
            ("leave-in-window", ",delivered,40", true),
            ("leave-in-window", ",2,entered,00070003", true),
            ("overlapping-windows", ",4,signed", true),
            ("overlapping-windows", ",10,signed", true),
            ("overlapping-windows", ",0,quiet,0", true),
            ("overlapping-windows", ",14,quiet,0", true),
            ("overlapping-windows", ",15,quiet,0", true),
            ("tops-apart", ",refused,7", true),
            ("tops-apart", ",delivered,", false),
            ("waits", ",refused,", false),
            ("waits", ",entered,", false),
        ] {
            assert_eq!(rows(style, seed).contains(needle), expected, "{style} {seed} {needle}");
        }
        assert_eq!(rows("bytes-65537", seed), "line,who,answer,value\n0,16,refused,8\n");
        assert_eq!(rows("empty-lines", seed).lines().count(), 65_516 + (seed as usize % 2));
        assert_eq!(schedule("bytes-65536", seed, 0).unwrap().len(), 65_536);
        assert_eq!(schedule("bytes-65537", seed, 0).unwrap().len(), 65_537);
    }
}

#[test]
fn a_line_of_more_windows_than_any_other_is_refused_or_does_not_read() {
    let first = |seed: u64| rows("windows-many", seed).lines().nth(1).map(str::to_string);
    assert!((0..16).all(|seed| schedule("windows-many", seed, 0).unwrap().split(|&byte| byte == b'\n').next().unwrap().len() > 65_000));
    for expected in ["1,0,refused,10", "1,16,refused,8"] {
        assert!((0..16).any(|seed| first(seed).as_deref() == Some(expected)), "{expected}");
    }
}

#[test]
fn when_everyone_leaves_one_by_one_the_last_view_keeps_a_member() {
    assert!((0..8).any(|seed| rows("everyone-leaves", seed).contains("left")));
    assert!((0..8).any(|seed| rows("everyone-leaves", seed).contains("delivered,11")));
}

#[test]
fn a_seed_gives_one_schedule() {
    for style in RANDOM.iter().chain(LIMITS) {
        assert_eq!(schedule(style, 7, 200), schedule(style, 7, 200), "{style}");
    }
    assert_eq!(schedule("nothing", 7, 200), None);
}
