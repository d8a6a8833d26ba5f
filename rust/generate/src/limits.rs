//! A schedule for each limit, by name.

use reference::bench::SCHEDULE_LIMIT;
use reference::{Body, History, Record, Set, Statement, View};

use crate::clock::Clock;
use crate::drive::{drive, Plan};
use crate::maker::Maker;
use crate::notices;
use crate::signers;
use crate::styles::JOINS;
use crate::windows;

/// The names of the limits.
pub const LIMITS: &[&str] = &[
    "pool-512", "pool-513", "record-512", "record-513", "ring-512", "candidates-15", "candidates-16", "candidates-17", "candidates-20",
    "incomparable", "two-sealed", "two-certificates", "seven-before-six", "bytes-65536", "bytes-65537", "empty-lines", "no-newline",
    "everyone-leaves", "count-0", "count-64", "count-65", "count-255", "unknown-notice", "groups", "one-sender", "mixed-notices",
    "certificates-apart", "leave-waits", "notices-64", "skipped-14", "windows-8", "windows-9", "windows-many", "bad-windows",
    "bad-minutes", "leave-in-window", "overlapping-windows", "tops-apart", "waits",
];

/// More lines than any schedule has.
const ENOUGH: usize = SCHEDULE_LIMIT;

pub fn limit(name: &str, seed: u64) -> Option<Vec<u8>> {
    let mut maker: Maker = Maker::new(seed, ENOUGH, None, Clock::still());
    match name {
        "pool-512" => filled(&mut maker, Record::LIMIT),
        "pool-513" => filled(&mut maker, Record::LIMIT + 1),
        "record-512" => record(&mut maker, Record::LIMIT - 1),
        "record-513" => record(&mut maker, Record::LIMIT),
        "ring-512" => long_life(&mut maker),
        "candidates-15" => candidates(&mut maker, 15),
        "candidates-16" => candidates(&mut maker, 16),
        "candidates-17" => candidates(&mut maker, 17),
        "candidates-20" => candidates(&mut maker, 20),
        "incomparable" => incomparable(&mut maker),
        "two-sealed" => two_sealed(&mut maker),
        "two-certificates" => two_certificates(&mut maker),
        "seven-before-six" => seven_before_six(&mut maker),
        "bytes-65536" => return Some(padded(maker, SCHEDULE_LIMIT)),
        "bytes-65537" => return Some(padded(maker, SCHEDULE_LIMIT + 1)),
        "empty-lines" => return Some(empty_lines(seed)),
        "no-newline" => return Some(no_newline(maker)),
        "everyone-leaves" => everyone_leaves(&mut maker),
        "count-0" => notices::count(&mut maker, 0),
        "count-64" => notices::count(&mut maker, 64),
        "count-65" => notices::count(&mut maker, 65),
        "count-255" => notices::count(&mut maker, 255),
        "unknown-notice" => notices::unknown(&mut maker),
        "groups" => notices::groups(&mut maker),
        "one-sender" => notices::one_sender(&mut maker),
        "mixed-notices" => notices::mixed(&mut maker),
        "certificates-apart" => notices::certificates_apart(&mut maker),
        "leave-waits" => notices::leave_waits(&mut maker),
        "notices-64" => notices::all(&mut maker),
        "skipped-14" => skipped(&mut maker),
        "windows-8" => windows::eight(&mut maker),
        "windows-9" => windows::nine(&mut maker),
        "windows-many" => windows::many(&mut maker),
        "bad-windows" => windows::bad(&mut maker),
        "bad-minutes" => windows::bad_minutes(&mut maker),
        "leave-in-window" => windows::leave_in_window(&mut maker),
        "overlapping-windows" => windows::overlapping(&mut maker),
        "tops-apart" => signers::tops_apart(&mut maker),
        "waits" => signers::waits(&mut maker),
        _ => return None,
    }
    Some(maker.finish())
}

/// Distinct statements that decide nothing: prepares of a controller that is not the sender.
fn noise(maker: &mut Maker, origin: u8, upto: usize) {
    let mut payload = maker.rng.draw() >> 40;
    while maker.bench.pool().len() < upto && !maker.is_done() {
        payload += 1;
        maker.lie(&Statement::new(origin, Body::Prepare { notice: 0, payload }));
    }
}

/// A pool filled by lies, and then turns and lies that need one more place.
fn filled(maker: &mut Maker, statements: usize) {
    maker.setup(0x0007, &[0], 0x0200);
    maker.send(0, 0, 7);
    maker.turns(0, 1);
    noise(maker, 9, statements.min(Record::LIMIT));
    if statements > Record::LIMIT {
        maker.lie(&Statement::new(9, Body::Join));
        maker.lie(&Statement::new(9, Body::Join));
        maker.turn(0);
        maker.join(5);
        maker.turn(5);
    }
    for k in [0, 1] {
        maker.all(k);
        maker.turn(k);
    }
}

/// A record of controller 0 that is filled, and then a turn that would sign.
fn record(maker: &mut Maker, statements: usize) {
    maker.setup(0x0001, &[0], 0x0200);
    noise(maker, 9, statements);
    maker.send(0, 0, 7);
    if maker.rng.chance(50) {
        maker.all(0);
    } else {
        for number in 0..statements {
            maker.give(0, number);
        }
    }
    for _ in 0..3 {
        maker.turn(0);
    }
    maker.all(0);
    maker.turn(0);
    maker.give(0, Record::LIMIT - 1);
    maker.give(0, Record::LIMIT);
}

/// A ring that lives until its statements fill the pool.
fn long_life(maker: &mut Maker) {
    let members = maker.rng.subset(!0, 7);
    let senders = vec![maker.rng.member(members).unwrap_or(0)];
    let plan = Plan { members, senders, faulty: 0, lies: 0, rounds: 70, joins: JOINS, careful: true, split: 0, payloads: vec![5] };
    drive(maker, plan);
}

/// The view in which the first `count` controllers have joined.
pub fn rising(count: u32) -> View {
    View::new(((1u32 << count) - 1) as Set, 0)
}

/// The lone faulty member 0 agrees on a chain of views up to the given number of candidates, the last one wished.
fn chain(maker: &mut Maker, candidates: usize) -> Vec<View> {
    maker.setup(0x0001, &[0], 0xffff);
    choose(maker, candidates)
}

/// The same in a ring of 0 alone that is set up.
pub fn choose(maker: &mut Maker, candidates: usize) -> Vec<View> {
    let leaving = (1..8).map(|count| View::new(0xffff, rising(count).joined() << 1));
    let views: Vec<View> = (1..=16).map(rising).chain(leaving).take(candidates).collect();
    for &view in &views[1..] {
        let last = maker.evidence().wished;
        let joins = view.joined() & !last.joined();
        let body = if joins != 0 { Body::Join } else { Body::Leave };
        let origin = (joins | view.left() & !last.left()).trailing_zeros() as u8;
        maker.lie(&Statement::new(origin, body));
        maker.lie(&Statement::new(0, Body::AgreeView { at: rising(1), view }));
    }
    views
}

/// Everybody gets everything and takes turns.
pub fn settle(maker: &mut Maker, rounds: usize) {
    for _ in 0..rounds {
        for k in 0..16 {
            maker.all(k);
            maker.turns(k, 3);
        }
    }
}

fn candidates(maker: &mut Maker, count: usize) {
    chain(maker, count);
    settle(maker, 3);
}

fn incomparable(maker: &mut Maker) {
    maker.setup(0x0001, &[0], 0xffff);
    for origin in [1, 2] {
        maker.lie(&Statement::new(origin, Body::Join));
        let view = View::new(1 | 1 << origin, 0);
        maker.lie(&Statement::new(0, Body::AgreeView { at: rising(1), view }));
        settle(maker, 1);
    }
}

fn two_sealed(maker: &mut Maker) {
    let views = chain(maker, 4);
    for middle in [1, 2] {
        let history = History::new(&[views[0], views[middle], views[3]]).expect("a part of a chain");
        maker.lie(&Statement::new(0, Body::AgreeHistory { at: views[0], history }));
        settle(maker, 1);
    }
}

/// A history of sixteen views, of which a shorter one has the first and the last alone; who is a member of the last alone enters at once.
fn skipped(maker: &mut Maker) {
    let views = chain(maker, 16);
    for listed in [vec![views[0], views[15]], views.clone()] {
        let history = History::new(&listed).expect("a part of a chain");
        maker.lie(&Statement::new(0, Body::AgreeHistory { at: views[0], history }));
    }
    settle(maker, 7);
}

fn two_certificates(maker: &mut Maker) {
    maker.setup(0x0001, &[0], 0xffff);
    for payload in [3, 4] {
        maker.lie(&Statement::new(0, Body::Prepare { notice: 0, payload }));
        maker.lie(&Statement::new(0, Body::Ack { at: rising(1), notice: 0, payload }));
        settle(maker, 1);
    }
}

fn seven_before_six(maker: &mut Maker) {
    chain(maker, 20);
    maker.all(3);
    maker.turn(3);
    maker.lie(&Statement::new(0, Body::AgreeView { at: rising(1), view: View::new(5, 0) }));
    settle(maker, 1);
}

/// An honest run, padded with one long unreadable line to the length.
fn padded(mut maker: Maker, length: usize) -> Vec<u8> {
    maker.setup(0x0003, &[1], 0);
    maker.send(1, 0, 9);
    (0..5).for_each(|_| settle(&mut maker, 1));
    let mut schedule = maker.finish();
    schedule.resize(length - 1, b'x');
    schedule.push(b'\n');
    schedule
}

/// 65,515 empty lines, alone or with the 21 bytes of a setup that its missing newline makes unreadable.
fn empty_lines(seed: u64) -> Vec<u8> {
    let mut schedule = vec![b'\n'; 65_515];
    if seed % 2 == 1 {
        schedule.extend_from_slice(b"setup,0001,1,0,0000,0");
    }
    schedule
}

fn no_newline(mut maker: Maker) -> Vec<u8> {
    maker.setup(0x0001, &[0], 0);
    maker.send(0, 0, 7);
    maker.turns(0, 5);
    maker.turn(0);
    let mut schedule = maker.finish();
    schedule.pop();
    schedule
}

/// All members leave, one by one or at once; the last view keeps its members, because one without any has no quorum.
fn everyone_leaves(maker: &mut Maker) {
    maker.setup(0x000f, &[2], 0);
    let at_once = maker.rng.chance(50);
    if maker.rng.chance(50) {
        maker.send(2, 0, 11);
    }
    settle(maker, 3);
    for k in 0..4 {
        maker.leave(k);
        if !at_once {
            settle(maker, 3);
        }
    }
    settle(maker, 6);
}
