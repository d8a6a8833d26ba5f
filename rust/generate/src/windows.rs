//! A schedule for each limit that is about windows and minutes.

use reference::bench::SCHEDULE_LIMIT;
use reference::{Body, Statement, View, Window, WEEK, WINDOWS};

use crate::limits::{rising, settle};
use crate::maker::{written, Maker};

const DAY: u16 = 1_440;

/// The minute of the week in which a window begins.
fn first(window: Window) -> u16 {
    DAY * window.weekday + window.first
}

/// The first minute of the week after a window.
fn end(window: Window) -> u16 {
    (DAY * window.weekday + window.end) % WEEK
}

/// A window of up to an hour that does not begin with its day.
fn short(maker: &mut Maker) -> Window {
    let first = maker.rng.between(1, 1_300) as u16;
    Window::new(maker.rng.below(7) as u16, first, first + maker.rng.between(1, 60) as u16)
}

/// Eight windows, one on each day and the last minute of the week. For each one controller asks to leave, waits in the minute before and at the end, and
/// signs in the first minute.
pub fn eight(maker: &mut Maker) {
    let mut windows: Vec<Window> = (0..7).map(|weekday| Window { weekday, ..short(maker) }).collect();
    windows.push(Window::new(6, DAY - 1, DAY));
    maker.setup_with(0xffff, &[0], 0, &windows);
    for (k, &window) in (0..).zip(&windows) {
        maker.leave(k);
        for minute in [(first(window) + WEEK - 1) % WEEK, end(window), first(window)] {
            maker.turn_in(k, minute);
        }
    }
    maker.setup_with(0xffff, &[0], 0, &windows[..7]);
    maker.leave(15);
    maker.turn_in(15, 0);
    maker.turn_in(15, WEEK - 1);
}

/// Nine windows before a setup of the first eight, and after it; the ninth counts for nothing.
pub fn nine(maker: &mut Maker) {
    let windows: Vec<Window> = (0..=WINDOWS).map(|_| short(maker)).collect();
    maker.setup_with(0x0003, &[0], 0, &windows);
    maker.turn(0);
    maker.setup_with(0x0003, &[1], 0, &windows[..WINDOWS]);
    maker.setup_with(0x0003, &[0], 0, &windows);
    for k in [0, 1] {
        maker.leave(k);
        for &window in windows.iter().rev() {
            maker.turn_in(k, first(window));
        }
    }
}

/// A setup line of as many windows as a schedule has room for beside a short run, with all its numbers or with the last one spoiled; then the short run.
pub fn many(maker: &mut Maker) {
    let spoiled = ["", ",1", ",65536", ",01"][maker.rng.below(4)];
    let room = SCHEDULE_LIMIT - 200;
    let count = (room - "setup,0003,1,0,0000,00000".len() - spoiled.len()) / ",0,0,1".len();
    let whole = written(&vec![Window::new(0, 0, 1); count]);
    let cut = if spoiled.len() > 2 { whole.len() - 2 } else { whole.len() };
    maker.line(format!("setup,0003,1,0,0000{}{spoiled}", &whole[..cut]).as_bytes());
    maker.setup_with(0x0003, &[0], 0, &[Window::new(0, 0, 1)]);
    maker.leave(1);
    maker.turn_in(1, 1);
    maker.turn_in(1, 0);
}

/// Each way to get 10, each number at its limit and beyond; with it what gets 1 or does not read.
pub fn bad(maker: &mut Maker) {
    let good = short(maker);
    let bad = [
        Window { weekday: 7, ..good },
        Window { weekday: u16::MAX, ..good },
        Window { first: good.end, ..good },
        Window { first: good.end + 1, ..good },
        Window { end: DAY + 1, ..good },
        Window { end: u16::MAX, ..good },
        Window::new(6, DAY, DAY),
        Window::new(6, DAY, DAY + 1),
        Window::new(0, 0, 0),
        Window::new(0, u16::MAX, 0),
    ];
    for window in bad {
        let mut windows = vec![good; maker.rng.below(WINDOWS)];
        windows.insert(maker.rng.below(windows.len() + 1), window);
        maker.setup_with(0x0003, &[5], 0, &windows);
        maker.setup_with(0x0000, &[5], 0, &windows);
        maker.setup_with(0x0003, &[16], 0, &windows);
        maker.setup_with(0x0003, &[], 0, &windows);
    }
    for stray in ["", ",", ",1", ",1,0,0", ",1,0,0,1,", ",1,0,0,65536", ",2,0,0,1", ",0,0,0,1", ",65535,0,0,1", ",65536"] {
        maker.line(format!("setup,0003,1,5,0000{stray}").as_bytes());
    }
    maker.turn(0);
    maker.setup_with(0x0003, &[0], 0, &[Window::new(6, 0, DAY), good]);
    for window in bad {
        maker.setup_with(0x0003, &[5], 0, &[window]);
    }
    maker.leave(0);
    maker.turn_in(0, first(good));
}

/// Turns of `k` in minutes that are none of a week, and then in the last that is one.
fn beyond(maker: &mut Maker, k: u8) {
    for minute in [WEEK, u16::MAX, WEEK - 1] {
        maker.turn_in(k, minute);
    }
}

/// Minutes that are none of a week: before setup, where there is something to do and where there is nothing, with a conflict, with too many candidates.
pub fn bad_minutes(maker: &mut Maker) {
    beyond(maker, 0);
    let windows = if maker.rng.chance(50) { vec![short(maker)] } else { Vec::new() };
    maker.setup_with(0x0001, &[0], 0xffff, &windows);
    maker.line(b"turn,0,65536");
    maker.send(0, 0, 7);
    (0..5).for_each(|_| beyond(maker, 0));
    maker.lie(&Statement::new(0, Body::Prepare { notice: 0, payload: 8 }));
    maker.lie(&Statement::new(0, Body::Ack { at: rising(1), notice: 0, payload: 8 }));
    maker.all(3);
    beyond(maker, 3);
    let certificates = maker.bench.pool().len();
    for origin in 1..16 {
        maker.lie(&Statement::new(origin, Body::Join));
        maker.lie(&Statement::new(0, Body::AgreeView { at: rising(1), view: rising(u32::from(origin) + 1) }));
    }
    maker.lie(&Statement::new(1, Body::Leave));
    maker.lie(&Statement::new(0, Body::AgreeView { at: rising(1), view: View::new(0xffff, 2) }));
    for number in certificates..maker.bench.pool().len() {
        maker.give(4, number);
    }
    beyond(maker, 4);
}

/// Two members leave in one window: one that keeps nothing, and one whose notice is prepared and delivered before it, in it or after it.
pub fn leave_in_window(maker: &mut Maker) {
    let window = Window { weekday: maker.rng.below(7) as u16, first: 480, end: 540 };
    let (start, stop) = (first(window), end(window));
    maker.setup_with(0x0007, &[1], 0, &[window]);
    maker.leave(0);
    maker.turn_in(0, start - 1);
    maker.send(1, 0, 40);
    let way = maker.rng.below(3);
    let delivered = [start - 10, start + 10, stop + 10][way];
    maker.turn_in(1, start - 20);
    maker.turn_in(1, start - 20);
    maker.leave(1);
    maker.clock.set(delivered);
    settle(maker, 4);
    for minute in [start - 1, start, stop - 1, stop, start, start] {
        for k in [0, 1] {
            maker.turn_in(k, minute);
        }
    }
    settle(maker, 6);
}

/// Two windows that overlap, and one that has both; each of sixteen members leaves in a minute of its own.
pub fn overlapping(maker: &mut Maker) {
    let weekday = maker.rng.below(7) as u16;
    let mut windows = vec![Window::new(weekday, 600, 660), Window::new(weekday, 630, 720)];
    if maker.rng.chance(30) {
        windows.push(Window::new(weekday, 590, 730));
    }
    maker.setup_with(0xffff, &[0], 0, &windows);
    let minutes = [0, 589, 590, 599, 600, 629, 630, 645, 659, 660, 719, 720, 729, 730, 1_439, 645];
    for (k, minute) in (0..).zip(minutes) {
        maker.leave(k);
        let day = if k == 15 { (weekday + 1) % 7 } else { weekday };
        maker.turn_in(k, DAY * day + minute);
    }
}
