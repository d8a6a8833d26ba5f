//! The styles in which schedules are made at random.

use reference::{Body, Outcome, Rules, Set, Statement, View};

use crate::clock::Clock;
use crate::drive::{drive, Plan};
use crate::maker::Maker;
use crate::rng::Rng;

/// What `joins` of a plan mostly is.
pub const JOINS: usize = 75;

fn plan<R: Rules>(maker: &mut Maker<R>, members: usize, faulty: usize) -> Plan {
    let notices = maker.notices();
    let rng = &mut maker.rng;
    let members = rng.subset(!0, members);
    let faulty = rng.subset(members, faulty);
    let sender = |rng: &mut Rng| match rng.below(10) {
        0 => rng.below(16) as u8,
        1..=4 if faulty != 0 => rng.member(faulty).unwrap_or(0),
        _ => rng.member(members).unwrap_or(0),
    };
    let first = sender(rng);
    let one_sender = rng.chance(25);
    let others: Vec<u8> = (1..notices).map(|_| if one_sender { first } else { sender(rng) }).collect();
    let senders = [vec![first], others].concat();
    let split = if rng.chance(40) { rng.draw() as Set } else { 0 };
    let payloads = payloads(rng, notices);
    Plan { members, senders, faulty, lies: 0, rounds: 25, joins: JOINS, careful: true, split, payloads }
}

/// What the notices are sent with: the same, numbers in a row, or any.
fn payloads(rng: &mut Rng, notices: usize) -> Vec<u64> {
    let first = if rng.chance(10) { 0 } else { rng.draw() >> rng.below(64) };
    let way = rng.below(3);
    let later = |rng: &mut Rng, notice: usize| match way {
        0 => first,
        1 => first.wrapping_add(notice as u64),
        _ => rng.draw() >> rng.below(64),
    };
    (0..notices).map(|notice| if notice == 0 { first } else { later(rng, notice) }).collect()
}

/// Nobody lies; joins, leaves and notices come in between.
pub fn honest<R: Rules>(mut maker: Maker<R>) -> Vec<u8> {
    let members = maker.rng.between(1, 6);
    let mut plan = plan(&mut maker, members, 0);
    plan.rounds = maker.rng.between(5, 60);
    drive(&mut maker, plan);
    maker.finish()
}

/// As many liars as the initial view bears.
pub fn liars<R: Rules>(mut maker: Maker<R>) -> Vec<u8> {
    let borne = if maker.rng.chance(85) { 1 } else { 2 };
    let members = 3 * borne + maker.rng.between(1, 2);
    let mut plan = plan(&mut maker, members, borne);
    plan.lies = maker.rng.between(3, 15);
    plan.rounds = maker.rng.between(5, 50);
    drive(&mut maker, plan);
    maker.finish()
}

/// A ring with windows, in which many ask to leave and wait; mostly nobody lies.
pub fn leavers<R: Rules>(mut maker: Maker<R>) -> Vec<u8> {
    maker.clock = Clock::with_windows(maker.rng.draw());
    let lying = usize::from(maker.rng.chance(30));
    let members = maker.rng.between(4, 7);
    let mut plan = plan(&mut maker, members, lying);
    plan.lies = 10 * lying;
    plan.rounds = maker.rng.between(20, 60);
    plan.joins = 45;
    drive(&mut maker, plan);
    maker.finish()
}

/// More liars than a view bears; the last lines bring up refusal 7.
pub fn overrun<R: Rules>(mut maker: Maker<R>) -> Vec<u8> {
    let draw = maker.rng.below(3);
    if draw == 0 {
        split_ring(&mut maker);
        return maker.finish();
    }
    let members = maker.rng.between(2, 6);
    let most = if draw == 1 { members - (members - 1) / 3 } else { (members - 1) / 3 + 1 };
    let faulty = maker.rng.between(most, members);
    let mut plan = plan(&mut maker, members, faulty);
    plan.faulty |= maker.rng.draw() as Set & !plan.members;
    plan.lies = maker.rng.between(5, 30);
    plan.careful = false;
    maker.reserve(60);
    drive(&mut maker, plan.clone());
    maker.release(60);
    contradict(&mut maker, &plan);
    maker.finish()
}

/// Members 0 to 3 with 2 and 3 faulty: 0 and 1 are led to deliver different payloads, and then hear of each other.
fn split_ring<R: Rules>(maker: &mut Maker<R>) {
    let payload = maker.rng.draw() >> maker.rng.below(64);
    let notices = maker.notices();
    let notice = maker.rng.below(notices) as u8;
    let at = View::new(0xf, 0);
    maker.setup(0xf, &vec![3; notices], 0xc);
    for (follower, payload) in [(0, payload), (1, !payload)] {
        let ack = || Body::Ack { at, notice, payload };
        let store = || Body::Store { at, notice, payload };
        for (liar, body) in [(3, Body::Prepare { notice, payload }), (2, ack()), (3, ack()), (2, store()), (3, store())] {
            if let Outcome::Taken(number) = maker.lie(&Statement::new(liar, body)) {
                maker.give(follower, number as usize);
            }
        }
        maker.turns(follower, 4);
    }
    for follower in [0, 1] {
        maker.all(follower);
        maker.turns(follower, 3);
    }
}

/// Liars that are a quorum by themselves choose two views, or acknowledge two payloads of one notice, and everybody hears it.
fn contradict<R: Rules>(maker: &mut Maker<R>, plan: &Plan) {
    let at = View::new(plan.members, 0);
    let liars: Vec<u8> = (0..16).filter(|k| (plan.members & plan.faulty) >> k & 1 == 1).collect();
    let joiners: Vec<u8> = (0..16).filter(|k| (plan.members | !plan.faulty) >> k & 1 == 0).collect();
    let forks = joiners.len() >= 2 && maker.rng.chance(50);
    let is_liar = |sender: &u8| plan.faulty >> sender & 1 == 1;
    let notice = plan.senders.iter().position(is_liar).unwrap_or(0);
    for turn in 0..2 {
        let view = View::new(plan.members | joiners.get(turn).map_or(0, |k| 1 << k), 0);
        let payload = plan.payloads[notice].wrapping_add(turn as u64);
        let origin = if forks { joiners[turn] } else { plan.senders[notice] };
        let notice = notice as u8;
        let first = if forks { Body::Join } else { Body::Prepare { notice, payload } };
        maker.lie(&Statement::new(origin, first));
        let vote = if forks { Body::AgreeView { at, view } } else { Body::Ack { at, notice, payload } };
        liars.iter().for_each(|&liar| {
            maker.lie(&Statement::new(liar, vote.clone()));
        });
    }
    for k in (0..16).filter(|k| plan.members >> k & 1 == 1) {
        maker.all(k);
        maker.turn(k);
    }
}

/// A schedule of another style with damage done to its text.
pub fn damaged<R: Rules>(mut maker: Maker<R>) -> Vec<u8> {
    let rng = &mut Rng::new(maker.rng.draw());
    let mut schedule = match rng.below(3) {
        0 => honest(maker),
        1 => liars(maker),
        _ => overrun(maker),
    };
    // The setup line is mostly left alone, so that the damage is met by a ring that runs.
    let setup = schedule.iter().position(|&byte| byte == b'\n').map_or(0, |end| end + 1);
    let spared = if rng.chance(80) { setup } else { 0 };
    for _ in 0..rng.between(1, 30) {
        let place = spared + rng.below((schedule.len() - spared).max(1));
        damage(rng, &mut schedule, place);
    }
    if rng.chance(40) {
        // Before the setup, so that the ring still runs.
        let stray = stray_setup(rng, &schedule[..setup]);
        schedule.splice(0..0, stray);
    }
    if rng.chance(50) {
        schedule.pop();
    }
    schedule
}

/// The setup line with windows that are refused or do not read: too many, numbers out of range, one missing or one too many.
fn stray_setup(rng: &mut Rng, setup: &[u8]) -> Vec<u8> {
    let text = String::from_utf8_lossy(setup);
    let fields: Vec<&str> = text.trim_end().split(',').collect();
    let senders: usize = fields.get(2).and_then(|count| count.parse().ok()).unwrap_or(0);
    let head = fields[..fields.len().min(senders + 4)].join(",");
    let count = [1, 8, 9, 300][rng.below(4)];
    let mut numbers: Vec<String> = (0..count).flat_map(|_| ["2", "480", "540"]).map(str::to_string).collect();
    let place = rng.below(numbers.len());
    let mut told = count;
    match rng.below(6) {
        0 => drop(numbers.remove(place)),
        1 => numbers.insert(place, "0".into()),
        2 => numbers[place] = "65535".into(),
        3 => numbers[place] = "65536".into(),
        4 => told = [65_535, 65_536, count + 1][rng.below(3)],
        _ => {}
    }
    format!("{head},{told},{}\n", numbers.join(",")).into_bytes()
}

const NUMBERS: [&str; 18] = [
    "16", "255", "256", "00", "-1", "+1", "512", "1440", "1441", "10079", "10080", "65535", "65536", "18446744073709551615",
    "18446744073709551616", "", "1e3", "0x1",
];

fn damage(rng: &mut Rng, schedule: &mut Vec<u8>, place: usize) {
    let place = place.min(schedule.len());
    let end = (place + rng.between(1, 12)).min(schedule.len());
    match rng.below(9) {
        0 => drop(schedule.drain(place..end)),
        1 => schedule.insert(place, b'\r'),
        2 => schedule.insert(place, 0),
        3 => schedule.insert(place, b'\n'),
        4 => schedule.insert(place, b','),
        5 => {
            let number = NUMBERS[rng.below(NUMBERS.len())].as_bytes();
            let comma = schedule[place..].iter().position(|&byte| byte == b',').map_or(place, |at| place + at + 1);
            let stop = schedule[comma..].iter().position(|byte| b",\n".contains(byte)).map_or(comma, |at| comma + at);
            schedule.splice(comma..stop, number.iter().copied());
        }
        6 => {
            let copy: Vec<u8> = schedule[place..end].to_vec();
            schedule.splice(place..place, copy);
        }
        _ => {
            if let Some(byte) = schedule.get_mut(place) {
                *byte = if rng.chance(50) { rng.draw() as u8 } else { *byte ^ 1 << rng.below(8) };
            }
        }
    }
}
