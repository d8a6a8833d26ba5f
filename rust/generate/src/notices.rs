//! A schedule for each limit that is about notices.

use reference::{Body, History, Report, Statement, Told, View, NOTICES};

use crate::limits::{rising, settle};
use crate::maker::Maker;

/// A setup of that many notices that is refused, for its count or for its senders, and then a ring of as many as there may be.
pub fn count(maker: &mut Maker, count: usize) {
    let least = if count <= NOTICES { 16 } else { 0 };
    let sender = maker.rng.between(least, 17) as u8;
    maker.setup(0x0003, &vec![sender; count], 0);
    maker.turn(0);
    let senders: Vec<u8> = (0..count.clamp(1, NOTICES)).map(|notice| notice as u8 % 2).collect();
    maker.setup(0x0003, &senders, 0);
    let last = senders.len() - 1;
    for notice in [last, 0, last / 2] {
        maker.send(notice as u8 % 2, notice as u8, 100 + notice as u64);
    }
    settle(maker, 3);
    maker.join(2);
    settle(maker, 4);
}

/// Statements and sends about notices that the setup lacks, and about the last one that it has.
pub fn unknown(maker: &mut Maker) {
    maker.line(b"lie,6,2,00000000,00000000,9,0,7,0,0,0");
    let notices = maker.rng.between(1, 5);
    maker.setup(0x0007, &vec![2; notices], 0x0004);
    for notice in [notices - 1, notices, 255, 256] {
        for k in [0, 2] {
            maker.line(format!("send,{k},{notice},7").as_bytes());
            maker.line(format!("lie,6,{k},00000000,00000000,{notice},0,7,0,0,0").as_bytes());
            maker.line(format!("lie,7,{k},00070000,00000000,{notice},0,7,0,0,0").as_bytes());
            maker.line(format!("lie,8,{k},00070000,00000000,{notice},0,7,0,0,0").as_bytes());
            maker.line(format!("lie,1,{k},00000000,00000000,{notice},0,0,0,0,0").as_bytes());
        }
    }
    settle(maker, 2);
}

fn unbound(at: View, groups: usize) -> Body {
    let history = History::new(&[at]).expect("a view with a member");
    Body::Report(Report { at, view: at, told: vec![Told::default(); groups].into(), history })
}

/// Reports with a group too few, too many and just as many as there are notices, before a setup and after it.
pub fn groups(maker: &mut Maker) {
    for groups in [1, 2] {
        maker.lie(&Statement::new(0, unbound(rising(1), groups)));
    }
    let notices = [1, 2, 5, NOTICES][maker.rng.below(4)];
    maker.setup(0x0001, &vec![0; notices], 0x0001);
    for groups in [notices - 1, notices, notices + 1, 2 * notices].into_iter().filter(|&groups| groups > 0) {
        maker.lie(&Statement::new(0, unbound(rising(1), groups)));
    }
    settle(maker, 2);
}

/// Two notices of one sender, the later one sent first.
pub fn one_sender(maker: &mut Maker) {
    maker.setup(0x0007, &[1, 1], 0);
    maker.send(1, 1, 21);
    if maker.rng.chance(50) {
        settle(maker, 3);
    }
    maker.send(1, 0, 20);
    settle(maker, 4);
}

/// A liar in a ring of four prepares, acks and stores of one notice what belongs to the other.
pub fn mixed(maker: &mut Maker) {
    maker.setup(0x000f, &[0, 3], 0x0008);
    let at = rising(4);
    maker.send(0, 0, 7);
    settle(maker, 1);
    for (notice, payload) in [(1, 7), (0, 8), (1, 8)] {
        maker.lie(&Statement::new(3, Body::Prepare { notice, payload }));
        maker.lie(&Statement::new(3, Body::Ack { at, notice, payload }));
        maker.lie(&Statement::new(3, Body::Store { at, notice, payload }));
        settle(maker, 1);
    }
    maker.join(4);
    settle(maker, 6);
}

/// Certificates of two notices for two payloads, which are no conflict, and then a second one of one notice.
pub fn certificates_apart(maker: &mut Maker) {
    maker.setup(0x0001, &[0, 0], 0xffff);
    for (notice, payload) in [(0, 3), (1, 4), (1, 3)] {
        maker.lie(&Statement::new(0, Body::Prepare { notice, payload }));
        maker.lie(&Statement::new(0, Body::Ack { at: rising(1), notice, payload }));
        settle(maker, 1);
    }
}

/// A member that asked to leave waits until it delivered both notices.
pub fn leave_waits(maker: &mut Maker) {
    maker.setup(0x0003, &[0, 1], 0);
    for notice in [0, 1] {
        maker.send(notice, notice, 30 + u64::from(notice));
        maker.turns(notice, 2);
        maker.leave(notice);
        maker.turns(notice, 3);
    }
    settle(maker, 6);
}

/// All 64 notices in a ring of two, and then again in one of three and one of four, until the pool is full.
pub fn all(maker: &mut Maker) {
    let members = maker.rng.subset(!0, 4);
    let k: Vec<u8> = (0..16).filter(|k| members >> k & 1 == 1).collect();
    let senders: Vec<u8> = (0..NOTICES).map(|_| k[maker.rng.below(2)]).collect();
    maker.setup(1 << k[0] | 1 << k[1], &senders, 0);
    for (notice, &sender) in (0..).zip(&senders) {
        maker.send(sender, notice, 5 + u64::from(notice));
    }
    for active in 2..=4 {
        if active > 2 {
            maker.join(k[active - 1]);
        }
        for &k in k[..active].iter().cycle().take(8 * active) {
            maker.all(k);
            maker.turns(k, 2 * NOTICES);
        }
    }
}
