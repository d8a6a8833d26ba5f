//! Drives a ring forward: requests, statements given late or in part, turns, and lies.

use reference::{Outcome, Rules, Set, View, NOTICES};

use crate::lies::lie;
use crate::maker::Maker;

/// How a ring is driven.
#[derive(Clone, Debug)]
pub struct Plan {
    pub members: Set,
    /// By the number of the notice.
    pub senders: Vec<u8>,
    pub faulty: Set,
    /// Percent of the steps that are lies.
    pub lies: usize,
    /// Percent of the steps in which everybody gets everything and takes turns.
    pub rounds: usize,
    /// Percent of the requests that are joins while the ring is small.
    pub joins: usize,
    /// Whether joins and leaves keep the faulty few enough in each view that may come.
    pub careful: bool,
    /// The part of the controllers that a split keeps from the others, empty for none.
    pub split: Set,
    /// What is sent, by the number of the notice.
    pub payloads: Vec<u64>,
}

impl Plan {
    /// The payload of a notice; a notice that is none has the first one's.
    pub fn payload(&self, notice: u8) -> u64 {
        self.payloads.get(usize::from(notice)).unwrap_or(&self.payloads[0]).to_owned()
    }

    fn hears(&self, k: u8) -> Set {
        match self.split {
            0 => !0,
            split if split >> k & 1 == 1 => split | self.faulty,
            split => !split | self.faulty,
        }
    }
}

/// The state of a drive.
struct Drive<'a, R> {
    maker: &'a mut Maker<R>,
    plan: Plan,
    /// The controllers that are in the ring or asked to be.
    active: Set,
    leaving: Set,
    /// By the number of the notice.
    sent: Vec<bool>,
}

/// Sets the ring up and drives it until the lines are used up.
pub fn drive<R: Rules>(maker: &mut Maker<R>, plan: Plan) {
    maker.setup(plan.members, &plan.senders, plan.faulty);
    let active = plan.members;
    let sent = vec![false; plan.senders.len()];
    let mut drive = Drive { maker, plan, active, leaving: 0, sent };
    // Many notices are under way at once only if some are sent early.
    if drive.sent.len() > 1 && drive.maker.rng.chance(60) {
        drive.send();
    }
    while !drive.maker.is_done() {
        drive.step();
    }
}

impl<R: Rules> Drive<'_, R> {
    fn step(&mut self) {
        let Plan { lies, rounds, .. } = self.plan;
        if self.maker.rng.chance(1) {
            self.plan.split = if self.plan.split == 0 { self.maker.rng.draw() as Set } else { 0 };
        }
        match self.maker.rng.below(100) {
            0..=3 => self.ask(),
            4..=5 => self.send(),
            6 => self.stray(),
            draw if draw < 7 + lies => self.tell_lies(),
            draw if draw < 7 + lies + rounds => self.round(),
            _ => self.advance(),
        }
        if self.maker.rng.chance(30) && self.maker.is_settled(!self.plan.faulty) {
            self.ask();
        }
    }

    /// Asks for a join or a leave, or has a faulty controller sign one.
    fn ask(&mut self) {
        let outside = !self.active & !self.plan.faulty;
        let inside = self.active & !self.leaving & !self.plan.faulty;
        let many = inside.count_ones() > 6;
        let joins = self.maker.rng.chance(if many { self.plan.joins.min(35) } else { self.plan.joins });
        if joins {
            let Some(k) = self.maker.rng.member(outside) else { return };
            if self.maker.join(k) == Outcome::Taken(0) {
                self.active |= 1 << k;
                self.maker.turns(k, 1);
            }
        } else if let Some(k) = self.maker.rng.member(inside) {
            if !self.bears_without(k) {
                return;
            }
            if self.maker.leave(k) == Outcome::Taken(0) {
                self.leaving |= 1 << k;
                self.maker.turns(k, 1);
            }
        }
    }

    /// Whether the initial members that stay would bear all faulty controllers without `k`.
    fn bears_without(&self, k: u8) -> bool {
        let gone = self.leaving | 1 << k;
        let rest = View::new(self.plan.members & !gone, 0);
        !self.plan.careful || self.plan.faulty == 0 || rest.borne() >= self.plan.faulty.count_ones()
    }

    /// Sends some of the notices; one that was sent seldom comes again.
    fn send(&mut self) {
        let notices = self.sent.len();
        for _ in 0..self.maker.rng.between(1, 1 + notices / 2) {
            let notice = self.maker.rng.below(notices);
            if !self.sent[notice] || self.maker.rng.chance(5) {
                let (sender, payload) = (self.plan.senders[notice], self.plan.payloads[notice]);
                self.sent[notice] |= self.maker.send(sender, notice as u8, payload) == Outcome::Taken(0);
            }
        }
    }

    /// A line that a careful host would not write.
    fn stray(&mut self) {
        let k = self.maker.rng.below(16) as u8;
        let pool = self.maker.bench.pool().len();
        let notices = self.plan.senders.len();
        match self.maker.rng.below(8) {
            0 => {
                let count = self.maker.rng.below(NOTICES + 2);
                let windows = self.maker.clock.late_windows();
                self.maker.setup_with(self.plan.members, &vec![k; count], self.plan.faulty, &windows)
            }
            1 => {
                let number = self.maker.rng.below(pool + 2);
                self.maker.give(k, number)
            }
            2 => {
                let notice = self.maker.rng.below(notices);
                self.maker.send(k, notice as u8, 1)
            }
            3 => {
                let notice = self.maker.rng.between(notices, 255);
                self.maker.send(k, notice as u8, 1)
            }
            4 => self.maker.all(k),
            _ => self.maker.turn(k),
        };
    }

    fn tell_lies(&mut self) {
        let Some(liar) = self.maker.rng.member(self.plan.faulty) else { return };
        for _ in 0..self.maker.rng.between(1, 3) {
            lie(self.maker, liar, &self.plan);
        }
    }

    /// Everybody gets everything that the split lets through and takes a turn or two.
    fn round(&mut self) {
        let active = self.active;
        for k in (0..16).filter(|k| active >> k & 1 == 1) {
            if self.plan.faulty >> k & 1 == 1 && self.maker.rng.chance(50) {
                continue;
            }
            if self.plan.split == 0 {
                self.maker.all(k);
            } else {
                self.give_some(k, 8);
            }
            self.maker.turns(k, 2);
        }
    }

    fn give_some(&mut self, k: u8, most: usize) {
        let missing = self.maker.missing(k, self.plan.hears(k));
        for _ in 0..most.min(missing.len()) {
            if let Some(number) = self.maker.rng.pick(&missing) {
                self.maker.give(k, number);
            }
        }
    }

    /// One controller hears something and takes turns.
    fn advance(&mut self) {
        let Some(k) = self.maker.rng.member(self.active) else { return };
        match self.maker.rng.below(10) {
            0..=3 if self.plan.split == 0 => {
                self.maker.all(k);
            }
            0..=8 => {
                let most = self.maker.rng.between(1, 6);
                self.give_some(k, most);
            }
            _ => {}
        }
        let most = self.maker.rng.between(1, 4);
        self.maker.turns(k, most);
    }
}
