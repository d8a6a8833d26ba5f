//! Liars and a network that work together: two groups of rule-followers are led towards two different payloads of a notice.
//!
//! The liars sign along with every follower of either group, the joiners are mostly of the second group, and a
//! follower hears of the other group's acks, stores and reports only late.

use reference::{Binding, Body, Evidence, History, Notice, Outcome, Report, Rules, Set, Statement, Told, View};

use crate::maker::Maker;
use crate::rng::Rng;

/// What `skips` has for the waves in which members ask to join; nothing in an attack.
#[derive(Default)]
pub struct Waves {
    /// The newcomers that asked to join and then do nothing.
    pub crated: Set,
    /// The views whose votes are kept from everybody.
    pub hidden: Vec<View>,
    /// The views on which reports are heard at once.
    pub passed: Vec<View>,
}

pub struct Attack<'a, R> {
    pub maker: &'a mut Maker<R>,
    members: Set,
    pub faulty: Set,
    /// By the number of the notice.
    pub senders: Vec<u8>,
    /// The notices below this are attacked, and the others are left alone.
    attacked: usize,
    /// The followers that are led towards the first payload.
    pub first_group: Set,
    /// Of notice 0; every second notice has them the other way round.
    payloads: [u64; 2],
    active: Set,
    leaving: Set,
    pub waves: Waves,
    /// Percent of the draws in which a follower hears what the attack would keep from it.
    leak: usize,
}

/// An attack within the premises: as many liars as the initial view bears, and more that never join.
pub fn attack<R: Rules>(mut maker: Maker<R>) -> Vec<u8> {
    let notices = maker.notices();
    let size = [4, 4, 4, 5, 7][maker.rng.below(5)];
    let mut attack = Attack::start(&mut maker, notices, size, (size - 1) / 3);
    while !attack.maker.is_done() {
        attack.step();
    }
    maker.finish()
}

impl<'a, R: Rules> Attack<'a, R> {
    /// Sets up a ring of `size` members, of which `liars` lie and most notices are sent by these, and has the attacked notices sent.
    pub fn start(maker: &'a mut Maker<R>, notices: usize, size: usize, liars: usize) -> Attack<'a, R> {
        let rng = &mut maker.rng;
        let members = rng.subset(!0, size);
        let inside = rng.subset(members, liars);
        let outsiders = rng.below(5);
        let faulty = inside | rng.subset(!members, outsiders);
        let mut sender = || {
            let lying = rng.chance(75) && inside != 0;
            rng.member(if lying { inside } else { members & !inside }).unwrap_or(0)
        };
        let senders: Vec<u8> = (0..notices).map(|_| sender()).collect();
        let attacked = rng.between(1, notices.min(3));
        // With the liars inside, this many followers are just a quorum.
        let enough = size - 2 * ((size - 1) / 3);
        let led = if rng.chance(70) { enough } else { rng.between(1, size - 1) };
        let first_group = rng.subset(members & !faulty, led);
        let payload = rng.draw() >> rng.below(64);
        let leak = [0, 1, 3, 10][rng.below(4)];
        maker.setup(members, &senders, faulty);
        let payloads = [payload, payload ^ 1];
        let (active, leaving, waves) = (members, 0, Waves::default());
        let mut attack = Attack { maker, members, faulty, senders, attacked, first_group, payloads, active, leaving, waves, leak };
        attack.open();
        attack
    }

    fn open(&mut self) {
        for notice in 0..self.attacked as u8 {
            self.send(notice, 60);
        }
    }

    /// A liar prepares both payloads of its notice; a follower is asked to send the first in `percent` of a hundred draws.
    pub fn send(&mut self, notice: u8, percent: usize) {
        let sender = self.senders[usize::from(notice)];
        if self.faulty >> sender & 1 == 1 {
            for payload in self.payloads {
                self.maker.lie(&Statement::new(sender, Body::Prepare { notice, payload }));
            }
        } else if self.maker.rng.chance(percent) {
            self.maker.send(sender, notice, self.payloads[0]);
        }
    }

    fn step(&mut self) {
        let calm = self.maker.rng.chance(20) && self.is_calm();
        match self.maker.rng.below(100) {
            _ if calm => self.change(),
            0 => self.change(),
            1..=20 => self.echo(),
            21..=25 => self.report_falsely(),
            26..=27 => self.mix(),
            _ => self.hear(),
        }
    }

    /// Whether no change of the greatest top is due.
    fn is_calm(&self) -> bool {
        let evidence = self.maker.evidence();
        evidence.greatest().is_some_and(|greatest| greatest.top() == evidence.wished)
    }

    /// The payload of the notice that the controller is led towards.
    fn payload_of(&self, k: u8, notice: u8) -> u64 {
        let second = self.first_group >> k & 1 == 0;
        self.payloads[usize::from(second ^ (notice % 2 == 1))]
    }

    /// The rule-followers that are in the ring, or asked to be and do their part.
    pub fn followers(&self) -> Set {
        self.active & !self.faulty & !self.waves.crated
    }

    /// One to four followers ask to join or to leave at once.
    fn change(&mut self) {
        for _ in 0..self.maker.rng.between(1, 4) {
            let many = (self.followers() & !self.leaving).count_ones() > 5;
            if self.maker.rng.chance(if many { 20 } else { 90 }) {
                self.join();
            } else {
                self.leave();
            }
        }
    }

    /// A follower asks to join.
    pub fn join(&mut self) -> Option<u8> {
        let k = self.maker.rng.member(!self.active & !self.faulty)?;
        let taken = self.maker.join(k) == Outcome::Taken(0);
        if taken {
            self.active |= 1 << k;
            self.maker.turns(k, 1);
        }
        taken.then_some(k)
    }

    /// A follower asks to leave.
    pub fn leave(&mut self) {
        let Some(k) = self.leaver(self.followers() & !self.leaving) else { return };
        if self.maker.leave(k) == Outcome::Taken(0) {
            self.leaving |= 1 << k;
            self.maker.turns(k, 2);
        }
    }

    /// A follower without which the greatest top still bears the liars, a member of the first group if possible.
    fn leaver(&mut self, staying: Set) -> Option<u8> {
        let evidence = self.maker.evidence();
        let top = evidence.greatest()?.top();
        let led = staying & self.first_group;
        let k = self.maker.rng.member(if led != 0 { led } else { staying })?;
        let rest = View::new(top.members() & !self.leaving & !(1 << k), 0);
        (rest.borne() >= (self.members & self.faulty).count_ones()).then_some(k)
    }

    /// The liars sign what a follower signed lately.
    pub fn echo(&mut self) {
        let Some(first) = self.maker.rng.member(self.members & self.faulty) else { return };
        let pool = self.maker.bench.pool();
        let is_vote = |statement: &&Statement| matches!(statement.kind(), 3 | 4 | 7 | 8);
        let is_new = |statement: &&Statement| !pool.holds(&Statement::new(first, statement.body.clone()));
        let votes = pool.statements().iter().rev().take(80).filter(is_vote).filter(is_new);
        let votes: Vec<&Body> = votes.map(|statement| &statement.body).collect();
        let Some(vote) = self.maker.rng.pick(&votes).cloned() else { return };
        for liar in (0..16).filter(|k| self.faulty >> k & 1 == 1) {
            if liar == first || self.maker.rng.chance(30) {
                self.maker.lie(&Statement::new(liar, vote.clone()));
            }
        }
    }

    /// The liars sign of one notice what was signed of another.
    fn mix(&mut self) {
        let notices = self.senders.len();
        if notices == 1 {
            return;
        }
        let Some(liar) = self.maker.rng.member(self.members & self.faulty) else { return };
        let other = self.maker.rng.below(notices) as u8;
        let votes = self.maker.bench.pool().statements().iter().rev().take(80).filter_map(|statement| match statement.body {
            Body::Prepare { payload, .. } => Some(Body::Prepare { notice: other, payload }),
            Body::Ack { at, payload, .. } => Some(Body::Ack { at, notice: other, payload }),
            Body::Store { at, payload, .. } => Some(Body::Store { at, notice: other, payload }),
            _ => None,
        });
        let votes: Vec<Body> = votes.collect();
        if let Some(vote) = votes.get(self.maker.rng.below(votes.len())) {
            self.maker.lie(&Statement::new(liar, vote.clone()));
        }
    }

    /// A liar reports that it knew of nothing, or of the wrong payload.
    fn report_falsely(&mut self) {
        let Some(liar) = self.maker.rng.member(self.faulty) else { return };
        let evidence: Evidence = self.maker.evidence();
        let rng = &mut self.maker.rng;
        let Some(at) = rng.pick(&evidence.candidates) else { return };
        let Some(&initial) = evidence.candidates.first() else { return };
        let Some(history) = History::new(&[initial]) else { return };
        let (attacked, payloads) = (self.attacked, self.payloads);
        let binding = |rng: &mut Rng, notice: usize| match rng.below(10) {
            _ if notice >= attacked => Binding::Unbound,
            0..=6 => Binding::Unbound,
            7..=8 => Binding::Bound(payloads[1 - notice % 2]),
            _ => Binding::Barred,
        };
        let told = (0..self.senders.len()).map(|notice| Told { binding: binding(rng, notice), kept: None }).collect();
        let report = Report { at, view: initial, told, history };
        self.maker.lie(&Statement::new(liar, Body::Report(report)));
    }

    /// One follower hears what serves the attack, the most useful first, and takes turns.
    pub fn hear(&mut self) {
        // Once somebody delivered, the attack is about the second group.
        let delivers = |notice: &Notice| notice.delivered;
        let delivered = self.maker.bench.controllers().any(|controller| controller.notices().iter().any(delivers));
        let group = if delivered && self.maker.rng.chance(60) { !self.first_group } else { !0 };
        let Some(k) = self.maker.rng.member(self.followers() & group) else { return };
        let missing = self.maker.missing(k, !0);
        let mut scored: Vec<(usize, usize)> = missing.into_iter().map(|number| (self.score(k, number), number)).collect();
        scored.sort_unstable_by(|one, other| other.cmp(one));
        for (score, number) in scored.into_iter().take(12) {
            if score < 20 && !self.maker.rng.chance(self.leak) {
                break;
            }
            self.maker.give(k, number);
            // After each report the follower may enter, before it hears of one that says more.
            if self.maker.bench.pool().statements()[number].kind() == 5 {
                self.maker.turns(k, 3);
            }
        }
        self.maker.turns(k, 4);
    }

    /// How much it serves the attack that the follower hears the statement; 20 and more is heard soon.
    fn score(&mut self, k: u8, number: usize) -> usize {
        let own = |notice: u8, other: u64| other == self.payload_of(k, notice);
        let other_binding = |(notice, told): (u8, &Told)| matches!(told.binding, Binding::Bound(other) if !own(notice, other));
        let worth = match &self.maker.bench.pool().statements()[number].body {
            Body::Join | Body::Leave => 20,
            Body::AgreeView { view, .. } if self.waves.hidden.contains(view) => 0,
            Body::AgreeView { .. } | Body::AgreeHistory { .. } => 25,
            Body::Report(report) if self.waves.passed.contains(&report.at) => 60,
            Body::Report(report) if (0..).zip(&*report.told).any(other_binding) => 9,
            Body::Report(_) => 25,
            Body::Prepare { notice, payload } if own(*notice, *payload) => 50,
            Body::Prepare { .. } => 8,
            Body::Ack { notice, payload, .. } | Body::Store { notice, payload, .. } if own(*notice, *payload) => 25,
            Body::Ack { .. } | Body::Store { .. } => 0,
        };
        worth + self.maker.rng.below(14)
    }
}
