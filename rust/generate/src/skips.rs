//! Histories that list views nobody tops: members ask to join in waves, and the votes for all but the last view of a wave come late.
//!
//! The newcomers of the earlier views of a wave are mostly silent, for long or for good, and liars report on these views what others did not.

use reference::{Binding, Body, History, Known, Report, Rules, Set, Statement, Told, View};

use crate::attack::Attack;
use crate::maker::Maker;
use crate::rng::Rng;

struct Skips<'a, R> {
    ring: Attack<'a, R>,
    /// Percent of the steps in which everybody gets everything that is not hidden.
    rounds: usize,
    /// Whether the two groups are kept apart for good, the newcomers all in the second.
    apart: bool,
}

/// What `rounds` may be from one wave to the next.
const ROUNDS: [usize; 4] = [0, 15, 35, 60];

/// Waves within the premises, mostly with as many liars as the initial view bears.
pub fn skips<R: Rules>(mut maker: Maker<R>) -> Vec<u8> {
    let notices = maker.notices();
    let size = [2, 3, 4, 4, 4, 4, 4, 4, 5, 7][maker.rng.below(10)];
    let liars = if maker.rng.chance(90) { (size - 1) / 3 } else { 0 };
    let apart = maker.rng.chance(35);
    let mut skips = Skips { ring: Attack::start(&mut maker, notices, size, liars), rounds: 0, apart };
    // Where all are led towards one payload, what a liar reports is the only other one.
    if !apart && skips.rng().chance(60) {
        skips.ring.first_group = !0;
    }
    skips.prelude();
    while !skips.ring.maker.is_done() {
        skips.step();
    }
    maker.finish()
}

fn each(set: Set) -> impl Iterator<Item = u8> {
    (0..16).filter(move |k| set >> k & 1 == 1)
}

impl<R: Rules> Skips<'_, R> {
    fn rng(&mut self) -> &mut Rng {
        &mut self.ring.maker.rng
    }

    /// A notice may be under way before the first wave, or have its certificate.
    fn prelude(&mut self) {
        let most = if self.apart { 14 } else { 4 };
        for _ in 0..self.rng().between(0, most) {
            self.ring.hear();
            self.ring.echo();
        }
    }

    fn step(&mut self) {
        if self.rng().chance(60) && self.ring.maker.is_settled(self.ring.followers()) {
            self.wave();
        }
        let rounds = self.rounds;
        match self.rng().below(100) {
            0..=11 => self.ring.echo(),
            12..=19 => self.report_on_skipped(),
            20..=21 => self.unpack(!0),
            22 => self.stray(),
            23..=26 => self.ring.waves.hidden.clear(),
            27..=28 => self.send(),
            29..=31 => self.vote_shorter(),
            draw if draw < 32 + rounds => self.round(),
            _ => self.ring.hear(),
        }
    }

    /// One more notice is sent, so that some get their certificate in a later view.
    fn send(&mut self) {
        let notices = self.ring.senders.len();
        let notice = self.rng().below(notices) as u8;
        self.ring.send(notice, 100);
    }

    /// A liar agrees to a history that lacks all views between the first and the last, which others may have topped.
    fn vote_shorter(&mut self) {
        let evidence = self.ring.maker.evidence();
        let Some(liar) = self.ring.maker.rng.member(self.ring.faulty) else { return };
        let [initial, .., greatest] = evidence.candidates[..] else { return };
        let (Some(at), Some(history)) = (self.rng().pick(&evidence.tops), History::new(&[initial, greatest])) else { return };
        self.ring.maker.lie(&Statement::new(liar, Body::AgreeHistory { at, history }));
    }

    /// A turn of anybody, so that a ring with nothing left to do has lines too.
    fn stray(&mut self) {
        let k = self.rng().below(16) as u8;
        self.ring.maker.turn(k);
    }

    /// Somebody who was silent does its part from now on.
    fn unpack(&mut self, among: Set) {
        let crated = self.ring.waves.crated & among;
        if let Some(k) = self.rng().member(crated) {
            self.ring.waves.crated &= !(1 << k);
        }
    }

    /// Gives the controllers what they lack of the statements that fit, and has each take turns.
    fn tell(&mut self, whom: Set, turns: usize, fits: impl Fn(&Body) -> bool) {
        for k in each(whom) {
            let missing = self.ring.maker.missing(k, !0);
            for number in missing {
                if fits(&self.ring.maker.bench.pool().statements()[number].body) {
                    self.ring.maker.give(k, number);
                }
            }
            self.ring.maker.turns(k, turns);
        }
    }

    /// Everybody hears all that is not hidden.
    fn round(&mut self) {
        let hidden = self.ring.waves.hidden.clone();
        let followers = self.ring.followers();
        if hidden.is_empty() {
            for k in each(followers) {
                self.ring.maker.all(k);
                self.ring.maker.turns(k, 3);
            }
        } else {
            self.tell(followers, 3, |body| !is_vote_for(body, &hidden));
        }
    }

    /// The members of the top agree to some views one after the other, and to a history without the smaller ones before they hear of those.
    fn wave(&mut self) {
        let Some(top) = self.ring.maker.evidence().greatest().map(History::top) else { return };
        let voters = self.awaken(top);
        self.ring.waves.hidden.clear();
        if !self.apart {
            self.rounds = ROUNDS[self.rng().below(ROUNDS.len())];
        }
        for _ in 0..[1, 1, 1, 1, 2, 3][self.rng().below(6)] {
            let view = self.grow(top, voters, false);
            self.ring.waves.hidden.push(view);
            self.ring.waves.passed.push(view);
        }
        self.grow(top, voters, true);
        let hidden = self.ring.waves.hidden.clone();
        self.tell(voters, 2, |body| matches!(body, Body::AgreeView { .. }) && !is_vote_for(body, &hidden));
        (0..2).for_each(|_| self.ring.echo());
        if self.rng().chance(85) {
            self.ring.waves.hidden.clear();
            self.tell(voters, 2, |body| is_vote_for(body, &hidden));
            (0..2).for_each(|_| self.ring.echo());
        }
        for _ in 0..self.rng().between(1, 2) {
            self.report_on(&hidden);
        }
        if !self.apart && self.rng().chance(50) {
            self.round();
        }
    }

    /// The followers of the top, of which so many do their part that there may be a quorum.
    fn awaken(&mut self, top: View) -> Set {
        let silent = |crated: Set| (top.members() & crated).count_ones();
        while silent(self.ring.waves.crated) > top.borne() {
            self.unpack(top.members());
        }
        top.members() & self.ring.followers()
    }

    /// Some ask to join or leave, and the voters and liars agree to the view that is wished then.
    fn grow(&mut self, top: View, voters: Set, last: bool) -> View {
        if self.rng().chance(10) {
            self.ring.leave();
        }
        let newcomers = match (last, self.apart) {
            (true, false) => [1, 1, 1, 2],
            (true, true) => [1, 2, 3, 3],
            (false, _) => [1, 2, 2, 3],
        };
        for _ in 0..newcomers[self.rng().below(4)] {
            let Some(k) = self.ring.join() else { continue };
            let silent = if self.apart { 50 } else { 85 };
            if !last && self.rng().chance(silent) {
                self.ring.waves.crated |= 1 << k;
            }
            if !self.apart && self.rng().chance(40) {
                self.ring.first_group |= 1 << k;
            }
        }
        self.tell(voters, 2, |body| matches!(body, Body::Join | Body::Leave));
        let view = self.ring.maker.evidence().wished;
        for liar in each(top.members() & self.ring.faulty) {
            if self.rng().chance(60) {
                self.ring.maker.lie(&Statement::new(liar, Body::AgreeView { at: top, view }));
            }
        }
        view
    }

    /// Liars report on the views that the pool's histories skip.
    fn report_on_skipped(&mut self) {
        let evidence = self.ring.maker.evidence();
        let skipped: Vec<View> = evidence.candidates.iter().copied().filter(|view| evidence.skips(*view)).collect();
        self.report_on(&skipped);
    }

    /// A liar reports on one of the views what none of the followers would, and some of them hear it.
    fn report_on(&mut self, views: &[View]) {
        let evidence = self.ring.maker.evidence();
        let Some(at) = self.rng().pick(views) else { return };
        let Some(liar) = self.ring.maker.rng.member(at.members() & self.ring.faulty) else { return };
        let Some(history) = evidence.candidates.first().and_then(|&initial| History::new(&[initial])) else { return };
        let told = (0..).zip(&evidence.notices).map(|(notice, known)| self.binding(notice, known));
        let told = told.map(|binding| Told { binding, kept: None }).collect();
        let report = Body::Report(Report { at, view: history.top(), told, history });
        self.ring.maker.lie(&Statement::new(liar, report.clone()));
        // A report counts only beside the prepares that it rests on, which the attack would keep back.
        let (followers, share) = (self.ring.followers(), self.rng().between(1, 8));
        let some = self.rng().subset(followers, share);
        self.tell(some, 0, |body| matches!(body, Body::Prepare { .. }) || *body == report);
    }

    /// A binding that has its grounds, mostly to what no follower is bound to.
    fn binding(&mut self, notice: usize, known: &Known) -> Binding {
        let all = self.ring.maker.bench.controllers().filter_map(|controller| controller.notices().get(notice));
        let taken: Vec<Binding> = all.map(|notice| notice.binding).collect();
        let prepared = known.prepares.iter().map(|&payload| Binding::Bound(payload));
        let (bound, other): (Vec<Binding>, Vec<Binding>) = prepared.partition(|binding| taken.contains(binding));
        match self.rng().below(10) {
            0 => Binding::Unbound,
            1 if known.prepares.len() > 1 => Binding::Barred,
            2..=7 if !other.is_empty() => self.rng().pick(&other).unwrap_or_default(),
            _ => self.rng().pick(&bound).unwrap_or_default(),
        }
    }
}

fn is_vote_for(body: &Body, views: &[View]) -> bool {
    matches!(body, Body::AgreeView { view, .. } if views.contains(view))
}
