//! The sets of those that signed, compared.

use std::collections::BTreeSet;

use generate::Rng;
use pekdrav::{EvidenceWords, Ring, View};
use reference::{Body, Evidence, Quorum, Statement};

use crate::counts::{asked, reported, Asked};
use crate::evidence::{as_mine, mine, shown, shrink, Lent};
use crate::records::Case;

/// What the compared sets came to.
#[derive(Default)]
pub struct Tally {
    pub records: u64,
    pub questions: u64,
    /// A quorum signed, somebody else did, and more did than a quorum needs.
    pub quorums: u64,
    pub fewer: u64,
    pub more: u64,
    pub reports: u64,
    pub reporters: u64,
    /// Reports that are not judged.
    pub refused: u64,
    /// Notices and payloads whose ack sets and store sets were compared, and those that have one.
    pub payloads: u64,
    pub acked: u64,
    pub stored: u64,
    /// Those that have quorums at several tops with other signers, of acks or of stores.
    pub apart: u64,
}

impl Tally {
    fn add(&mut self, at: reference::View, signers: u32) {
        let quorum = at.quorum().unwrap_or(u32::MAX);
        self.questions += 1;
        self.quorums += u64::from(signers.count_ones() >= quorum);
        self.fewer += u64::from(signers != 0 && signers.count_ones() < quorum);
        self.more += u64::from(signers.count_ones() > quorum);
    }

    fn add_reporters(&mut self, signers: Option<u32>) {
        self.reports += 1;
        self.reporters += u64::from(signers.is_some_and(|signers| signers != 0));
        self.refused += u64::from(signers.is_none());
    }
}

impl std::fmt::Display for Tally {
    fn fmt(&self, f: &mut std::fmt::Formatter<'_>) -> std::fmt::Result {
        write!(f, "{} records, {} questions: ", self.records, self.questions)?;
        write!(f, "{} by a quorum, {} by fewer, {} by more than it needs; ", self.quorums, self.fewer, self.more)?;
        write!(f, "{} views: {} with reporters, {} not judged; ", self.reports, self.reporters, self.refused)?;
        write!(f, "{} payloads: {} acked, {} stored, {} at tops apart", self.payloads, self.acked, self.stored, self.apart)
    }
}

fn mine_of(asked: &Asked, lent: &Lent) -> u32 {
    asked.ask(|question| lent.record.who(&lent.pool, question))
}

fn theirs_of(asked: &Asked, statements: &[Statement]) -> u32 {
    if asked.is_proper() {
        asked.question.who(statements)
    } else {
        0
    }
}

/// That the count says yes exactly where the set makes a quorum, and that only members are in the set; also in memory that holds anything.
fn goes_with_count(asked: &Asked, lent: &Lent) -> bool {
    let signers = mine_of(asked, lent);
    let count = asked.ask(|question| lent.record.count(&lent.pool, question));
    let at = asked.question.at();
    let quorum = at.quorum().unwrap_or(u32::MAX);
    asked.at_bits != 0 || (signers & !u32::from(at.members()) == 0 && count.reached == (signers.count_ones() >= quorum))
}

/// Compares those that have counted reports on each of some views.
fn compare_reporters(case: &Case, lent: &Lent, evidence: &Evidence, tally: &mut Tally) -> Result<(), String> {
    for at in reported(case, evidence) {
        for bits in [0, 1 << 16, 1 << 48] {
            let signers = lent.record.who_reported(&lent.pool, &lent.ring, View::from_word(as_mine(at).word() | bits));
            let counted = if bits == 0 { evidence.who_reported(&case.statements, at) } else { 0 };
            let expected = evidence.is_judged().then_some(counted);
            if signers != expected {
                return Err(format!("{case}\nreports on {at} with the bits {bits:#x}\nproved: {signers:x?}\nreference: {expected:x?}"));
            }
            tally.add_reporters(signers);
        }
    }
    Ok(())
}

/// Notices and payloads to ask for: those with a certificate or a store quorum, some others that were acknowledged or stored, each with what differs from it
/// in one thing, and any.
fn payloads(rng: &mut Rng, case: &Case, evidence: &Evidence) -> BTreeSet<(u8, u64)> {
    let all = |quorums: &[Quorum], notice: u8| quorums.iter().map(|quorum| (notice, quorum.payload)).collect::<Vec<_>>();
    let known = (0..).zip(&evidence.notices);
    let mut asked: BTreeSet<(u8, u64)> =
        known.flat_map(|(notice, known)| [all(&known.certificates, notice), all(&known.stored, notice)].concat()).collect();
    let said = case.statements.iter().filter_map(|statement| match statement.body {
        Body::Ack { notice, payload, .. } | Body::Store { notice, payload, .. } => Some((notice, payload)),
        _ => None,
    });
    let said: Vec<(u8, u64)> = said.collect();
    asked.extend(said.iter().step_by(1 + said.len() / 40));
    let some: Vec<(u8, u64)> = asked.iter().copied().step_by(1 + asked.len() / 8).collect();
    for (notice, payload) in some {
        asked.extend([1, 32, 64, 128].map(|bit| (notice ^ bit, payload)));
        asked.extend([(notice, payload ^ 1), (notice, payload ^ 1 << 63), (notice, 0)]);
    }
    asked.extend((0..4).map(|_| (rng.draw() as u8, rng.draw() >> rng.below(64))));
    asked
}

/// Whether quorums of several sealed tops signed bodies, which `body` gives for each top, and not all by the same.
fn is_apart(case: &Case, evidence: &Evidence, body: impl Fn(reference::View) -> reference::Question) -> bool {
    let questions = evidence.tops.iter().map(|&top| body(top)).filter(|question| question.count(&case.statements).reached);
    let mut sets = questions.map(|question| question.who(&case.statements));
    let first = sets.next();
    sets.any(|set| Some(set) != first)
}

/// Compares the ack sets and the store sets in the ring of the first senders.
fn compare_sets(rng: &mut Rng, case: &Case, lent: &Lent, senders: &[u8], tally: &mut Tally) -> Result<(), String> {
    let evidence = Evidence::of(case.initial, senders, &case.statements);
    let ring = Ring::new(as_mine(case.initial), senders);
    for (notice, payload) in payloads(rng, case, &evidence) {
        let acks = lent.record.ack_set(&lent.pool, &ring, notice, payload);
        let stores = lent.record.store_set(&lent.pool, &ring, notice, payload);
        let expected = (evidence.ack_set(notice, payload), evidence.store_set(notice, payload));
        if (acks, stores) != expected {
            return Err(format!("{case}\nnotice {notice}, payload {payload}, in a ring of {} notices\nacks and stores\nproved: {acks:x} {stores:x}\nreference: {expected:x?}", senders.len()));
        }
        let apart = is_apart(case, &evidence, |at| reference::Question::Ack { at, notice, payload })
            || is_apart(case, &evidence, |at| reference::Question::Store { at, notice, payload });
        tally.payloads += 1;
        tally.acked += u64::from(acks != 0);
        tally.stored += u64::from(stores != 0);
        tally.apart += u64::from(apart);
    }
    Ok(())
}

/// Compares every set of a record that is lent by `lend`.
pub fn compare(rng: &mut Rng, case: &Case, mut lend: impl FnMut(&Case) -> Result<Lent, String>, tally: &mut Tally) -> Result<(), String> {
    let lent = lend(case)?;
    for asked in asked(&case.statements) {
        let signers = mine_of(&asked, &lent);
        if signers != theirs_of(&asked, &case.statements) {
            let lend = std::cell::RefCell::new(lend);
            let mine = |case: &Case| lend.borrow_mut()(case).map(|lent| mine_of(&asked, &lent));
            let least = shrink(case, |case| mine(case).is_ok_and(|signers| signers != theirs_of(&asked, &case.statements)));
            let theirs = theirs_of(&asked, &least.statements);
            return Err(format!("{least}\n{asked:?}\nproved: {:x?}\nreference: {theirs:x}", mine(&least)));
        }
        if !goes_with_count(&asked, &lent) {
            return Err(format!("{case}\n{asked:?}: {signers:x} does not go with the count"));
        }
        tally.add(asked.question.at(), signers);
    }
    compare_reporters(case, &lent, &shown(case), tally)?;
    compare_sets(rng, case, &lent, &case.senders, tally)?;
    // In a ring of fewer notices those after the last have no sets, whatever was signed of them.
    compare_sets(rng, case, &lent, &case.senders[..case.senders.len() / 2], tally)?;
    tally.records += 1;
    Ok(())
}

/// Whether the ack set and the store set go together with the evidence: without a conflict a certificate has an ack set and no other payload of its notice
/// has one, and a stored certificate has a store set.
fn go_with_evidence(lent: &Lent, words: &EvidenceWords, notice: u8, payload: u64, tally: &mut Tally) -> bool {
    let held = notice < 64 && words.certified >> notice & 1 == 1 && words.payloads[usize::from(notice)] == payload;
    let stored = held && words.stored >> notice & 1 == 1;
    tally.payloads += 1;
    tally.acked += u64::from(held);
    tally.stored += u64::from(stored);
    held == (lent.record.ack_set(&lent.pool, &lent.ring, notice, payload) != 0)
        && (!held || stored == (lent.record.store_set(&lent.pool, &lent.ring, notice, payload) != 0))
}

/// Whether the reporters go together with the count of the reports.
fn reporters_go_with_count(lent: &Lent, at: reference::View, tally: &mut Tally) -> bool {
    let signers = lent.record.who_reported(&lent.pool, &lent.ring, as_mine(at));
    let count = lent.record.count_reports(&lent.pool, &lent.ring, as_mine(at));
    let quorum = at.quorum().unwrap_or(u32::MAX);
    let reached = signers.map(|signers| signers.count_ones() >= quorum);
    tally.add_reporters(signers);
    reached == count.map(|count| count.reached) && signers.is_none_or(|signers| signers & !u32::from(at.members()) == 0)
}

/// That the sets go together with the counts and with the evidence, whatever the memory holds.
pub fn go_together(rng: &mut Rng, case: &Case, lent: &Lent, tally: &mut Tally) -> Result<(), String> {
    let (words, shown) = (mine(lent), shown(case));
    for asked in asked(&case.statements) {
        if !goes_with_count(&asked, lent) {
            return Err(format!("{case}\n{asked:?}: the set does not go with the count"));
        }
        tally.add(asked.question.at(), mine_of(&asked, lent));
    }
    for (notice, payload) in payloads(rng, case, &shown).into_iter().filter(|_| words.conflict == 0) {
        if !go_with_evidence(lent, &words, notice, payload, tally) {
            return Err(format!("{case}\nnotice {notice}, payload {payload}: the sets do not go with the evidence"));
        }
    }
    match reported(case, &shown).into_iter().find(|&at| !reporters_go_with_count(lent, at, tally)) {
        Some(at) => Err(format!("{case}\nreports on {at}: the reporters do not go with the count")),
        None => {
            tally.records += 1;
            Ok(())
        }
    }
}
