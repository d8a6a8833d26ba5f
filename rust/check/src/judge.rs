//! Whether a run is within the premises, whether demand 3 holds on it, and how deep it went.

use std::collections::HashMap;

use reference::controller::Ring;
use reference::{Binding, Report, View, Window};

use crate::definition::{Definition, Store};
use crate::run::{Deed, Event, Run};

/// A way in which a run fails demand 3, does not keep the windows, or tells wrong signers.
#[derive(Clone, Copy, PartialEq, Eq, Debug)]
pub enum Breach {
    /// Two deliveries of one notice differ.
    TwoPayloads { notice: u8, payloads: (u64, u64) },
    /// The controller delivered the notice more than once.
    DeliveredTwice { controller: u8, notice: u8 },
    /// A delivery that the notice's rule-following sender had not prepared.
    NotPrepared { controller: u8, notice: u8, payload: u64 },
    /// A delivery of a notice that the setup lacks.
    NoSuchNotice { controller: u8, notice: u8 },
    /// Two entered views that are not comparable.
    Incomparable(View, View),
    /// The controller entered the view without a certificate for what a quorum of a smaller top stored.
    NotKept { controller: u8, view: View, store: Store },
    /// The controller signed its leave in a minute that no window has. Demand 3 does not speak of this.
    OutsideWindow { controller: u8, minute: u16 },
    /// A delivery told other signers than those that stored the payload at the least sealed top of the controller's record, as written, of which a quorum
    /// did. Nor does it speak of this.
    OtherSigners { controller: u8, notice: u8, told: u32, due: u32 },
}

impl Breach {
    pub fn kind(&self) -> &'static str {
        match self {
            Breach::TwoPayloads { .. } => "two payloads",
            Breach::DeliveredTwice { .. } => "delivered twice",
            Breach::NotPrepared { .. } => "not prepared",
            Breach::NoSuchNotice { .. } => "no such notice",
            Breach::Incomparable(..) => "incomparable",
            Breach::NotKept { .. } => "not kept",
            Breach::OutsideWindow { .. } => "outside window",
            Breach::OtherSigners { .. } => "other signers",
        }
    }
}

/// How deep a run went.
#[derive(Clone, Copy, PartialEq, Eq, Debug, Default)]
pub struct Depth {
    pub statements: usize,
    pub tops: usize,
    /// The most views that one rule-follower entered.
    pub entered: usize,
    pub deliveries: usize,
    /// Deliveries by a rule-follower that had entered a later view than the initial one.
    pub late_deliveries: usize,
    /// The notices that somebody delivered.
    pub notices: usize,
    /// The times that a rule-follower entered a view past one that was skipped and lacked a quorum of counted reports.
    pub short_roads: usize,
    /// The times that one entered past a skipped view, be there a quorum or not, whose counted reports would have bound it otherwise.
    pub bound_otherwise: usize,
    /// The leaves that rule-followers signed in a ring with windows.
    pub appointed: usize,
    /// Deliveries by a rule-follower whose record has store quorums at several sealed tops, the least and the greatest with other signers.
    pub stored_apart: usize,
}

#[derive(Clone, Debug)]
pub struct Verdict {
    /// Whether each sealed top bears its faulty members.
    pub within_premises: bool,
    pub breaches: Vec<Breach>,
    /// Whether the run's statements have two incomparable candidates, two sealed histories neither of which holds
    /// the other, or two certificates of one notice. Demand 3 does not speak of this, but the argument for it rules it out.
    pub contradiction: bool,
    pub depth: Depth,
}

impl Verdict {
    /// Whether demand 3, what its argument rests on and the windows hold, if the run is within the premises.
    pub fn holds(&self) -> bool {
        !self.within_premises || (self.breaches.is_empty() && !self.contradiction)
    }
}

/// Judges a run; one without setup has nothing in it and keeps every promise.
pub fn judge(run: &Run) -> Verdict {
    let Some(ring) = &run.ring else {
        return Verdict { within_premises: true, breaches: Vec::new(), contradiction: false, depth: Depth::default() };
    };
    let shown = Definition::new(ring.initial, &ring.senders, &run.statements);
    let tops = shown.tops();
    let bears = |top: &View| (top.members() & run.faulty).count_ones() <= (top.members().count_ones() - 1) / 3;
    let mut breaches = Vec::new();
    for notice in delivered_notices(run) {
        breaches.extend(of_notice(run, ring, notice));
    }
    breaches.extend(incomparable(run, ring));
    breaches.extend(not_kept(run, ring, &shown));
    breaches.extend(leaves(run).filter(|&(_, minute)| !is_open(ring, minute)).map(outside_window));
    let (other, stored_apart) = signers(run, ring);
    breaches.extend(other);
    let depth = Depth { stored_apart, ..depth(run, ring, &shown) };
    Verdict { within_premises: tops.iter().all(bears), breaches, contradiction: shown.contradicts(), depth }
}

/// A delivery by a rule-follower, and its place in the list of events.
#[derive(Clone, Copy)]
struct Delivery {
    place: usize,
    controller: u8,
    notice: u8,
    payload: u64,
    signers: u32,
    /// The length of the controller's record then.
    length: usize,
}

fn deliveries(run: &Run) -> impl Iterator<Item = Delivery> + '_ {
    let followed = run.events.iter().enumerate().filter(|(_, event)| run.is_follower(event.controller));
    followed.filter_map(|(place, event)| match event.deed {
        Deed::Delivered { notice, payload, signers } => {
            Some(Delivery { place, controller: event.controller, notice, payload, signers, length: event.length })
        }
        _ => None,
    })
}

/// The notices that were delivered, each once.
fn delivered_notices(run: &Run) -> Vec<u8> {
    let mut notices: Vec<u8> = deliveries(run).map(|delivery| delivery.notice).collect();
    notices.sort_unstable();
    notices.dedup();
    notices
}

/// The views that rule-followers entered, with who did and the event; initial members entered by setup.
fn entered<'a>(run: &'a Run, ring: &'a Ring) -> Vec<(u8, View, Option<&'a Event>)> {
    let initial = (0..16).filter(|&k| ring.initial.has_member(k)).map(|k| (k, ring.initial, None));
    let later = run.events.iter().filter_map(|event| match event.deed {
        Deed::Entered(view) => Some((event.controller, view, Some(event))),
        _ => None,
    });
    initial.chain(later).filter(|(k, _, _)| run.is_follower(*k)).collect()
}

/// What is wrong with the deliveries of a notice.
fn of_notice(run: &Run, ring: &Ring, notice: u8) -> Vec<Breach> {
    let Some(&sender) = ring.senders.get(usize::from(notice)) else {
        let lost = deliveries(run).filter(|delivery| delivery.notice == notice);
        return lost.map(|delivery| Breach::NoSuchNotice { controller: delivery.controller, notice }).collect();
    };
    let all: Vec<Delivery> = deliveries(run).filter(|delivery| delivery.notice == notice).collect();
    let mut breaches: Vec<Breach> = delivered_twice(&all).collect();
    breaches.extend(two_payloads(&all));
    if run.is_follower(sender) {
        breaches.extend(not_prepared(run, sender, &all));
    }
    breaches
}

/// The first two deliveries of one notice that differ.
fn two_payloads(all: &[Delivery]) -> Option<Breach> {
    let first = all.first()?;
    let other = all.iter().find(|delivery| delivery.payload != first.payload)?;
    Some(Breach::TwoPayloads { notice: first.notice, payloads: (first.payload, other.payload) })
}

fn delivered_twice(all: &[Delivery]) -> impl Iterator<Item = Breach> + '_ {
    let again = |place: &usize| all[..*place].iter().any(|earlier| earlier.controller == all[*place].controller);
    (0..all.len()).filter(again).map(|place| Breach::DeliveredTwice { controller: all[place].controller, notice: all[place].notice })
}

fn not_prepared<'a>(run: &'a Run, sender: u8, all: &'a [Delivery]) -> impl Iterator<Item = Breach> + 'a {
    let prepared = move |&Delivery { place, notice, payload, .. }: &Delivery| {
        let prepare = Deed::Prepared { notice, payload };
        run.events[..place].iter().any(|event| event.controller == sender && event.deed == prepare)
    };
    let lost = all.iter().filter(move |delivery| !prepared(delivery));
    lost.map(|&Delivery { controller, notice, payload, .. }| Breach::NotPrepared { controller, notice, payload })
}

fn incomparable(run: &Run, ring: &Ring) -> Option<Breach> {
    let views: Vec<View> = entered(run, ring).into_iter().map(|(_, view, _)| view).collect();
    let beside = |mine: &View| views.iter().find(|other| !mine.comparable(**other)).copied();
    views.iter().find_map(|mine| beside(mine).map(|other| Breach::Incomparable(*mine, other)))
}

fn not_kept(run: &Run, ring: &Ring, shown: &Definition) -> Vec<Breach> {
    let stores = shown.stores();
    let mut breaches = Vec::new();
    for (controller, view, event) in entered(run, ring) {
        let record = &run.records[usize::from(controller)];
        // A longer list shows every certificate that its prefix shows, so both ends stand for all later calls.
        let lengths = [event.map_or(0, |event| event.length), record.len()];
        let held = lengths.map(|length| Definition::new(ring.initial, &ring.senders, &record[..length]));
        for &store in stores.iter().filter(|store| store.top.strictly_within(view)) {
            if !held.iter().all(|held| held.has_certificate(store.notice, store.payload)) {
                breaches.push(Breach::NotKept { controller, view, store });
            }
        }
    }
    breaches
}

/// The deliveries that told other signers than their records have, and how many had store quorums of other signers to choose from.
fn signers(run: &Run, ring: &Ring) -> (Vec<Breach>, usize) {
    let mut records: HashMap<(u8, usize), Definition> = HashMap::new();
    let (mut breaches, mut apart) = (Vec::new(), 0);
    for Delivery { controller, notice, payload, signers: told, length, .. } in deliveries(run) {
        let record = &run.records[usize::from(controller)][..length];
        // Many notices are delivered by one record, one after the other.
        let held = records.entry((controller, length)).or_insert_with(|| Definition::new(ring.initial, &ring.senders, record));
        let sets = held.store_sets(notice, payload);
        let due = sets.first().map_or(0, |&(_, signers)| signers.into());
        if told != due {
            breaches.push(Breach::OtherSigners { controller, notice, told, due });
        }
        apart += usize::from(sets.last().is_some_and(|&(_, signers)| u32::from(signers) != due));
    }
    (breaches, apart)
}

/// The leaves that rule-followers signed, with who did and when.
fn leaves(run: &Run) -> impl Iterator<Item = (u8, u16)> + '_ {
    let followed = run.events.iter().filter(|event| run.is_follower(event.controller));
    followed.filter_map(|event| match event.deed {
        Deed::AskedToLeave { minute } => Some((event.controller, minute)),
        _ => None,
    })
}

/// Whether the minute lies between the first of some window and its end, counted from the start of the week.
fn is_open(ring: &Ring, minute: u16) -> bool {
    let counted = |window: &Window| {
        let day = 24 * 60 * u32::from(window.weekday);
        day + u32::from(window.first) <= u32::from(minute) && u32::from(minute) < day + u32::from(window.end)
    };
    ring.windows.is_empty() || ring.windows.iter().any(counted)
}

fn outside_window((controller, minute): (u8, u16)) -> Breach {
    Breach::OutsideWindow { controller, minute }
}

/// Whether the counted reports on the skipped views would make another binding for some notice than those on the needed ones.
fn binds_otherwise(held: &Definition, skipped: &[View], needed: &[View], notices: usize) -> bool {
    let reports = |views: &[View]| views.iter().flat_map(|view| held.counted(*view)).collect::<Vec<_>>();
    let (passed, heard) = (reports(skipped), reports(needed));
    let join = |notice: usize, from: Binding, reports: &[&Report]| {
        reports.iter().fold(from, |binding, report| binding.join(report.told[notice].binding))
    };
    (0..notices).any(|notice| {
        let binding = join(notice, Binding::Unbound, &heard);
        join(notice, binding, &passed) != binding
    })
}

/// How often a rule-follower entered past a skipped view without enough reports, and past one whose reports would have bound it otherwise.
fn short_roads(run: &Run, ring: &Ring, shown: &Definition) -> (usize, usize) {
    let (mut short, mut otherwise) = (0, 0);
    // What a record shows its run shows too, so most runs need no look at the records.
    if !shown.all_candidates().iter().any(|view| shown.is_skipped(*view)) {
        return (short, otherwise);
    }
    for (controller, _, event) in entered(run, ring) {
        let Some(event) = event else { continue };
        let held = Definition::new(ring.initial, &ring.senders, &run.records[usize::from(controller)][..event.length]);
        let Some(greatest) = held.greatest() else { continue };
        let (skipped, needed): (Vec<View>, Vec<View>) = greatest.below_top().iter().partition(|view| held.is_skipped(**view));
        short += usize::from(skipped.iter().any(|view| !held.is_reported(*view)));
        otherwise += usize::from(binds_otherwise(&held, &skipped, &needed, ring.senders.len()));
    }
    (short, otherwise)
}

fn depth(run: &Run, ring: &Ring, shown: &Definition) -> Depth {
    let views = entered(run, ring);
    let count = |k: u8| views.iter().filter(|(who, _, _)| *who == k).count();
    let changed = |before: usize, k: u8| {
        let moved = |event: &Event| event.controller == k && matches!(event.deed, Deed::Entered(_));
        run.events[..before].iter().any(moved)
    };
    let (short_roads, bound_otherwise) = short_roads(run, ring, shown);
    Depth {
        statements: run.statements.len(),
        tops: shown.tops().len(),
        entered: (0..16).map(count).max().unwrap_or(0),
        deliveries: deliveries(run).count(),
        late_deliveries: deliveries(run).filter(|delivery| changed(delivery.place, delivery.controller)).count(),
        notices: delivered_notices(run).len(),
        short_roads,
        bound_otherwise,
        appointed: if ring.windows.is_empty() { 0 } else { leaves(run).count() },
        stored_apart: 0,
    }
}
