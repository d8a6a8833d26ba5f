//! What a rule-breaker may sign: false votes, false reports, two of what should be one.

use reference::{Binding, Body, Evidence, History, Report, Rules, Statement, Told, View};

use crate::drive::Plan;
use crate::maker::Maker;
use crate::rng::Rng;

/// Has the liar sign something that fits, or nearly fits, what the pool shows.
pub fn lie<R: Rules>(maker: &mut Maker<R>, liar: u8, plan: &Plan) {
    let evidence = maker.evidence();
    let rng = &mut maker.rng;
    let notice = notice(rng, plan);
    let body = match rng.below(20) {
        0 => Body::Join,
        1 if !plan.careful => Body::Leave,
        1..=4 => agree_view(rng, &evidence),
        5..=8 => agree_history(rng, &evidence),
        9..=12 => Body::Report(report(rng, &evidence, plan)),
        13..=14 => Body::Prepare { notice, payload: payload(rng, &evidence, plan, notice) },
        15..=17 => Body::Ack { at: place(rng, &evidence), notice, payload: payload(rng, &evidence, plan, notice) },
        _ => Body::Store { at: place(rng, &evidence), notice, payload: payload(rng, &evidence, plan, notice) },
    };
    let outside = plan.careful && plan.members >> liar & 1 == 0;
    if outside && body == Body::Join {
        return;
    }
    maker.lie(&Statement::new(liar, body));
}

/// A view to sign at: mostly a sealed top, and the liar need not be its member.
fn place(rng: &mut Rng, evidence: &Evidence) -> View {
    let list = if rng.chance(80) { &evidence.tops } else { &evidence.candidates };
    rng.pick(list).unwrap_or(View::new(1, 0))
}

/// A notice of the ring, seldom one that its setup lacks.
fn notice(rng: &mut Rng, plan: &Plan) -> u8 {
    let notices = plan.senders.len();
    let notice = if rng.chance(4) { rng.between(notices, 255) } else { rng.below(notices) };
    notice as u8
}

/// A payload for the notice: mostly one of its own, else one of another notice or of none.
fn payload(rng: &mut Rng, evidence: &Evidence, plan: &Plan, notice: u8) -> u64 {
    let known = evidence.notices.get(usize::from(notice));
    let own = plan.payload(notice);
    match rng.below(20) {
        0..=9 => known.and_then(|known| rng.pick(&known.prepares)).unwrap_or(own),
        10..=12 => own,
        13..=14 => rng.pick(&plan.payloads).unwrap_or(own),
        15..=17 => own ^ 1,
        _ => rng.draw(),
    }
}

/// A view beside the wished one: itself, one that lacks a joiner or a leaver, or any.
fn beside(rng: &mut Rng, evidence: &Evidence) -> View {
    let wished = evidence.wished;
    let base = rng.pick(&evidence.tops).unwrap_or(wished);
    let view = match rng.below(5) {
        0 => wished,
        1 => View::new(wished.joined(), base.left()),
        2..=3 => {
            let joined = base.joined() | (wished.joined() & rng.draw() as u16);
            View::new(joined, (base.left() | (wished.left() & rng.draw() as u16)) & joined)
        }
        _ => View::new(base.joined() | 1 << rng.below(16), base.left()),
    };
    if view.has_members() {
        view
    } else {
        View::new(1, 0)
    }
}

fn agree_view(rng: &mut Rng, evidence: &Evidence) -> Body {
    Body::AgreeView { at: place(rng, evidence), view: beside(rng, evidence) }
}

/// A history that leaves some candidates out, or puts a view in that may not be one.
fn fork(rng: &mut Rng, evidence: &Evidence) -> History {
    let initial = evidence.candidates.first().copied().unwrap_or(View::new(1, 0));
    let mut views = vec![initial];
    let omit = rng.below(60);
    for &view in evidence.candidates.iter().skip(1) {
        let last = views[views.len() - 1];
        if last.strictly_within(view) && !rng.chance(omit) && views.len() < History::LIMIT {
            views.push(view);
        }
    }
    let extra = beside(rng, evidence);
    let last = views[views.len() - 1];
    if rng.chance(15) && last.strictly_within(extra) && views.len() < History::LIMIT {
        views.push(extra);
    }
    History::new(&views).unwrap_or_else(|| History::new(&[View::new(1, 0)]).expect("a view with a member"))
}

fn agree_history(rng: &mut Rng, evidence: &Evidence) -> Body {
    Body::AgreeHistory { at: place(rng, evidence), history: fork(rng, evidence) }
}

/// What a liar tells of a notice; of many notices it tells nothing for most.
fn tell(rng: &mut Rng, evidence: &Evidence, plan: &Plan, notice: u8) -> Told {
    if plan.senders.len() > 1 && rng.chance(60) {
        return Told::default();
    }
    let binding = match rng.below(10) {
        0..=3 => Binding::Unbound,
        4..=7 => Binding::Bound(payload(rng, evidence, plan, notice)),
        _ => Binding::Barred,
    };
    let kept = rng.chance(20).then(|| payload(rng, evidence, plan, notice));
    Told { binding, kept }
}

/// A report, seldom with a group too few or too many, which makes it no statement.
fn report(rng: &mut Rng, evidence: &Evidence, plan: &Plan) -> Report {
    let notices = plan.senders.len();
    let groups = if rng.chance(4) { (notices + 1).saturating_sub(2 * rng.below(2)).max(1) } else { notices };
    let told = (0..groups).map(|notice| tell(rng, evidence, plan, notice as u8)).collect();
    let view = if rng.chance(60) { evidence.wished } else { beside(rng, evidence) };
    Report { at: place(rng, evidence), view, told, history: fork(rng, evidence) }
}
