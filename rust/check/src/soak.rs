//! Many generated runs under the checker, with totals of how deep they went.

use reference::{Document, Rules};

use crate::judge::{judge, Breach, Depth, Verdict};
use crate::run::{Run, REFUSALS};

/// What a number of runs of one style came to.
#[derive(Clone, Debug, Default)]
pub struct Totals {
    pub runs: usize,
    pub within_premises: usize,
    /// The seeds of the runs within the premises on which demand 3, or what its argument rests on, fails.
    pub failed: Vec<u64>,
    /// The kinds of breaches in the runs within the premises, each once.
    pub kinds: Vec<&'static str>,
    /// Runs outside the premises that break demand 3, which shows that the liars do harm where they can.
    pub broken_outside: usize,
    /// Runs within the premises with at least 4 sealed tops.
    pub four_tops: usize,
    /// Runs within the premises in which a rule-follower entered at least 4 views.
    pub four_entered: usize,
    /// Runs within the premises with a delivery.
    pub delivering: usize,
    /// Runs within the premises with a delivery after a change of view.
    pub late: usize,
    /// Runs within the premises in which two notices were delivered.
    pub two_notices: usize,
    /// Runs within the premises in which somebody entered past a skipped view that lacked a quorum of reports.
    pub short_roads: usize,
    /// Runs within the premises in which somebody entered past a skipped view whose reports would have bound it otherwise.
    pub bound_otherwise: usize,
    /// Runs within the premises in which somebody left in a window.
    pub appointed: usize,
    /// Runs within the premises with a delivery whose record has store quorums of other signers at two tops.
    pub stored_apart: usize,
    /// The greatest of each number over the runs within the premises.
    pub most: Depth,
    /// The runs that met each refusal, by its number.
    pub refused: [usize; REFUSALS],
}

impl Totals {
    fn take(&mut self, seed: u64, run: &Run, verdict: &Verdict) {
        self.runs += 1;
        for (total, &count) in self.refused.iter_mut().zip(&run.refused) {
            *total += usize::from(count > 0);
        }
        if !verdict.within_premises {
            self.broken_outside += usize::from(!verdict.breaches.is_empty());
            return;
        }
        let depth = verdict.depth;
        self.within_premises += 1;
        self.four_tops += usize::from(depth.tops >= 4);
        self.four_entered += usize::from(depth.entered >= 4);
        self.delivering += usize::from(depth.deliveries > 0);
        self.late += usize::from(depth.late_deliveries > 0);
        self.two_notices += usize::from(depth.notices > 1);
        self.short_roads += usize::from(depth.short_roads > 0);
        self.bound_otherwise += usize::from(depth.bound_otherwise > 0);
        self.appointed += usize::from(depth.appointed > 0);
        self.stored_apart += usize::from(depth.stored_apart > 0);
        self.most = Depth {
            statements: self.most.statements.max(depth.statements),
            tops: self.most.tops.max(depth.tops),
            entered: self.most.entered.max(depth.entered),
            deliveries: self.most.deliveries.max(depth.deliveries),
            late_deliveries: self.most.late_deliveries.max(depth.late_deliveries),
            notices: self.most.notices.max(depth.notices),
            short_roads: self.most.short_roads.max(depth.short_roads),
            bound_otherwise: self.most.bound_otherwise.max(depth.bound_otherwise),
            appointed: self.most.appointed.max(depth.appointed),
            stored_apart: self.most.stored_apart.max(depth.stored_apart),
        };
        if !verdict.holds() {
            self.failed.push(seed);
            self.kinds.extend(verdict.breaches.iter().map(Breach::kind));
            self.kinds.extend(verdict.contradiction.then_some("contradiction"));
            self.kinds.sort_unstable();
            self.kinds.dedup();
        }
    }
}

impl std::fmt::Display for Totals {
    fn fmt(&self, f: &mut std::fmt::Formatter<'_>) -> std::fmt::Result {
        let Depth { statements, tops, entered, late_deliveries, notices, .. } = self.most;
        write!(f, "{} runs, {} within the premises, {} failed {:?}; ", self.runs, self.within_premises, self.failed.len(), self.kinds)?;
        write!(f, "{} broken outside; ", self.broken_outside)?;
        write!(f, "4 tops or more {}, 4 entered or more {}, ", self.four_tops, self.four_entered)?;
        write!(f, "delivering {}, after a change {}, two notices {}, ", self.delivering, self.late, self.two_notices)?;
        write!(f, "past a skipped view {}, whose reports bind otherwise {}, ", self.short_roads, self.bound_otherwise)?;
        write!(f, "leaving in a window {}, stored at two tops by others {}; ", self.appointed, self.stored_apart)?;
        write!(f, "most: statements {statements}, tops {tops}, entered {entered}, late deliveries {late_deliveries}, ")?;
        write!(f, "notices delivered {notices}; ")?;
        write!(f, "runs with refusals 1 to 11: {:?}", &self.refused[1..])
    }
}

/// Runs `count` schedules of the style, from the seed on.
pub fn soak(style: &str, seed: u64, count: u64, lines: usize) -> Option<Totals> {
    soak_with::<Document>(style, seed, count, lines)
}

/// The same with an engine that follows `R`.
pub fn soak_with<R: Rules>(style: &str, seed: u64, count: u64, lines: usize) -> Option<Totals> {
    let mut totals = Totals::default();
    for seed in seed..seed.saturating_add(count) {
        let run = Run::of::<R>(&generate::schedule_for::<R>(style, seed, lines)?);
        totals.take(seed, &run, &judge(&run));
    }
    Some(totals)
}
