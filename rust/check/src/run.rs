//! A run of the bench as the list of what its rule-followers did.

use reference::bench::{run_watched, Line};
use reference::controller::Ring;
use reference::{Bench, Body, Outcome, Row, Rules, Set, Statement, View};

/// What a turn of a controller did that is judged.
#[derive(Clone, Copy, PartialEq, Eq, Debug)]
pub enum Deed {
    Entered(View),
    Delivered {
        notice: u8,
        payload: u64,
        signers: u32,
    },
    Prepared {
        notice: u8,
        payload: u64,
    },
    /// It signed its leave.
    AskedToLeave {
        minute: u16,
    },
}

#[derive(Clone, Copy, PartialEq, Eq, Debug)]
pub struct Event {
    pub controller: u8,
    pub deed: Deed,
    /// The length of the controller's record after the turn.
    pub length: usize,
}

/// One more than the greatest number of a refusal.
pub const REFUSALS: usize = 12;

/// A run after its whole list of events.
#[derive(Clone, Debug)]
pub struct Run {
    /// `None` if no setup was taken.
    pub ring: Option<Ring>,
    pub faulty: Set,
    /// In the order in which they happened.
    pub events: Vec<Event>,
    /// All statements that were signed.
    pub statements: Vec<Statement>,
    /// The records by controller; a record only grows, so a prefix is what it was earlier.
    pub records: Vec<Vec<Statement>>,
    /// By the number of the refusal.
    pub refused: [usize; REFUSALS],
    pub lines: usize,
}

impl Run {
    /// Runs the schedule with an engine that follows `R`.
    pub fn of<R: Rules>(schedule: &[u8]) -> Run {
        let mut bench = Bench::<R>::new();
        let mut events = Vec::new();
        let mut refused = [0; REFUSALS];
        let mut lines = 0;
        run_watched(&mut bench, schedule, |bench, line, row| {
            events.extend(event(bench, line, row));
            lines += 1;
            if let Outcome::Refused(refusal) = row.outcome {
                refused[refusal as usize] += 1;
            }
        });
        let ring = bench.controllers().find_map(|controller| controller.ring()).cloned();
        Run {
            ring,
            faulty: bench.faulty(),
            events,
            statements: bench.pool().statements().to_vec(),
            records: bench.controllers().map(|controller| controller.record().statements().to_vec()).collect(),
            refused,
            lines,
        }
    }

    pub fn is_follower(&self, controller: u8) -> bool {
        self.faulty >> controller & 1 == 0
    }
}

fn event<R: Rules>(bench: &Bench<R>, line: &[u8], row: &Row) -> Option<Event> {
    let Some(Line::Turn { k: controller, minute }) = Line::read(line, bench.groups()) else {
        return None;
    };
    let deed = match row.outcome {
        Outcome::Entered(view) => Deed::Entered(view),
        Outcome::Delivered { notice, payload, signers } => Deed::Delivered { notice, payload, signers },
        Outcome::Signed(number) => match bench.pool().statements().get(number as usize)?.body {
            Body::Prepare { notice, payload } => Deed::Prepared { notice, payload },
            Body::Leave => Deed::AskedToLeave { minute },
            _ => return None,
        },
        _ => return None,
    };
    let length = bench.controller(controller)?.record().len();
    Some(Event { controller, deed, length })
}
