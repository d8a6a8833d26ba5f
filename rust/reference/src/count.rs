//! Counting who signed, up to the signer who completes a quorum; and the sets of all who did, bit k for controller k.

use crate::evidence::Evidence;
use crate::statement::{Body, Statement};
use crate::view::{alone, History, Set, View};

/// What a count came to.
#[derive(Clone, Copy, PartialEq, Eq, Debug)]
pub struct Count {
    /// Whether a quorum signed.
    pub reached: bool,
    /// How many statements were read: all without a quorum, else those up to the one that completed it.
    pub read: usize,
}

impl Count {
    /// Counts the members of `at` that signed a statement of which `says` holds, each once, and ends with the one that completes a quorum.
    pub fn of(statements: &[Statement], at: View, says: impl Fn(&Statement) -> bool) -> Count {
        let nobody = Count { reached: false, read: statements.len() };
        let Some(quorum) = at.quorum() else { return nobody };
        let mut signers: Set = 0;
        for (place, statement) in statements.iter().enumerate() {
            if !at.has_member(statement.origin) || !says(statement) {
                continue;
            }
            signers |= alone(statement.origin);
            if signers.count_ones() >= quorum {
                return Count { reached: true, read: place + 1 };
            }
        }
        nobody
    }

    /// How many statements were read, if a quorum signed.
    pub fn completed(self) -> Option<usize> {
        self.reached.then_some(self.read)
    }
}

/// All members of `at` that signed a statement of which `says` holds. They are a quorum exactly where the count is reached.
pub fn who(statements: &[Statement], at: View, says: impl Fn(&Statement) -> bool) -> u32 {
    let signed = statements.iter().filter(|statement| at.has_member(statement.origin) && says(statement));
    signed.fold(0, |signers, statement| signers | u32::from(alone(statement.origin)))
}

/// What a quorum of a view may have signed at it.
#[derive(Clone, PartialEq, Eq, Hash, Debug)]
pub enum Question {
    AgreeView {
        at: View,
        view: View,
    },
    /// For any list of views: nobody signs for one that is no history.
    AgreeHistory {
        at: View,
        views: Vec<View>,
    },
    Ack {
        at: View,
        notice: u8,
        payload: u64,
    },
    Store {
        at: View,
        notice: u8,
        payload: u64,
    },
}

impl Question {
    /// What the body is an answer to, if it is one that is counted so.
    pub fn of(body: &Body) -> Option<Question> {
        match *body {
            Body::AgreeView { at, view } => Some(Question::AgreeView { at, view }),
            Body::AgreeHistory { at, ref history } => Some(Question::AgreeHistory { at, views: history.views().to_vec() }),
            Body::Ack { at, notice, payload } => Some(Question::Ack { at, notice, payload }),
            Body::Store { at, notice, payload } => Some(Question::Store { at, notice, payload }),
            Body::Join | Body::Leave | Body::Report(_) | Body::Prepare { .. } => None,
        }
    }

    /// The view whose members are asked.
    pub fn at(&self) -> View {
        match *self {
            Question::AgreeView { at, .. } | Question::AgreeHistory { at, .. } | Question::Ack { at, .. } | Question::Store { at, .. } => {
                at
            }
        }
    }

    /// Whether who signed the body said yes.
    pub fn is_answered_by(&self, body: &Body) -> bool {
        match (self, body) {
            (Question::AgreeView { at, view }, Body::AgreeView { at: there, view: said }) => (at, view) == (there, said),
            (Question::AgreeHistory { at, views }, Body::AgreeHistory { at: there, history }) => at == there && views == history.views(),
            (Question::Ack { at, notice, payload }, Body::Ack { at: there, notice: of, payload: said })
            | (Question::Store { at, notice, payload }, Body::Store { at: there, notice: of, payload: said }) => {
                (at, notice, payload) == (there, of, said)
            }
            _ => false,
        }
    }

    /// Whether a quorum of the view signed this.
    pub fn count(&self, statements: &[Statement]) -> Count {
        Count::of(statements, self.at(), |statement| self.is_answered_by(&statement.body))
    }

    /// All members of the view that signed this.
    pub fn who(&self, statements: &[Statement]) -> u32 {
        who(statements, self.at(), |statement| self.is_answered_by(&statement.body))
    }
}

/// Whether a quorum of the view has counted reports on it among these statements; `None` where a turn is refused with 7 or 6, since no report is
/// judged then.
pub fn count_reports(initial: View, senders: &[u8], statements: &[Statement], at: View) -> Option<Count> {
    let evidence = Evidence::of(initial, senders, statements);
    evidence.is_judged().then(|| evidence.count_reports(statements, at))
}

/// All members of the view that have counted reports on it among these statements; `None` where no report is judged.
pub fn who_reported(initial: View, senders: &[u8], statements: &[Statement], at: View) -> Option<u32> {
    let evidence = Evidence::of(initial, senders, statements);
    evidence.is_judged().then(|| evidence.who_reported(statements, at))
}

impl Evidence {
    /// Whether a turn goes on to its rules, where it is refused with neither 7 nor 6.
    pub fn is_judged(&self) -> bool {
        !self.conflict() && self.candidates.len() <= History::LIMIT
    }

    /// Whether the statement is a report on the view that counts by this evidence.
    fn is_counted(&self, Statement { origin, body }: &Statement, at: View) -> bool {
        match body {
            Body::Report(report) => report.at == at && self.counts(*origin, report),
            _ => false,
        }
    }

    /// The count of the reports on the view that count by this evidence, which is that of the statements.
    pub fn count_reports(&self, statements: &[Statement], at: View) -> Count {
        Count::of(statements, at, |statement| self.is_counted(statement, at))
    }

    /// All members of the view that have such reports on it.
    pub fn who_reported(&self, statements: &[Statement], at: View) -> u32 {
        who(statements, at, |statement| self.is_counted(statement, at))
    }

    /// All that acknowledged the payload at the least sealed top, as written, that has a certificate for it; nobody if none has.
    pub fn ack_set(&self, notice: u8, payload: u64) -> u32 {
        let known = self.notices.get(usize::from(notice));
        known.and_then(|known| known.acks(payload)).map_or(0, |acks| acks.signers.into())
    }

    /// All that stored the payload at the least sealed top, as written, of which a quorum did; nobody if none of any did.
    pub fn store_set(&self, notice: u8, payload: u64) -> u32 {
        let known = self.notices.get(usize::from(notice));
        known.and_then(|known| known.stores(payload)).map_or(0, |stores| stores.signers.into())
    }

    /// After how many of the statements, whose evidence this is, a quorum of a sealed top had signed ack at it for the payload; the fewest, where
    /// quorums of several tops have.
    pub fn acked_after(&self, statements: &[Statement], notice: u8, payload: u64) -> Option<usize> {
        let completed = |&at: &View| Question::Ack { at, notice, payload }.count(statements).completed();
        self.tops.iter().filter_map(completed).min()
    }
}
