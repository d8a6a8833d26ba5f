//! What a list of statements shows, put down as the scope document defines it.
//!
//! The checker judges by these definitions and not by the engine's tables, so that a fault in the tables shows.

use std::cell::{OnceCell, RefCell};
use std::collections::HashMap;

use reference::{Binding, Body, Count, History, Report, Set, Statement, Told, View};

pub struct Definition<'a> {
    initial: View,
    /// By the number of the notice.
    senders: &'a [u8],
    statements: &'a [Statement],
    candidates: RefCell<HashMap<View, bool>>,
    sealed: RefCell<HashMap<History, bool>>,
    wished: OnceCell<View>,
    named: OnceCell<Vec<History>>,
    tops: OnceCell<Vec<View>>,
}

impl<'a> Definition<'a> {
    pub fn new(initial: View, senders: &'a [u8], statements: &'a [Statement]) -> Definition<'a> {
        Definition {
            initial,
            senders,
            statements,
            candidates: RefCell::default(),
            sealed: RefCell::default(),
            wished: OnceCell::new(),
            named: OnceCell::new(),
            tops: OnceCell::new(),
        }
    }

    fn origins(&self, says: impl Fn(&Body) -> bool) -> Set {
        let said = self.statements.iter().filter(|statement| says(&statement.body));
        said.fold(0, |origins, statement| origins | 1 << statement.origin)
    }

    pub fn wished(&self) -> View {
        *self.wished.get_or_init(|| {
            let joined = self.initial.joined() | self.origins(|body| *body == Body::Join);
            View::new(joined, self.origins(|body| *body == Body::Leave) & joined)
        })
    }

    /// The members of `at` that signed a statement of which `says` holds.
    fn signers(&self, at: View, says: impl Fn(&Body) -> bool) -> Set {
        self.origins(says) & at.members()
    }

    /// Whether a quorum of `at` signed a statement of which `says` holds; each member counts once.
    fn quorum_signed(&self, at: View, says: impl Fn(&Body) -> bool) -> bool {
        is_quorum(at, self.origins(says))
    }

    pub fn is_candidate(&self, view: View) -> bool {
        if let Some(&known) = self.candidates.borrow().get(&view) {
            return known;
        }
        let verdict = view == self.initial || (view.has_members() && view.within(self.wished()) && self.is_chosen(view));
        self.candidates.borrow_mut().insert(view, verdict);
        verdict
    }

    fn is_chosen(&self, view: View) -> bool {
        let places = self.statements.iter().filter_map(|statement| match statement.body {
            Body::AgreeView { at, view: chosen } if chosen == view => Some(at),
            _ => None,
        });
        distinct(places).into_iter().any(|top| {
            top.strictly_within(view) && self.quorum_signed(top, |body| *body == Body::AgreeView { at: top, view }) && self.is_top(top)
        })
    }

    pub fn is_sealed(&self, history: &History) -> bool {
        if let Some(&known) = self.sealed.borrow().get(history) {
            return known;
        }
        let verdict = history.views() == [self.initial] || self.is_agreed(history);
        self.sealed.borrow_mut().insert(*history, verdict);
        verdict
    }

    fn is_agreed(&self, history: &History) -> bool {
        let agreed_at = |top: View| self.quorum_signed(top, |body| *body == Body::AgreeHistory { at: top, history: *history });
        history.first() == self.initial
            && history.below_top().iter().any(|&top| agreed_at(top) && self.is_top(top))
            && history.views().iter().all(|&view| self.is_candidate(view))
    }

    pub fn is_top(&self, view: View) -> bool {
        view == self.initial || self.named().iter().any(|history| history.top() == view && self.is_sealed(history))
    }

    /// The histories that are named by an agreement.
    fn named(&self) -> &[History] {
        self.named.get_or_init(|| {
            distinct(self.statements.iter().filter_map(|statement| match statement.body {
                Body::AgreeHistory { history, .. } => Some(history),
                _ => None,
            }))
        })
    }

    /// All sealed histories, the initial one first.
    pub fn sealed_histories(&self) -> Vec<History> {
        let initial = History::new(&[self.initial]);
        distinct(initial.into_iter().chain(self.named().iter().copied().filter(|history| self.is_sealed(history))))
    }

    /// The sealed history that holds every other, if there is one.
    pub fn greatest(&self) -> Option<History> {
        let sealed = self.sealed_histories();
        sealed.iter().find(|history| sealed.iter().all(|other| history.holds(other))).copied()
    }

    /// Whether some sealed history lacks the view and has a top that is greater than it.
    pub fn is_skipped(&self, view: View) -> bool {
        let passes = |history: &History| view.strictly_within(history.top()) && !history.views().contains(&view);
        self.sealed_histories().iter().any(passes)
    }

    pub fn tops(&self) -> &[View] {
        self.tops.get_or_init(|| distinct(self.sealed_histories().iter().map(|history| history.top())))
    }

    /// All candidates, the initial view first.
    pub fn all_candidates(&self) -> Vec<View> {
        let chosen = self.statements.iter().filter_map(|statement| match statement.body {
            Body::AgreeView { view, .. } if self.is_candidate(view) => Some(view),
            _ => None,
        });
        distinct(std::iter::once(self.initial).chain(chosen))
    }

    /// The payloads that the notice's sender prepared, each once.
    fn prepares(&self, notice: u8) -> Vec<u64> {
        let Some(&sender) = self.senders.get(usize::from(notice)) else {
            return Vec::new();
        };
        distinct(self.statements.iter().filter_map(|statement| match statement.body {
            Body::Prepare { notice: mine, payload } if mine == notice && statement.origin == sender => Some(payload),
            _ => None,
        }))
    }

    fn prepared(&self, notice: u8, payload: u64) -> bool {
        let prepare = |&sender: &u8| self.statements.contains(&Statement::new(sender, Body::Prepare { notice, payload }));
        self.senders.get(usize::from(notice)).is_some_and(prepare)
    }

    pub fn has_certificate(&self, notice: u8, payload: u64) -> bool {
        let acked = |top: &View| self.quorum_signed(*top, |body| *body == Body::Ack { at: *top, notice, payload });
        self.prepared(notice, payload) && self.tops().iter().any(acked)
    }

    /// All payloads of the notice that have a certificate.
    pub fn certificates(&self, notice: u8) -> Vec<u64> {
        let acked = self.statements.iter().filter_map(|statement| match statement.body {
            Body::Ack { notice: mine, payload, .. } if mine == notice => Some(payload),
            _ => None,
        });
        distinct(acked).into_iter().filter(|&payload| self.has_certificate(notice, payload)).collect()
    }

    /// Whether there are two incomparable candidates, two sealed histories neither of which holds the other, or certificates for two payloads of one notice.
    pub fn contradicts(&self) -> bool {
        let candidates = self.all_candidates();
        let sealed = self.sealed_histories();
        let apart = |one: &View| candidates.iter().any(|other| !one.comparable(*other));
        let forked = |one: &History| sealed.iter().any(|other| !one.holds(other) && !other.holds(one));
        let torn = |notice: usize| self.certificates(notice as u8).len() > 1;
        candidates.iter().any(apart) || sealed.iter().any(forked) || (0..self.senders.len()).any(torn)
    }

    /// The sealed tops with the notices and payloads that a quorum of each stored at it.
    pub fn stores(&self) -> Vec<Store> {
        let tops = self.tops();
        let stores = self.statements.iter().filter_map(|statement| match statement.body {
            Body::Store { at, notice, payload } if tops.contains(&at) => Some(Store { top: at, notice, payload }),
            _ => None,
        });
        let by_quorum =
            |&Store { top, notice, payload }: &Store| self.quorum_signed(top, |body| *body == Body::Store { at: top, notice, payload });
        distinct(stores).into_iter().filter(by_quorum).collect()
    }

    /// Whether what a report tells of the notice has its grounds.
    fn counts_for(&self, notice: u8, told: &Told) -> bool {
        let bound = match told.binding {
            Binding::Unbound => true,
            Binding::Bound(payload) => self.prepared(notice, payload),
            Binding::Barred => self.prepares(notice).len() >= 2,
        };
        bound && told.kept.is_none_or(|payload| self.has_certificate(notice, payload))
    }

    /// The reports on the view that count.
    pub fn counted(&self, at: View) -> Vec<&Report> {
        let on = |statement: &'a Statement| match &statement.body {
            Body::Report(report) if report.at == at && self.counts(statement.origin, report) => Some(report),
            _ => None,
        };
        self.statements.iter().filter_map(on).collect()
    }

    /// Whether a quorum of the view has reports on it that count.
    pub fn is_reported(&self, at: View) -> bool {
        let counted = self.counted(at);
        self.quorum_signed(at, |body| matches!(body, Body::Report(report) if counted.contains(&report)))
    }

    /// The length of the shortest beginning of the list in which a quorum of `at` signed a statement of which `says` holds. Every length is tried,
    /// each by itself.
    fn shortest(&self, at: View, says: impl Fn(&Statement) -> bool) -> Option<usize> {
        let signers = |first: &[Statement]| first.iter().filter(|said| says(said)).fold(0, |origins, said| origins | 1 << said.origin);
        (0..=self.statements.len()).find(|&length| is_quorum(at, signers(&self.statements[..length])))
    }

    /// What a count that ends with the completing signer comes to.
    fn count(&self, at: View, says: impl Fn(&Statement) -> bool) -> Count {
        let shortest = self.shortest(at, says);
        Count { reached: shortest.is_some(), read: shortest.unwrap_or(self.statements.len()) }
    }

    /// The count of those that signed this body, of a statement at `at`.
    pub fn count_signed(&self, at: View, body: &Body) -> Count {
        self.count(at, |said| said.body == *body)
    }

    /// The count of the reports on the view that count in the whole list; nothing where a turn is refused with 7 or 6.
    pub fn count_reported(&self, at: View) -> Option<Count> {
        if self.contradicts() || self.all_candidates().len() > History::LIMIT {
            return None;
        }
        let counted = self.counted(at);
        Some(self.count(at, |said| matches!(&said.body, Body::Report(report) if counted.contains(&report))))
    }

    /// The least length of a beginning of the list in which a quorum of a sealed top of the whole list signed ack at it for the payload.
    pub fn acked_after(&self, notice: u8, payload: u64) -> Option<usize> {
        let shortest = |&at: &View| self.shortest(at, |said| said.body == Body::Ack { at, notice, payload });
        self.tops().iter().filter_map(shortest).min()
    }

    /// The members of `at` that signed this body, of a statement at `at`.
    pub fn who_signed(&self, at: View, body: &Body) -> Set {
        self.signers(at, |said| said == body)
    }

    /// The members of the view with reports on it that count; nothing where a turn is refused with 7 or 6.
    pub fn who_reported(&self, at: View) -> Option<Set> {
        if self.contradicts() || self.all_candidates().len() > History::LIMIT {
            return None;
        }
        let counts = |said: &&Statement| matches!(&said.body, Body::Report(report) if report.at == at && self.counts(said.origin, report));
        Some(self.statements.iter().filter(counts).fold(0, |origins, said| origins | 1 << said.origin))
    }

    /// The sealed tops at which a quorum signed a body, which `body` gives for each, and who did; by the eight digits of the tops.
    fn quorums_as_written(&self, body: impl Fn(View) -> Body) -> Vec<(View, Set)> {
        let mut tops = self.tops().to_vec();
        tops.sort_by_key(View::to_string);
        let signed = tops.into_iter().map(|top| (top, self.who_signed(top, &body(top))));
        signed.filter(|&(top, signers)| is_quorum(top, signers)).collect()
    }

    /// Who acknowledged the payload at each sealed top that has a certificate for it, the least top first.
    pub fn ack_sets(&self, notice: u8, payload: u64) -> Vec<(View, Set)> {
        if !self.prepared(notice, payload) {
            return Vec::new();
        }
        self.quorums_as_written(|at| Body::Ack { at, notice, payload })
    }

    /// Who stored the payload at each sealed top of which a quorum did, the least top first.
    pub fn store_sets(&self, notice: u8, payload: u64) -> Vec<(View, Set)> {
        self.quorums_as_written(|at| Body::Store { at, notice, payload })
    }

    pub fn counts(&self, origin: u8, report: &Report) -> bool {
        report.at.has_member(origin)
            && report.view.within(self.wished())
            && report.history.views().iter().all(|&view| self.is_candidate(view))
            && report.told.len() == self.senders.len()
            && (0..).zip(&*report.told).all(|(notice, told)| self.counts_for(notice, told))
    }
}

/// Whether these are, members of the view alone, a quorum of it.
fn is_quorum(at: View, signers: Set) -> bool {
    let members = at.members().count_ones();
    members > 0 && (signers & at.members()).count_ones() >= members - (members - 1) / 3
}

/// What a quorum of a sealed top stored at it.
#[derive(Clone, Copy, PartialEq, Eq, PartialOrd, Ord, Debug)]
pub struct Store {
    pub top: View,
    pub notice: u8,
    pub payload: u64,
}

fn distinct<T: PartialEq>(items: impl IntoIterator<Item = T>) -> Vec<T> {
    let mut list = Vec::new();
    for item in items {
        if !list.contains(&item) {
            list.push(item);
        }
    }
    list
}
