//! The engine of one controller.

use std::marker::PhantomData;

use crate::evidence::{is_quorum, Evidence, Known, Quorum};
use crate::record::Record;
use crate::rules::{Document, Rules};
use crate::statement::{Binding, Body, Fields, Report, Statement, Told, NOTICES};
use crate::view::{alone, History, Set, View, CONTROLLERS};
use crate::window::{Window, WEEK, WINDOWS};

/// Why a call is refused; the number is the one that the bench prints.
#[derive(Clone, Copy, PartialEq, Eq, Debug)]
pub enum Refusal {
    Setup = 1,
    Statement = 2,
    Present = 3,
    Full = 4,
    Request = 5,
    Candidates = 6,
    Conflict = 7,
    Unreadable = 8,
    Notice = 9,
    Window = 10,
    Minute = 11,
}

/// What a call answers.
#[derive(Clone, PartialEq, Eq, Debug)]
pub enum Answer {
    Taken,
    Signed(Statement),
    Entered(View),
    /// With all that stored the payload at the least sealed top, as written, of which a quorum did; bit k for controller k.
    Delivered {
        notice: u8,
        payload: u64,
        signers: u32,
    },
    Left,
    Quiet,
    Refused(Refusal),
}

/// What a taken setup fixes for good.
#[derive(Clone, PartialEq, Eq, Debug)]
pub struct Ring {
    pub initial: View,
    /// By the number of the notice.
    pub senders: Vec<u8>,
    /// None means that a leave waits for no window.
    pub windows: Vec<Window>,
}

impl Ring {
    /// Whether a leave may be signed in this minute of the week.
    pub fn is_open(&self, minute: u16) -> bool {
        self.windows.is_empty() || self.windows.iter().any(|window| window.has(minute))
    }
}

/// The requests that were taken and are about no notice.
#[derive(Clone, Copy, PartialEq, Eq, Debug, Default)]
pub struct Requests {
    pub join: bool,
    pub leave: bool,
}

/// What a controller has of one notice.
#[derive(Clone, Copy, PartialEq, Eq, Debug, Default)]
pub struct Notice {
    pub binding: Binding,
    pub delivered: bool,
    /// The payload that is to be sent.
    pub send: Option<u64>,
}

/// One controller with its record.
pub struct Controller<R = Document> {
    number: u8,
    ring: Option<Ring>,
    entered: Vec<View>,
    /// By number; empty before setup.
    notices: Vec<Notice>,
    requests: Requests,
    record: Record,
    rules: PhantomData<R>,
}

/// What the first rule that applies has a controller do.
enum Step {
    Sign(Body),
    /// With the bindings by the number of the notice.
    Enter(View, Vec<Binding>),
    Deliver {
        notice: u8,
        payload: u64,
        signers: u32,
    },
    Rest,
}

impl<R: Rules> Controller<R> {
    /// A controller that waits for its setup.
    pub fn new(number: u8) -> Controller<R> {
        Controller {
            number,
            ring: None,
            entered: Vec::new(),
            notices: Vec::new(),
            requests: Requests::default(),
            record: Record::default(),
            rules: PhantomData,
        }
    }

    pub fn number(&self) -> u8 {
        self.number
    }

    pub fn ring(&self) -> Option<&Ring> {
        self.ring.as_ref()
    }

    pub fn entered(&self) -> &[View] {
        &self.entered
    }

    /// What it has of each notice, by number; nothing before setup.
    pub fn notices(&self) -> &[Notice] {
        &self.notices
    }

    /// The number of groups that a report has, which is 1 before setup.
    pub fn groups(&self) -> usize {
        self.ring.as_ref().map_or(1, |ring| ring.senders.len())
    }

    pub fn requests(&self) -> Requests {
        self.requests
    }

    pub fn record(&self) -> &Record {
        &self.record
    }

    /// Starts the controller in a ring with a sender for each notice, whose members leave only in the windows.
    pub fn setup(&mut self, members: Set, senders: &[u8], windows: &[Window]) -> Answer {
        let numbered = self.number < CONTROLLERS && senders.iter().all(|&sender| sender < CONTROLLERS);
        let counted = (1..=NOTICES).contains(&senders.len());
        if self.ring.is_some() || members == 0 || !numbered || !counted {
            return Answer::Refused(Refusal::Setup);
        }
        if windows.len() > WINDOWS || !windows.iter().all(|window| window.is_sound()) {
            return Answer::Refused(Refusal::Window);
        }
        let initial = View::new(members, 0);
        self.ring = Some(Ring { initial, senders: senders.to_vec(), windows: windows.to_vec() });
        self.notices = vec![Notice::default(); senders.len()];
        if initial.has_member(self.number) {
            self.entered.push(initial);
        }
        Answer::Taken
    }

    pub fn join(&mut self) -> Answer {
        let number = self.number;
        self.request(|ring, requests, _| {
            let allowed = !ring.initial.has_member(number) && !requests.join;
            requests.join = true;
            allowed
        })
    }

    pub fn leave(&mut self) -> Answer {
        self.request(|_, requests, entered| {
            let allowed = entered && !requests.leave;
            requests.leave = true;
            allowed
        })
    }

    pub fn send(&mut self, notice: u8, payload: u64) -> Answer {
        let Some(ring) = &self.ring else {
            return Answer::Refused(Refusal::Unreadable);
        };
        let place = usize::from(notice);
        let (Some(&sender), Some(noted)) = (ring.senders.get(place), self.notices.get_mut(place)) else {
            return Answer::Refused(Refusal::Notice);
        };
        if sender != self.number || noted.send.is_some() {
            return Answer::Refused(Refusal::Request);
        }
        noted.send = Some(payload);
        Answer::Taken
    }

    /// Notes a request if `note`, given also whether a view was entered, allows it.
    fn request(&mut self, note: impl FnOnce(&Ring, &mut Requests, bool) -> bool) -> Answer {
        let Some(ring) = &self.ring else {
            return Answer::Refused(Refusal::Unreadable);
        };
        let mut requests = self.requests;
        if !note(ring, &mut requests, !self.entered.is_empty()) {
            return Answer::Refused(Refusal::Request);
        }
        self.requests = requests;
        Answer::Taken
    }

    pub fn add(&mut self, statement: &Statement) -> Answer {
        let Some(ring) = &self.ring else {
            return Answer::Refused(Refusal::Unreadable);
        };
        if !statement.keeps_field_rules(ring.senders.len()) {
            return Answer::Refused(Refusal::Statement);
        }
        if usize::from(statement.notice()) >= ring.senders.len() {
            return Answer::Refused(Refusal::Notice);
        }
        if self.record.holds(statement) {
            return Answer::Refused(Refusal::Present);
        }
        match self.record.push(statement.clone()) {
            Some(_) => Answer::Taken,
            None => Answer::Refused(Refusal::Full),
        }
    }

    /// Adds the statement that the text is.
    pub fn add_text(&mut self, text: &[u8]) -> Answer {
        self.add_read(Statement::read(text, self.groups()))
    }

    /// Adds the statement that the fields stand for.
    pub fn add_fields(&mut self, fields: &Fields) -> Answer {
        self.add_read(Statement::from_fields(fields, self.groups()))
    }

    fn add_read(&mut self, read: Option<Statement>) -> Answer {
        match read {
            Some(statement) => self.add(&statement),
            None if self.ring.is_none() => Answer::Refused(Refusal::Unreadable),
            None => Answer::Refused(Refusal::Statement),
        }
    }

    /// A turn in this minute of the week, with a pool of its own, which has room while the record has.
    pub fn turn(&mut self, minute: u16) -> Answer {
        self.turn_with(minute, |_| true)
    }

    /// A turn where `room` says whether a statement may go into the pool.
    pub fn turn_with(&mut self, minute: u16, room: impl FnOnce(&Statement) -> bool) -> Answer {
        let Some(ring) = &self.ring else {
            return Answer::Refused(Refusal::Unreadable);
        };
        if minute >= WEEK {
            return Answer::Refused(Refusal::Minute);
        }
        let evidence = self.evidence(ring);
        let situation = match self.situation(ring, minute, &evidence) {
            Ok(situation) => situation,
            Err(refusal) => return Answer::Refused(refusal),
        };
        let (step, top) = (situation.first_rule(), situation.top);
        self.take(step, top, room)
    }

    /// What its record shows in its ring.
    pub(crate) fn evidence(&self, ring: &Ring) -> Evidence {
        Evidence::gather::<R>(ring.initial, &ring.senders, self.record.statements())
    }

    /// Whether it has entered the view and nothing greater.
    pub(crate) fn stands_in(&self, top: View) -> bool {
        self.entered.contains(&top) && !self.entered.iter().any(|view| top.strictly_within(*view))
    }

    /// How it is before a turn in this minute, or why the turn is refused.
    pub(crate) fn situation<'a>(&'a self, ring: &'a Ring, minute: u16, evidence: &'a Evidence) -> Result<Situation<'a, R>, Refusal> {
        if evidence.conflict() {
            return Err(Refusal::Conflict);
        }
        let (Some(candidates), Some(greatest)) = (History::new(&evidence.candidates), evidence.greatest()) else {
            return Err(Refusal::Candidates);
        };
        let top = greatest.top();
        Ok(Situation { controller: self, ring, minute, evidence, candidates, greatest, top, stands: self.stands_in(top) })
    }

    fn take(&mut self, step: Step, top: View, room: impl FnOnce(&Statement) -> bool) -> Answer {
        match step {
            Step::Sign(body) => self.sign(body, room),
            Step::Enter(view, bindings) => {
                self.entered.push(view);
                self.notices.iter_mut().zip(bindings).for_each(|(notice, binding)| notice.binding = binding);
                Answer::Entered(view)
            }
            Step::Deliver { notice, payload, signers } => {
                self.notices[usize::from(notice)].delivered = true;
                Answer::Delivered { notice, payload, signers }
            }
            Step::Rest if top.left() & alone(self.number) != 0 => Answer::Left,
            Step::Rest => Answer::Quiet,
        }
    }

    fn sign(&mut self, body: Body, room: impl FnOnce(&Statement) -> bool) -> Answer {
        let statement = Statement::new(self.number, body);
        if self.record.is_full() || !room(&statement) {
            return Answer::Refused(Refusal::Full);
        }
        // Only rule 5 signs an ack, and it binds; a refused signature leaves the binding as it was.
        if let Body::Ack { notice, payload, .. } = statement.body {
            self.notices[usize::from(notice)].binding = Binding::Bound(payload);
        }
        self.record.push(statement.clone());
        Answer::Signed(statement)
    }
}

/// A controller before a turn, with what its record shows.
pub(crate) struct Situation<'a, R> {
    controller: &'a Controller<R>,
    ring: &'a Ring,
    minute: u16,
    evidence: &'a Evidence,
    /// All candidates; they form a chain of at most 16 views here.
    candidates: History,
    greatest: &'a History,
    top: View,
    stands: bool,
}

impl<R: Rules> Situation<'_, R> {
    fn first_rule(&self) -> Step {
        self.report()
            .or_else(|| self.enter())
            .or_else(|| self.agree_view())
            .or_else(|| self.agree_history())
            .or_else(|| self.ack())
            .or_else(|| self.store())
            .or_else(|| self.deliver())
            .or_else(|| self.join())
            .or_else(|| self.leave())
            .or_else(|| self.prepare())
            .unwrap_or(Step::Rest)
    }

    /// The bodies of the controller's own statements.
    fn own(&self) -> impl Iterator<Item = &Body> {
        let statements = self.controller.record.statements().iter();
        statements.filter(|statement| statement.origin == self.controller.number).map(|statement| &statement.body)
    }

    fn sign_once(&self, body: Body) -> Option<Step> {
        let statement = Statement::new(self.controller.number, body);
        let signed = self.controller.record.holds(&statement);
        (!signed).then_some(Step::Sign(statement.body))
    }

    /// The notices, bit j for notice j, that `of` finds in the controller's own statements.
    fn own_notices(&self, of: impl Fn(&Body) -> Option<u8>) -> u64 {
        self.own().filter_map(of).fold(0, |notices, notice| notices | bit(notice))
    }

    /// What `rule` has the controller do for the least notice to which it applies.
    fn least(&self, rule: impl Fn(u8, &Notice, &Known) -> Option<Step>) -> Option<Step> {
        let all = self.controller.notices.iter().zip(&self.evidence.notices);
        (0..).zip(all).find_map(|(notice, (mine, known))| rule(notice, mine, known))
    }

    /// Rule 1.
    fn report(&self) -> Option<Step> {
        let reported: Vec<View> = self.own().filter_map(|body| report_of(body).map(|report| report.at)).collect();
        let owes = |view: &&View| view.has_member(self.controller.number) && !reported.contains(view);
        let at = *self.greatest.below_top().iter().find(owes)?;
        let all = self.controller.notices.iter().zip(&self.evidence.notices);
        let tell = |(mine, known): (&Notice, &Known)| Told {
            binding: mine.binding,
            kept: known.certificate().filter(|_| R::CERTIFICATE_REPORTED),
        };
        let told = all.map(tell).collect();
        Some(Step::Sign(Body::Report(Report { at, view: self.evidence.wished, told, history: self.candidates })))
    }

    /// Whether it is a member of the top and has not entered it.
    fn is_due(&self) -> bool {
        self.top.has_member(self.controller.number) && !self.controller.entered.contains(&self.top)
    }

    /// Rule 2.
    fn enter(&self) -> Option<Step> {
        if !self.is_due() {
            return None;
        }
        let needed = self.needed();
        let older = self.greatest.below_top();
        let heard = if R::SKIPPED_UNHEARD { &needed } else { older };
        let carried = R::BINDING_CARRIED && (R::SHORT_ROAD_BINDS || needed == older);
        let mut reporters = [0 as Set; History::LIMIT];
        let mut bindings: Vec<Binding> = self.controller.notices.iter().map(|notice| notice.binding).collect();
        for Statement { origin, body } in self.controller.record.statements() {
            let Some(report) = report_of(body) else { continue };
            let Some(place) = heard.iter().position(|view| *view == report.at) else { continue };
            if self.evidence.counts_by::<R>(*origin, report) {
                reporters[place] |= alone(*origin);
                let told = report.told.iter().filter(|_| carried);
                bindings.iter_mut().zip(told).for_each(|(binding, told)| *binding = binding.join(told.binding));
            }
        }
        let quorum =
            |(view, reporters): (&View, &Set)| is_quorum::<R>(*view, *reporters) || (!R::SKIPPED_UNHEARD && !needed.contains(view));
        heard.iter().zip(&reporters).all(quorum).then_some(Step::Enter(self.top, bindings))
    }

    /// Whether a window is all that a leave waits for.
    pub(crate) fn waits_for_window(&self) -> bool {
        !self.ring.windows.is_empty() && self.leave_at_any_time().is_some()
    }

    /// The top that it is a member of and has not entered, with the views that lack a quorum of counted reports, each with its members that have none.
    pub(crate) fn waits_for_reports(&self) -> (View, Vec<(View, Set)>) {
        if !self.is_due() {
            return (self.top, Vec::new());
        }
        let needed = self.needed();
        let mut reporters = [0 as Set; History::LIMIT];
        for Statement { origin, body } in self.controller.record.statements() {
            let Some(report) = report_of(body) else { continue };
            let Some(place) = needed.iter().position(|view| *view == report.at) else { continue };
            // A member counts once, so that its later reports need not be judged.
            if reporters[place] & alone(*origin) == 0 && self.evidence.counts_by::<R>(*origin, report) {
                reporters[place] |= alone(*origin);
            }
        }
        let lacking = needed.iter().zip(reporters).filter(|(view, reporters)| !is_quorum::<R>(**view, *reporters));
        (self.top, lacking.map(|(view, reporters)| (*view, view.members() & !reporters)).collect())
    }

    /// The views below the top that need reports, since no sealed history skips them.
    fn needed(&self) -> Vec<View> {
        let older = self.greatest.below_top();
        let mut skipped = [false; History::LIMIT];
        // The greatest history has all its own views, so only the others can lack one; it is the last of the sealed.
        let others = self.evidence.sealed.split_last().map_or(&[][..], |(_, others)| others);
        others.iter().for_each(|history| skip::<R>(&mut skipped, self.greatest, history));
        if !R::SKIPPED_BY_SEALED {
            let named = self.controller.record.statements().iter().filter_map(|statement| history_of(&statement.body));
            named.for_each(|history| skip::<R>(&mut skipped, self.greatest, history));
        }
        let from = if R::EVERY_OLDER_VIEW { 0 } else { older.len().saturating_sub(1) };
        let mut needed = Vec::with_capacity(older.len());
        needed.extend((from..older.len()).filter(|place| !(R::VIEWS_SKIPPED && skipped[*place])).map(|place| older[place]));
        needed
    }

    /// Rule 3.
    fn agree_view(&self) -> Option<Step> {
        let wished = self.evidence.wished;
        if !self.stands || !wished.has_members() || wished == self.top {
            return None;
        }
        self.sign_once(Body::AgreeView { at: self.top, view: wished })
    }

    /// Rule 4.
    fn agree_history(&self) -> Option<Step> {
        if !self.stands || self.candidates.top() == self.top {
            return None;
        }
        self.sign_once(Body::AgreeHistory { at: self.top, history: self.candidates })
    }

    /// Rule 5.
    fn ack(&self) -> Option<Step> {
        if !self.stands {
            return None;
        }
        let acked = self.own_notices(|body| match *body {
            Body::Ack { at, notice, .. } if at == self.top => Some(notice),
            _ => None,
        });
        self.least(|notice, mine, known| {
            let prepared = || known.prepares.first().copied().filter(|_| self.top.has_member(self.ring.senders[usize::from(notice)]));
            let payload = match mine.binding {
                _ if acked & bit(notice) != 0 => return None,
                Binding::Bound(payload) if R::BINDING_KEPT => payload,
                Binding::Barred if R::BINDING_KEPT => return None,
                _ => prepared()?,
            };
            Some(Step::Sign(Body::Ack { at: self.top, notice, payload }))
        })
    }

    /// Rule 6.
    fn store(&self) -> Option<Step> {
        if !self.stands {
            return None;
        }
        let stored = self.own_notices(|body| match *body {
            Body::Store { at, notice, .. } if at == self.top => Some(notice),
            _ => None,
        });
        self.least(|notice, _, known| {
            let payload = known.certificate().filter(|_| stored & bit(notice) == 0)?;
            Some(Step::Sign(Body::Store { at: self.top, notice, payload }))
        })
    }

    /// Rule 7.
    fn deliver(&self) -> Option<Step> {
        let Controller { number, entered, .. } = self.controller;
        if entered.is_empty() || self.top.left() & alone(*number) != 0 {
            return None;
        }
        self.least(|notice, mine, known| {
            let payload = known.certificate()?;
            let stores = known.stores(payload).filter(|_| !(mine.delivered && R::DELIVERED_ONCE))?;
            Some(Step::Deliver { notice, payload, signers: self.told(notice, stores) })
        })
    }

    /// The signers of the stores, as a delivery tells them.
    fn told(&self, notice: u8, stores: &Quorum) -> u32 {
        if R::MEMBERS_TOLD {
            return stores.signers.into();
        }
        let stored = Body::Store { at: stores.top, notice, payload: stores.payload };
        let signed = self.controller.record.statements().iter().filter(|statement| statement.body == stored);
        signed.fold(0, |signers, statement| signers | u32::from(alone(statement.origin)))
    }

    /// Rule 8.
    fn join(&self) -> Option<Step> {
        let asked = self.controller.requests.join && (R::LEAVE_ALONE_IN_WINDOW || self.ring.is_open(self.minute));
        asked.then(|| self.sign_once(Body::Join)).flatten()
    }

    /// Rule 9.
    fn leave(&self) -> Option<Step> {
        if R::LEAVE_IN_WINDOW && !self.ring.is_open(self.minute) {
            return None;
        }
        self.leave_at_any_time()
    }

    /// Rule 9 as it were without windows.
    fn leave_at_any_time(&self) -> Option<Step> {
        if !self.controller.requests.leave {
            return None;
        }
        let prepared = self.own_notices(|body| match *body {
            Body::Prepare { notice, .. } => Some(notice),
            _ => None,
        });
        let waits = |(notice, (mine, known)): (u8, (&Notice, &Known))| {
            !mine.delivered && (known.certificate().is_some() || prepared & bit(notice) != 0)
        };
        let all = self.controller.notices.iter().zip(&self.evidence.notices);
        (!(0..).zip(all).any(waits)).then(|| self.sign_once(Body::Leave)).flatten()
    }

    /// Rule 10.
    fn prepare(&self) -> Option<Step> {
        let leaving = || self.own().any(|body| *body == Body::Leave);
        let asked = self.controller.notices.iter().any(|mine| mine.send.is_some());
        if !asked || !self.stands || leaving() {
            return None;
        }
        self.least(|notice, mine, _| self.sign_once(Body::Prepare { notice, payload: mine.send? }))
    }
}

/// The set of one notice.
fn bit(notice: u8) -> u64 {
    1u64.checked_shl(u32::from(notice)).unwrap_or(0)
}

fn report_of(body: &Body) -> Option<&Report> {
    match body {
        Body::Report(report) => Some(report),
        _ => None,
    }
}

fn history_of(body: &Body) -> Option<&History> {
    match body {
        Body::AgreeHistory { history, .. } => Some(history),
        _ => None,
    }
}

/// Marks the views of the greatest history that the history lacks and that lie strictly within its top.
fn skip<R: Rules>(skipped: &mut [bool], greatest: &History, history: &History) {
    let same_place = || greatest.views().get(history.below_top().len()) == Some(&history.top());
    // The greatest holds every sealed history, and one whose top stands at the same place in both is its beginning, which lacks nothing below.
    if R::SKIPPED_BY_SEALED && R::SKIPPED_BY_GREATER && R::SKIPPED_BY_LACK && same_place() {
        return;
    }
    for (skipped, view) in skipped.iter_mut().zip(greatest.views()) {
        let passed = view.strictly_within(history.top()) || !R::SKIPPED_BY_GREATER;
        *skipped |= passed && !(R::SKIPPED_BY_LACK && history.views().contains(view));
    }
}
