//! The proved controller and the reference's, call by call over the lines of a schedule. Each controller has a pool of its own, as it has in a
//! hall; what one signs goes to the others as text.

use std::collections::BTreeMap;

use pekdrav::{Controller, Pool};
use reference::bench::Line;
use reference::{Answer, Evidence, Question, View, Window};

use crate::evidence::as_mine;
use crate::records::Case;
use crate::screens;

/// What the compared calls answered; a refusal with its number.
pub type Tally = BTreeMap<String, u64>;

/// What a delivery is counted as too, if its record has store quorums at several tops and not all with the same signers.
pub const STORED_APART: &str = "delivered, stored apart";

/// The same controller twice.
struct Seat {
    mine: Controller,
    pool: Pool,
    theirs: reference::Controller,
}

/// Sixteen of them, and all statements that were signed, as text.
pub struct Ring {
    seats: Vec<Seat>,
    sent: Vec<Vec<u8>>,
    pub tally: Tally,
    pub screens: screens::Tally,
}

/// A call on a controller.
#[derive(Clone, Copy, Debug)]
enum Call<'a> {
    Setup { number: u8, members: u16, senders: &'a [u8], windows: &'a [Window] },
    Join,
    Leave,
    Send { notice: u8, payload: u64 },
    Add(&'a [u8]),
    Turn { minute: u16 },
}

impl Seat {
    fn mine(&mut self, call: Call) -> pekdrav::Answer {
        match call {
            Call::Setup { number, members, senders, windows } => self.mine.setup(number, members, senders, &windows_as_mine(windows)),
            Call::Join => self.mine.join(),
            Call::Leave => self.mine.leave(),
            Call::Send { notice, payload } => self.mine.send(notice, payload),
            Call::Add(line) => self.mine.add(&mut self.pool, line),
            Call::Turn { minute } => self.mine.turn(&mut self.pool, minute),
        }
    }

    fn theirs(&mut self, call: Call) -> Answer {
        match call {
            Call::Setup { members, senders, windows, .. } => self.theirs.setup(members, senders, windows),
            Call::Join => self.theirs.join(),
            Call::Leave => self.theirs.leave(),
            Call::Send { notice, payload } => self.theirs.send(notice, payload),
            Call::Turn { minute } => self.theirs.turn(minute),
            Call::Add(line) => self.theirs.add_text(line),
        }
    }

    /// What the two answers, the same call's, differ in.
    fn differs(&self, mine: pekdrav::Answer, theirs: &Answer) -> Option<String> {
        use pekdrav::Answer as Mine;
        let same = match (mine, theirs) {
            (Mine::Taken, Answer::Taken) | (Mine::Left, Answer::Left) | (Mine::Quiet, Answer::Quiet) => true,
            (Mine::Signed(number), Answer::Signed(statement)) => self.pool.text(number) == Some(statement.write()),
            (Mine::Entered(mine), Answer::Entered(theirs)) => mine == as_mine(*theirs),
            (Mine::Delivered { notice, payload, signers }, theirs) => *theirs == Answer::Delivered { notice, payload, signers },
            (Mine::Refused(mine), Answer::Refused(theirs)) => mine.number() == *theirs as u8,
            _ => false,
        };
        (!same).then(|| format!("proved: {mine:?}, reference: {theirs:?}"))
    }

    /// Whether the two controllers are the same in every field; of the record the length.
    fn is_same(&self) -> bool {
        let Seat { mine, theirs, .. } = self;
        let entered: Vec<_> = theirs.entered().iter().map(|&view| as_mine(view)).collect();
        let requests = theirs.requests();
        let set_up = |ring: &reference::controller::Ring| {
            let senders = mine.notices().map(|notice| notice.sender);
            mine.number() == theirs.number() && mine.initial() == as_mine(ring.initial) && senders.eq(ring.senders.iter().copied())
        };
        let windows = theirs.ring().map_or(&[][..], |ring| &ring.windows);
        mine.is_set_up() == theirs.ring().is_some()
            && theirs.ring().is_none_or(set_up)
            && mine.windows().eq(windows_as_mine(windows))
            && mine.entered() == entered
            && mine.notices().map(held).eq(theirs.notices().iter().copied())
            && (mine.join_requested(), mine.leave_requested()) == (requests.join, requests.leave)
            && mine.record().len() == theirs.record().len()
    }

    /// Whether the record has store quorums of the payload at several sealed tops, and not all with the same signers.
    fn is_stored_apart(&self, notice: u8, payload: u64) -> bool {
        let Some(ring) = self.theirs.ring() else { return false };
        let statements = self.theirs.record().statements();
        let shown = Evidence::of(ring.initial, &ring.senders, statements);
        let stores = |&at: &View| Question::Store { at, notice, payload };
        let mut sets = shown.tops.iter().map(stores).filter(|stores| stores.count(statements).reached).map(|stores| stores.who(statements));
        let first = sets.next();
        sets.any(|set| Some(set) != first)
    }

    /// Whether the two records are the same, statement by statement.
    fn has_same_record(&self) -> bool {
        let numbers = self.mine.record().numbers().iter();
        let mut both = numbers.zip(self.theirs.record().statements());
        both.all(|(&number, statement)| self.pool.text(number) == Some(statement.write()))
    }
}

/// The windows as the proved controller has them.
fn windows_as_mine(windows: &[Window]) -> Vec<pekdrav::Window> {
    windows.iter().map(|window| pekdrav::Window::new(window.weekday, window.first, window.end)).collect()
}

/// What the proved controller has of a notice, as the reference has it.
fn held(notice: pekdrav::Notice) -> reference::Notice {
    let binding = match notice.binding {
        pekdrav::Binding::Unbound => reference::Binding::Unbound,
        pekdrav::Binding::Bound(payload) => reference::Binding::Bound(payload),
        pekdrav::Binding::Barred => reference::Binding::Barred,
    };
    reference::Notice { binding, delivered: notice.delivered, send: notice.send_requested }
}

impl Default for Ring {
    fn default() -> Ring {
        let seat = |number| Seat { mine: Controller::new(), pool: Pool::new(), theirs: reference::Controller::new(number) };
        Ring { seats: (0..16).map(seat).collect(), sent: Vec::new(), tally: Tally::new(), screens: screens::Tally::default() }
    }
}

impl Ring {
    pub fn new() -> Ring {
        Ring::default()
    }

    /// All controllers before their setup again; the memory of the pools is kept.
    fn restart(&mut self) {
        for (number, seat) in (0..).zip(&mut self.seats) {
            seat.mine = Controller::new();
            seat.pool.clear();
            seat.theirs = reference::Controller::new(number);
        }
        self.sent.clear();
    }

    /// Makes one call on both.
    fn call(&mut self, k: u8, call: Call) -> Result<Answer, String> {
        let seat = &mut self.seats[usize::from(k)];
        let before = seat.mine.clone();
        let (mine, theirs) = (seat.mine(call), seat.theirs(call));
        if let Some(difference) = seat.differs(mine, &theirs) {
            return Err(format!("controller {k}, {call:?}: {difference}"));
        }
        if !seat.is_same() {
            return Err(format!("controller {k}, {call:?}: the controllers differ after {mine:?}"));
        }
        let word = match mine {
            pekdrav::Answer::Refused(refusal) if seat.mine == before => format!("refused {}", refusal.number()),
            pekdrav::Answer::Refused(_) => return Err(format!("controller {k}, {call:?}: a refusal changed the controller")),
            answer => format!("{answer:?}").split(['(', ' ']).next().unwrap_or_default().to_lowercase(),
        };
        *self.tally.entry(word).or_default() += 1;
        if matches!(theirs, Answer::Delivered { notice, payload, .. } if seat.is_stored_apart(notice, payload)) {
            *self.tally.entry(STORED_APART.to_string()).or_default() += 1;
        }
        Ok(theirs)
    }

    /// Compares the service screens of one controller.
    fn compare_screen(&mut self, k: u8) -> Result<(), String> {
        let Seat { mine, pool, theirs } = &self.seats[usize::from(k)];
        screens::compare(&mine.screen(pool), &theirs.screen(), &mut self.screens)
            .map_err(|difference| format!("controller {k}: {difference}"))
    }

    fn sign(&mut self, text: Vec<u8>) {
        if !self.sent.contains(&text) {
            self.sent.push(text);
        }
    }

    /// Runs a line of a schedule and compares the service screen of the controller that it names.
    fn line(&mut self, place: usize, line: &[u8]) -> Result<(), String> {
        let k = self.run_line(place, line)?;
        k.map_or(Ok(()), |k| self.compare_screen(k))
    }

    /// Runs a line, and answers the controller that it names; one that does not read is added as if it were a statement.
    fn run_line(&mut self, place: usize, line: &[u8]) -> Result<Option<u8>, String> {
        let stray = (place % 16) as u8;
        match Line::read(line, self.seats[0].theirs.groups()) {
            Some(Line::Setup { members, senders, windows, .. }) => {
                for number in 0..16 {
                    self.call(number, Call::Setup { number, members, senders: &senders, windows: &windows })?;
                }
                Ok(Some(stray))
            }
            Some(Line::Join(k)) => self.call(k, Call::Join).map(|_| Some(k)),
            Some(Line::Leave(k)) => self.call(k, Call::Leave).map(|_| Some(k)),
            Some(Line::Send { k, notice, payload }) => self.call(k, Call::Send { notice, payload }).map(|_| Some(k)),
            Some(Line::Give(k, number)) => match self.sent.get(number as usize).cloned() {
                Some(text) => self.call(k, Call::Add(&text)).map(|_| Some(k)),
                None => Ok(None),
            },
            Some(Line::All(k)) => {
                let sent = self.sent.clone();
                sent.iter().try_for_each(|text| self.call(k, Call::Add(text)).map(drop))?;
                Ok(Some(k))
            }
            Some(Line::Turn { k, minute }) => {
                if let Answer::Signed(statement) = self.call(k, Call::Turn { minute })? {
                    self.sign(statement.write());
                }
                Ok(Some(k))
            }
            Some(Line::Lie(Some(statement))) => {
                self.sign(statement.write());
                Ok(None)
            }
            Some(Line::Lie(None)) => self.call(stray, Call::Add(&line[4..])).map(|_| Some(stray)),
            None => self.call(stray, Call::Add(line)).map(|_| Some(stray)),
        }
    }

    /// Gives a controller the statements of a record and takes one turn of it; compares its service screen before and after.
    pub fn turn_on(&mut self, k: u8, case: &Case) -> Result<(), String> {
        self.restart();
        self.compare_screen(k)?;
        let senders = &case.senders;
        self.call(k, Call::Setup { number: k, members: case.initial.joined(), senders, windows: &[] })?;
        for statement in &case.statements {
            self.call(k, Call::Add(&statement.write()))?;
        }
        self.compare_screen(k)?;
        self.call(k, Call::Turn { minute: 0 })?;
        self.compare_screen(k)
    }

    /// Has a controller that is alone in its ring ask to leave, and take a turn in each minute; once its leave is signed it starts anew.
    pub fn leave_in(&mut self, windows: &[Window], minutes: impl Iterator<Item = u16>) -> Result<(), String> {
        let mut leaving = false;
        for minute in minutes {
            if !leaving {
                self.restart();
                self.call(0, Call::Setup { number: 0, members: 1, senders: &[0], windows })?;
                self.call(0, Call::Leave)?;
            }
            leaving = !matches!(self.call(0, Call::Turn { minute })?, Answer::Signed(_));
            self.compare_screen(0)?;
        }
        Ok(())
    }

    /// Runs a schedule from the start, and compares all service screens and the records at its end.
    pub fn run(&mut self, schedule: &[u8]) -> Result<(), String> {
        self.restart();
        for (place, line) in schedule.split(|&byte| byte == b'\n').enumerate() {
            self.line(place, line).map_err(|difference| format!("line {}: {difference}", place + 1))?;
        }
        (0..16).try_for_each(|k| self.compare_screen(k))?;
        match self.seats.iter().position(|seat| !seat.has_same_record()) {
            Some(k) => Err(format!("controller {k}: the records differ")),
            None => Ok(()),
        }
    }
}

/// Runs many schedules, one after the other.
pub fn compare_all(schedules: impl Iterator<Item = Vec<u8>>) -> Result<(Tally, screens::Tally), String> {
    let mut ring = Ring::new();
    for schedule in schedules {
        ring.run(&schedule).map_err(|difference| format!("{difference}\n{}", String::from_utf8_lossy(&schedule)))?;
    }
    Ok((ring.tally, ring.screens))
}
