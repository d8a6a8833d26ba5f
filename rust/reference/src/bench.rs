//! The bench: a schedule's lines to their rows, for sixteen controllers over one pool.

use crate::controller::{Answer, Controller, Refusal};
use crate::record::Record;
use crate::rules::{Document, Rules};
use crate::statement::Statement;
use crate::text::{read_decimal, read_hex, read_medium, read_small, write_decimal, write_hex};
use crate::view::{alone, Set, View, CONTROLLERS};
use crate::window::Window;

/// The longest schedule that is run, in bytes.
pub const SCHEDULE_LIMIT: usize = 65_536;

/// What a row shows as controller where no controller is named.
pub const NOBODY: u8 = 16;

const HEADER: &[u8] = b"line,who,answer,value\n";

/// A schedule line that reads.
#[derive(Clone, PartialEq, Eq, Debug)]
pub enum Line {
    Setup {
        members: Set,
        /// By the number of the notice.
        senders: Vec<u8>,
        faulty: Set,
        /// As many as are written, also more than a setup may carry.
        windows: Vec<Window>,
    },
    Join(u8),
    Leave(u8),
    Send {
        k: u8,
        notice: u8,
        payload: u64,
    },
    Give(u8, u64),
    All(u8),
    Turn {
        k: u8,
        minute: u16,
    },
    /// With nothing if all after the comma is no statement.
    Lie(Option<Statement>),
}

impl Line {
    /// Reads a line without its newline, in a ring whose reports have that many groups.
    pub fn read(line: &[u8], groups: usize) -> Option<Line> {
        if let Some(text) = line.strip_prefix(b"lie,") {
            return Some(Line::Lie(Statement::read(text, groups)));
        }
        let mut parts = line.split(|&byte| byte == b',');
        let word = parts.next()?;
        let mut next = || parts.next();
        let set = |part| read_hex(part, 4).map(|bits| bits as Set);
        let controller = |part| read_small(part).filter(|&number| number < CONTROLLERS);
        let read = match word {
            b"setup" => {
                let members = set(next()?)?;
                let count = read_small(next()?)?;
                let senders = (0..count).map(|_| read_small(next()?)).collect::<Option<_>>()?;
                let faulty = set(next()?)?;
                let mut number = || next().and_then(read_medium);
                let count = number()?;
                let windows = (0..count).map(|_| Some(Window::new(number()?, number()?, number()?))).collect::<Option<_>>()?;
                Line::Setup { members, senders, faulty, windows }
            }
            b"join" => Line::Join(controller(next()?)?),
            b"leave" => Line::Leave(controller(next()?)?),
            b"send" => Line::Send { k: controller(next()?)?, notice: read_small(next()?)?, payload: read_decimal(next()?)? },
            b"give" => Line::Give(controller(next()?)?, read_decimal(next()?)?),
            b"all" => Line::All(controller(next()?)?),
            b"turn" => Line::Turn { k: controller(next()?)?, minute: read_medium(next()?)? },
            _ => return None,
        };
        next().is_none().then_some(read)
    }

    /// The controller that the line's row shows.
    fn who(&self) -> u8 {
        match self {
            Line::Setup { senders, .. } => senders.first().map_or(NOBODY, |&sender| sender.min(NOBODY)),
            Line::Join(k) | Line::Leave(k) | Line::Send { k, .. } | Line::Give(k, _) | Line::All(k) | Line::Turn { k, .. } => *k,
            Line::Lie(statement) => statement.as_ref().map_or(NOBODY, |statement| statement.origin),
        }
    }
}

/// A line's answer with the value that its row shows.
#[derive(Clone, Copy, PartialEq, Eq, Debug)]
pub enum Outcome {
    /// With the number of the statement for a lie, the count for all, else 0.
    Taken(u64),
    /// With the number of the statement.
    Signed(u64),
    Entered(View),
    /// Its row shows the payload alone.
    Delivered {
        notice: u8,
        payload: u64,
        signers: u32,
    },
    Left,
    Quiet,
    Refused(Refusal),
}

/// The row of a line, but for the line's number.
#[derive(Clone, Copy, PartialEq, Eq, Debug)]
pub struct Row {
    pub who: u8,
    pub outcome: Outcome,
}

impl Row {
    const UNREADABLE: Row = Row { who: NOBODY, outcome: Outcome::Refused(Refusal::Unreadable) };

    pub fn write_into(&self, out: &mut Vec<u8>, line: u64) {
        write_decimal(out, line);
        out.push(b',');
        write_decimal(out, u64::from(self.who));
        let (word, value): (&[u8], u64) = match self.outcome {
            Outcome::Taken(value) => (b",taken,", value),
            Outcome::Signed(number) => (b",signed,", number),
            Outcome::Delivered { payload, .. } => (b",delivered,", payload),
            Outcome::Left => (b",left,", 0),
            Outcome::Quiet => (b",quiet,", 0),
            Outcome::Refused(refusal) => (b",refused,", refusal as u64),
            Outcome::Entered(view) => {
                out.extend_from_slice(b",entered,");
                write_hex(out, view.bits(), 8);
                out.push(b'\n');
                return;
            }
        };
        out.extend_from_slice(word);
        write_decimal(out, value);
        out.push(b'\n');
    }
}

/// A controller, and the numbers of the pool's statements that its record holds.
struct Seat<R> {
    controller: Controller<R>,
    held: [bool; Record::LIMIT],
}

/// Sixteen controllers over one pool.
pub struct Bench<R = Document> {
    seats: Vec<Seat<R>>,
    pool: Record,
    faulty: Set,
    ready: bool,
}

impl<R: Rules> Default for Bench<R> {
    fn default() -> Bench<R> {
        let seat = |number| Seat { controller: Controller::new(number), held: [false; Record::LIMIT] };
        Bench { seats: (0..CONTROLLERS).map(seat).collect(), pool: Record::default(), faulty: 0, ready: false }
    }
}

impl<R: Rules> Bench<R> {
    pub fn new() -> Bench<R> {
        Bench::default()
    }

    /// All signed statements, in the order of their numbers.
    pub fn pool(&self) -> &Record {
        &self.pool
    }

    pub fn controllers(&self) -> impl Iterator<Item = &Controller<R>> {
        self.seats.iter().map(|seat| &seat.controller)
    }

    pub fn controller(&self, number: u8) -> Option<&Controller<R>> {
        self.seats.get(usize::from(number)).map(|seat| &seat.controller)
    }

    /// The controllers that may lie.
    pub fn faulty(&self) -> Set {
        self.faulty
    }

    /// Whether a setup was taken.
    pub fn is_ready(&self) -> bool {
        self.ready
    }

    /// The number of groups that a report has, which is 1 before setup.
    pub fn groups(&self) -> usize {
        self.seats[0].controller.groups()
    }

    /// Runs a line, given without its newline.
    pub fn step(&mut self, line: &[u8]) -> Row {
        let Some(line) = Line::read(line, self.groups()) else {
            return Row::UNREADABLE;
        };
        Row { who: line.who(), outcome: self.run(line) }
    }

    fn run(&mut self, line: Line) -> Outcome {
        match line {
            Line::Setup { members, senders, faulty, windows } => self.setup(members, &senders, faulty, &windows),
            _ if !self.ready => Outcome::Refused(Refusal::Unreadable),
            Line::Join(k) => outcome(self.seat(k).controller.join()),
            Line::Leave(k) => outcome(self.seat(k).controller.leave()),
            Line::Send { k, notice, payload } => outcome(self.seat(k).controller.send(notice, payload)),
            Line::Give(k, number) => self.give(k, number),
            Line::All(k) => self.give_all(k),
            Line::Turn { k, minute } => self.turn(k, minute),
            Line::Lie(statement) => self.lie(statement),
        }
    }

    fn seat(&mut self, k: u8) -> &mut Seat<R> {
        &mut self.seats[usize::from(k)]
    }

    fn setup(&mut self, members: Set, senders: &[u8], faulty: Set, windows: &[Window]) -> Outcome {
        // All sixteen judge a setup alike, so one answer stands for all.
        let answer = self.seats.iter_mut().fold(Answer::Quiet, |_, seat| seat.controller.setup(members, senders, windows));
        if answer == Answer::Taken {
            self.faulty = faulty;
            self.ready = true;
        }
        outcome(answer)
    }

    fn give(&mut self, k: u8, number: u64) -> Outcome {
        let number = usize::try_from(number).unwrap_or(usize::MAX);
        let Some(statement) = self.pool.statements().get(number) else {
            return Outcome::Refused(Refusal::Unreadable);
        };
        let seat = &mut self.seats[usize::from(k)];
        let answer = seat.controller.add(statement);
        seat.held[number] |= answer == Answer::Taken;
        outcome(answer)
    }

    fn give_all(&mut self, k: u8) -> Outcome {
        let seat = &mut self.seats[usize::from(k)];
        let mut count = 0;
        // A record lies within the pool, which holds at most 512, so there is room for all.
        for (statement, held) in self.pool.statements().iter().zip(&mut seat.held) {
            if !*held && seat.controller.add(statement) == Answer::Taken {
                *held = true;
                count += 1;
            }
        }
        Outcome::Taken(count)
    }

    fn turn(&mut self, k: u8, minute: u16) -> Outcome {
        let pool = &mut self.pool;
        let seat = &mut self.seats[usize::from(k)];
        let answer = seat.controller.turn_with(minute, |statement| pool.holds(statement) || !pool.is_full());
        let Answer::Signed(statement) = answer else {
            return outcome(answer);
        };
        let Some(number) = pool.push(statement) else {
            return Outcome::Refused(Refusal::Full);
        };
        seat.held[number] = true;
        Outcome::Signed(number as u64)
    }

    fn lie(&mut self, statement: Option<Statement>) -> Outcome {
        let Some(statement) = statement else {
            return Outcome::Refused(Refusal::Statement);
        };
        if self.faulty & alone(statement.origin) == 0 {
            return Outcome::Refused(Refusal::Unreadable);
        }
        if usize::from(statement.notice()) >= self.groups() {
            return Outcome::Refused(Refusal::Notice);
        }
        if self.pool.holds(&statement) {
            return Outcome::Refused(Refusal::Present);
        }
        match self.pool.push(statement) {
            Some(number) => Outcome::Taken(number as u64),
            None => Outcome::Refused(Refusal::Full),
        }
    }
}

/// The outcome of a call that signs nothing.
fn outcome(answer: Answer) -> Outcome {
    match answer {
        Answer::Taken | Answer::Signed(_) => Outcome::Taken(0),
        Answer::Entered(view) => Outcome::Entered(view),
        Answer::Delivered { notice, payload, signers } => Outcome::Delivered { notice, payload, signers },
        Answer::Left => Outcome::Left,
        Answer::Quiet => Outcome::Quiet,
        Answer::Refused(refusal) => Outcome::Refused(refusal),
    }
}

/// The rows of a schedule.
pub fn run(schedule: &[u8]) -> Vec<u8> {
    run_watched(&mut Bench::<Document>::new(), schedule, |_, _, _| {})
}

/// The service screen of controller `k` after the last line of a schedule; no text if there is no such controller.
pub fn screen_after(schedule: &[u8], k: u8) -> String {
    let mut bench = Bench::<Document>::new();
    run_watched(&mut bench, schedule, |_, _, _| {});
    bench.controller(k).map_or(String::new(), Controller::screen)
}

/// The rows of a schedule that `bench` runs; `watch` sees each line that ended, and its row, after it ran.
pub fn run_watched<R: Rules>(bench: &mut Bench<R>, schedule: &[u8], mut watch: impl FnMut(&Bench<R>, &[u8], &Row)) -> Vec<u8> {
    let mut out = HEADER.to_vec();
    if schedule.is_empty() || schedule.len() > SCHEDULE_LIMIT {
        Row::UNREADABLE.write_into(&mut out, 0);
        return out;
    }
    for (line, number) in schedule.split_inclusive(|&byte| byte == b'\n').zip(1..) {
        let row = match line.strip_suffix(b"\n") {
            Some(line) => {
                let row = bench.step(line);
                watch(bench, line, &row);
                row
            }
            None => Row::UNREADABLE,
        };
        row.write_into(&mut out, number);
    }
    out
}
