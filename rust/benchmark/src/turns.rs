//! Turns of honest runs in rings of several sizes, while the records grow to 512 statements, and turns over the worst records.

use std::hint::black_box;
use std::time::Instant;

use compare::records::{gaps, pool_of, prepares, reports, short_of_quorum, skipped, votes, Case, NEWCOMER, WAITING};
use pekdrav::{Controller, Pool};
use reference::{Answer, Body, Document, Evidence, Record, Statement, View, Window, WINDOWS};

use crate::measure::{head, measure_in, median, medians, row, Times};

const RUNS: usize = 15;

/// The minute of the week of every turn.
const MINUTE: u16 = 0;

/// Who is in no ring here: its prepares decide nothing, and fill the records of small rings.
const OUTSIDER: u8 = 15;

/// Rounds of turns over a worst record, each of which takes a good part of a millisecond.
const ROUNDS: usize = 200;

/// The same controller twice, and how many of the signed statements it was given.
pub struct Seat {
    pub mine: Controller,
    pub pool: Pool,
    pub theirs: reference::Controller,
    heard: usize,
}

/// A ring whose first half are the initial members.
struct Ring {
    seats: Vec<Seat>,
    sent: Vec<Statement>,
    /// Nanoseconds of all turns.
    mine: f64,
    theirs: f64,
    turns: usize,
}

fn timed<T>(work: impl FnOnce() -> T) -> (T, f64) {
    let from = Instant::now();
    let done = work();
    (done, from.elapsed().as_nanos() as f64)
}

impl Seat {
    /// A controller in a ring of notices with these senders, and with these windows. The memory of the pool is kept from run to run.
    fn new(number: u8, members: u16, senders: &[u8], windows: &[Window], mut pool: Pool) -> Seat {
        pool.clear();
        let mut seat = Seat { mine: Controller::new(), pool, theirs: reference::Controller::new(number), heard: 0 };
        let listed: Vec<_> = windows.iter().map(|window| pekdrav::Window::new(window.weekday, window.first, window.end)).collect();
        seat.mine.setup(number, members, senders, &listed);
        seat.theirs.setup(members, senders, windows);
        seat
    }
}

impl Ring {
    fn new(notices: usize, pools: Vec<Pool>) -> Ring {
        let members = (1u16 << (pools.len() / 2)) - 1;
        let seat = |(number, pool)| Seat::new(number, members, &vec![0; notices], &[], pool);
        Ring { seats: (0..).zip(pools).map(seat).collect(), sent: Vec::new(), mine: 0.0, theirs: 0.0, turns: 0 }
    }

    fn sign(&mut self, statement: Statement) {
        if self.sent.len() < Record::LIMIT {
            self.sent.push(statement);
        }
    }

    /// One turn of each, the one first in every second turn and the other in the rest.
    fn turn(&mut self, k: usize) -> Answer {
        let Seat { mine, pool, theirs, .. } = &mut self.seats[k];
        self.turns += 1;
        let (answer, first, second) = if self.turns & 1 == 0 {
            let (_, first) = timed(|| mine.turn(pool, MINUTE));
            let (answer, second) = timed(|| theirs.turn(MINUTE));
            (answer, first, second)
        } else {
            let (answer, second) = timed(|| theirs.turn(MINUTE));
            let (_, first) = timed(|| mine.turn(pool, MINUTE));
            (answer, first, second)
        };
        self.mine += first;
        self.theirs += second;
        answer
    }

    /// A controller is given what it has not heard, and takes turns until there is nothing to do. True if it signed.
    fn advance(&mut self, k: usize) -> bool {
        for place in self.seats[k].heard..self.sent.len() {
            let seat = &mut self.seats[k];
            seat.mine.add(&mut seat.pool, &self.sent[place].write());
            seat.theirs.add(&self.sent[place]);
        }
        self.seats[k].heard = self.sent.len();
        let mut signed = false;
        loop {
            match self.turn(k) {
                Answer::Signed(statement) => {
                    self.sign(statement);
                    signed = true;
                }
                Answer::Entered(_) | Answer::Delivered { .. } => {}
                _ => return signed,
            }
        }
    }

    fn settle(&mut self) {
        while (0..self.seats.len()).fold(false, |any, k| self.advance(k) | any) {}
    }

    /// The notices are sent, the second half joins one by one, all but the first leave one by one.
    fn live(&mut self, noise: u64) {
        let size = self.seats.len();
        let sender = &mut self.seats[0];
        for notice in 0..sender.theirs.groups() as u8 {
            sender.mine.send(notice, 7);
            sender.theirs.send(notice, 7);
        }
        self.settle();
        for event in 0..size / 2 + size - 1 {
            let (k, joins) = if event < size / 2 { (size / 2 + event, true) } else { (event - size / 2 + 1, false) };
            let Seat { mine, theirs, .. } = &mut self.seats[k];
            if joins {
                (mine.join(), theirs.join()).1
            } else {
                (mine.leave(), theirs.leave()).1
            };
            self.settle();
            for place in 0..noise {
                self.sign(Statement::new(OUTSIDER, Body::Prepare { notice: 0, payload: noise * event as u64 + place }));
                self.settle();
            }
        }
    }
}

/// What a run came to.
struct Lived {
    mine: f64,
    theirs: f64,
    turns: usize,
    longest: usize,
}

/// One run, and the pools for the next.
fn lived(notices: usize, noise: u64, pools: Vec<Pool>) -> (Lived, Vec<Pool>) {
    let mut ring = Ring::new(notices, pools);
    ring.live(noise);
    let longest = ring.seats.iter().map(|seat| seat.mine.record().len()).max().unwrap_or(0);
    let lived = Lived { mine: ring.mine, theirs: ring.theirs, turns: ring.turns, longest };
    (lived, ring.seats.into_iter().map(|seat| seat.pool).collect())
}

/// Prints the medians over several runs; they are alike, so that only the noise differs.
fn compared(size: u8, notices: usize, noise: u64) {
    let mut pools: Vec<Pool> = (0..size).map(|_| Pool::new()).collect();
    let runs: Vec<Lived> = (0..RUNS)
        .map(|_| {
            let (run, kept) = lived(notices, noise, std::mem::take(&mut pools));
            pools = kept;
            run
        })
        .collect();
    let each = |part: fn(&Lived) -> f64| median(runs.iter().map(part).collect());
    let times = Times {
        mine: each(|run| run.mine / run.turns as f64),
        theirs: each(|run| run.theirs / run.turns as f64),
        ratio: each(|run| run.mine / run.theirs),
    };
    let Lived { turns, longest, .. } = runs[0];
    let prefix = if notices == 1 { String::new() } else { format!("{notices} notices, ") };
    row(&format!("{prefix}{size} controllers, records to {longest}, {turns} turns"), &times);
}

/// A controller with the statements of a record, in a ring of notices with these senders.
pub fn seated(number: u8, case: &Case, senders: &[u8], windows: &[Window]) -> Seat {
    let mut seat = Seat::new(number, case.initial.joined(), senders, windows, Pool::new());
    for statement in &case.statements {
        seat.mine.add(&mut seat.pool, &statement.write());
        seat.theirs.add(statement);
    }
    seat
}

/// Turns of a controller once there is nothing to do any more.
fn quiet(rounds: usize, seat: Seat) -> Times {
    let Seat { mut mine, mut pool, mut theirs, .. } = seat;
    let busy = |answer: Answer| matches!(answer, Answer::Signed(_) | Answer::Entered(_) | Answer::Delivered { .. });
    while busy((mine.turn(&mut pool, MINUTE), theirs.turn(MINUTE)).1) {}
    let mine = |_: &[()]| {
        black_box(mine.turn(&mut pool, black_box(MINUTE)));
    };
    let theirs = |_: &[()]| {
        black_box(theirs.turn(black_box(MINUTE)));
    };
    measure_in(rounds, &[()], 1, mine, theirs)
}

/// Turns of a controller that waits, over a record of the worst that liars can write.
fn waited(name: &str, case: &Case) {
    // Also the votes have sender 0 alone, so that a third of them are for what is prepared.
    let times = quiet(ROUNDS, seated(WAITING, case, &vec![0; case.senders.len()], &[]));
    row(&format!("64 notices, {name}, {} statements", case.statements.len()), &times);
}

/// Rounds of turns over a short record.
const SHORT_ROUNDS: usize = 2_000;

/// Turns of a member that stays and has nothing to do, and of the same one when it was asked to leave and waits for one of eight windows.
fn waited_for_window(case: &Case, member: u8) {
    let windows: Vec<Window> = (0..WINDOWS as u16).map(|place| Window::new(place % 7, 480 + place, 540)).collect();
    for (name, leaves) in [("no leave", false), ("a leave that waits for its window", true)] {
        let mut seat = seated(member, case, &vec![0; case.senders.len()], &windows);
        if leaves {
            seat.mine.leave();
            seat.theirs.leave();
        }
        row(&format!("{name}, {} statements", case.statements.len()), &quiet(SHORT_ROUNDS, seat));
    }
}

/// The pool of a ring that lived until it was full, and an initial member that never left it.
fn lifetime() -> Option<(Case, u8)> {
    let case = pool_of(&generate::still("ring-512", 0, 0)?)?;
    let left = |k: u8| case.statements.contains(&Statement::new(k, Body::Leave));
    let member = (0..16).find(|&k| case.initial.has_member(k) && !left(k))?;
    Some((case, member))
}

/// Turns that change a controller but sign nothing: each has a controller of its own, made from the record, and one pool serves all. `due` says whether both
/// answered as they should.
fn once(name: &str, k: u8, case: &Case, due: impl Fn(pekdrav::Answer, &Answer) -> bool) {
    let Seat { mine: prepared, mut pool, .. } = seated(k, case, &case.senders, &[]);
    let mut round = || {
        let mut mine = prepared.clone();
        let mut theirs = reference::Controller::<Document>::new(k);
        theirs.setup(case.initial.joined(), &case.senders, &[]);
        case.statements.iter().for_each(|statement| drop(theirs.add(statement)));
        // Both read their records before they are timed, as they do in the other rows, where they took a turn just before.
        black_box((mine.evidence(&pool), Evidence::of(case.initial, &case.senders, theirs.record().statements())));
        let (answer, first) = timed(|| mine.turn(&mut pool, MINUTE));
        let (other, second) = timed(|| theirs.turn(MINUTE));
        assert!(due(answer, &other), "{name}: {answer:?} and {other:?}");
        (first, second)
    };
    let times = medians((0..ROUNDS).map(|_| round()));
    row(&format!("{name}, {} statements", case.statements.len()), &times);
}

/// Turns of a newcomer that enters past skipped views.
fn entered(name: &str, case: &Case) {
    once(name, NEWCOMER, case, |mine, theirs| matches!((mine, theirs), (pekdrav::Answer::Entered(_), Answer::Entered(_))));
}

/// Sixteen members that all acknowledged and stored one notice, and prepares that decide nothing.
fn stored(count: usize) -> Case {
    let (at, payload) = (View::new(0xffff, 0), 7);
    let sign = |origin, body| Statement::new(origin, body);
    let mut statements = vec![sign(0, Body::Prepare { notice: 0, payload })];
    statements.extend((0..16).map(|origin| sign(origin, Body::Ack { at, notice: 0, payload })));
    statements.extend((0..16).map(|origin| sign(origin, Body::Store { at, notice: 0, payload })));
    let rest = count.saturating_sub(statements.len()) as u64;
    statements.extend((0..rest).map(|payload| sign(OUTSIDER, Body::Prepare { notice: 0, payload })));
    Case { initial: at, senders: vec![0], statements }
}

/// Turns of the first member that deliver a notice, and with it the set of those that stored it.
fn delivered(name: &str, case: &Case) {
    once(name, 0, case, |mine, theirs| match (mine, theirs) {
        (pekdrav::Answer::Delivered { signers, .. }, Answer::Delivered { signers: other, .. }) => signers == *other && signers != 0,
        _ => false,
    });
}

pub fn print() {
    head("Turns of honest runs", "turn");
    for (size, notices, noise) in [(4, 1, 100), (8, 1, 30), (16, 1, 0), (4, 64, 20)] {
        compared(size, notices, noise);
    }
    println!();
    head("Turns over the worst records", "turn");
    let told = [
        ("reports that are bound and keep all", reports(512)),
        ("prepares and reports bound to them", prepares(512, true)),
        ("prepares of one notice and reports bound to them", prepares(512, false)),
    ];
    for (name, case) in told {
        waited(name, &case);
        waited(&format!("{name}, no quorum"), &short_of_quorum(case));
    }
    waited("votes", &votes(512));
    entered("past 14 skipped views", &skipped(512, 1));
    entered("past 7 skipped views, 16 sealed histories", &gaps(512, 1));
    entered("64 notices, past 14 skipped views", &skipped(512, 64));
    entered("64 notices, past 7 skipped views, 16 sealed histories", &gaps(512, 64));
    println!();
    head("Turns that deliver", "turn");
    delivered("one notice, sixteen stores", &stored(33));
    delivered("one notice, sixteen stores", &stored(512));
    delivered("64 notices, votes", &votes(512));
    println!();
    head("Turns with nothing to do, eight windows", "turn");
    let (case, member) = lifetime().expect("some initial member stays");
    [0, 32, 256].into_iter().for_each(|count| waited_for_window(&case.first(count), member));
}
