//! Writes a schedule line by line and runs it meanwhile, so that later lines can build on earlier ones.

use reference::bench::SCHEDULE_LIMIT;
use reference::{Bench, Document, Evidence, Outcome, Refusal, Rules, Set, Statement, View, Window, NOTICES};

use crate::clock::Clock;
use crate::rng::Rng;

pub struct Maker<R = Document> {
    pub rng: Rng,
    pub bench: Bench<R>,
    pub clock: Clock,
    schedule: Vec<u8>,
    left: usize,
    /// The number of notices, if it is not to be drawn.
    notices: Option<usize>,
    /// What each controller had at its last turn, if that did nothing and no request came since.
    rested: [Option<Rest>; 16],
}

/// What has to change before a controller with nothing to do has something to do.
#[derive(Clone, Copy, PartialEq, Eq)]
struct Rest {
    record: usize,
    /// Whether the minute lets it leave, if it asked to.
    open: bool,
}

impl<R: Rules> Maker<R> {
    pub fn new(seed: u64, lines: usize, notices: Option<usize>, clock: Clock) -> Maker<R> {
        Maker { rng: Rng::new(seed), bench: Bench::new(), clock, schedule: Vec::new(), left: lines, notices, rested: [None; 16] }
    }

    /// A number of notices for a ring.
    pub fn notices(&mut self) -> usize {
        let drawn = [1, 1, 1, 2, 2, 5, 5, NOTICES][self.rng.below(8)];
        self.notices.unwrap_or(drawn)
    }

    pub fn finish(self) -> Vec<u8> {
        self.schedule
    }

    /// Whether the lines or the bytes are used up.
    pub fn is_done(&self) -> bool {
        self.left == 0
    }

    /// Keeps lines back for later.
    pub fn reserve(&mut self, lines: usize) {
        self.left = self.left.saturating_sub(lines);
    }

    /// Allows lines that were kept back.
    pub fn release(&mut self, lines: usize) {
        self.left += lines;
    }

    /// Writes and runs a line if there is room for it.
    pub fn line(&mut self, line: &[u8]) -> Outcome {
        if self.schedule.len() + line.len() + 1 > SCHEDULE_LIMIT {
            self.left = 0;
        }
        if self.left == 0 {
            return Outcome::Refused(Refusal::Unreadable);
        }
        self.left -= 1;
        self.schedule.extend_from_slice(line);
        self.schedule.push(b'\n');
        self.bench.step(line).outcome
    }

    /// Sets the ring up with a sender for each notice, and with the clock's windows.
    pub fn setup(&mut self, members: Set, senders: &[u8], faulty: Set) -> Outcome {
        let windows = self.clock.windows().to_vec();
        self.setup_with(members, senders, faulty, &windows)
    }

    /// The same with these windows.
    pub fn setup_with(&mut self, members: Set, senders: &[u8], faulty: Set, windows: &[Window]) -> Outcome {
        let listed: String = senders.iter().map(|sender| format!("{sender},")).collect();
        let setup = format!("setup,{members:04x},{},{listed}{faulty:04x}{}", senders.len(), written(windows));
        self.line(setup.as_bytes())
    }

    pub fn join(&mut self, k: u8) -> Outcome {
        self.rested[usize::from(k)] = None;
        self.line(format!("join,{k}").as_bytes())
    }

    pub fn leave(&mut self, k: u8) -> Outcome {
        self.rested[usize::from(k)] = None;
        self.line(format!("leave,{k}").as_bytes())
    }

    pub fn send(&mut self, k: u8, notice: u8, payload: u64) -> Outcome {
        self.rested[usize::from(k)] = None;
        self.line(format!("send,{k},{notice},{payload}").as_bytes())
    }

    pub fn give(&mut self, k: u8, number: usize) -> Outcome {
        self.line(format!("give,{k},{number}").as_bytes())
    }

    pub fn all(&mut self, k: u8) -> Outcome {
        self.line(format!("all,{k}").as_bytes())
    }

    /// A turn in the clock's next minute.
    pub fn turn(&mut self, k: u8) -> Outcome {
        let minute = self.clock.tick();
        self.turn_in(k, minute)
    }

    pub fn turn_in(&mut self, k: u8, minute: u16) -> Outcome {
        self.line(format!("turn,{k},{minute}").as_bytes())
    }

    pub fn lie(&mut self, statement: &Statement) -> Outcome {
        let mut line = b"lie,".to_vec();
        statement.write_into(&mut line);
        self.line(&line)
    }

    /// Turns of `k` until one does nothing, at most `most` of them, and none if nothing came since such a turn.
    pub fn turns(&mut self, k: u8, most: usize) {
        for _ in 0..most {
            let minute = self.clock.tick();
            let now = self.rest(k, minute);
            if now.is_some() && self.rested[usize::from(k)] == now {
                return;
            }
            match self.turn_in(k, minute) {
                Outcome::Signed(_) | Outcome::Entered(_) | Outcome::Delivered { .. } | Outcome::Refused(Refusal::Minute) => {}
                _ => self.rested[usize::from(k)] = now,
            }
        }
    }

    fn rest(&self, k: u8, minute: u16) -> Option<Rest> {
        let controller = self.bench.controller(k)?;
        let open = controller.ring().is_none_or(|ring| ring.is_open(minute)) || !controller.requests().leave;
        Some(Rest { record: controller.record().len(), open })
    }

    /// What the whole pool shows.
    pub fn evidence(&self) -> Evidence {
        let ring = self.bench.controllers().find_map(|controller| controller.ring());
        let (initial, senders): (_, &[u8]) = ring.map_or((View::EMPTY, &[0]), |ring| (ring.initial, &ring.senders));
        Evidence::of(initial, senders, self.bench.pool().statements())
    }

    /// Whether each of the followers that is a member of the pool's greatest top has entered it, and no change is due.
    pub fn is_settled(&self, followers: Set) -> bool {
        let evidence = self.evidence();
        let Some(greatest) = evidence.greatest() else { return false };
        let top = greatest.top();
        let entered = |k: u8| self.bench.controller(k).is_some_and(|controller| controller.entered().contains(&top));
        let followers = top.members() & followers;
        top == evidence.wished && (0..16).all(|k| followers >> k & 1 == 0 || entered(k))
    }

    /// The numbers of the pool's statements that `k` lacks, of the origins in `from`.
    pub fn missing(&self, k: u8, from: Set) -> Vec<usize> {
        let Some(controller) = self.bench.controller(k) else {
            return Vec::new();
        };
        let pool = self.bench.pool().statements().iter().enumerate();
        let lacking = pool.filter(|(_, s)| from >> s.origin & 1 == 1 && !controller.record().holds(s));
        lacking.map(|(number, _)| number).collect()
    }
}

/// The windows as they end a setup line, their count first.
pub fn written(windows: &[Window]) -> String {
    let listed: String = windows.iter().map(|Window { weekday, first, end }| format!(",{weekday},{first},{end}")).collect();
    format!(",{}{listed}", windows.len())
}
