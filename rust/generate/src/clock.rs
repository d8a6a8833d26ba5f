//! The windows of a ring, and the minutes of its turns.

use reference::{Window, WEEK, WINDOWS};

use crate::rng::Rng;

const DAY: u16 = 1_440;

/// Minutes at the ends of days and of the week.
const ENDS: [u16; 4] = [0, DAY - 1, DAY, WEEK - 1];

/// Minutes that are none of a week.
const BEYOND: [u16; 3] = [WEEK, WEEK + 1, u16::MAX];

/// Time that mostly goes forward, and often to an edge of a window.
///
/// It draws from numbers of its own, so that what else a schedule has does not depend on its minutes.
pub struct Clock {
    rng: Rng,
    windows: Vec<Window>,
    edges: Vec<u16>,
    minute: u16,
    /// A step forward is shorter than this; 0 if time stands still.
    pace: usize,
}

impl Clock {
    /// A clock and windows as most rings have them: often none.
    pub fn new(seed: u64) -> Clock {
        let mut rng = Rng::new(seed ^ 0x7469_636b_696e_672e);
        let windows = if rng.chance(60) { Vec::new() } else { any_windows(&mut rng) };
        Clock::running(rng, windows)
    }

    /// One of a ring that has windows.
    pub fn with_windows(seed: u64) -> Clock {
        let mut rng = Rng::new(seed ^ 0x7769_6e64_6f77_732e);
        let windows = any_windows(&mut rng);
        Clock::running(rng, windows)
    }

    fn running(mut rng: Rng, windows: Vec<Window>) -> Clock {
        let edges = windows.iter().copied().flat_map(edges).chain(ENDS).collect();
        let minute = rng.below(usize::from(WEEK)) as u16;
        let pace = [2, 10, 60, 600][rng.below(4)];
        Clock { rng, windows, edges, minute, pace }
    }

    /// No windows, and time that stands still.
    pub fn still() -> Clock {
        Clock { rng: Rng::new(0), windows: Vec::new(), edges: Vec::new(), minute: 0, pace: 0 }
    }

    /// Sets a clock that stands still to another minute.
    pub fn set(&mut self, minute: u16) {
        self.minute = minute;
    }

    pub fn windows(&self) -> &[Window] {
        &self.windows
    }

    /// Windows of a setup that comes too late, good or not; none if time stands still.
    pub fn late_windows(&mut self) -> Vec<Window> {
        if self.pace == 0 {
            return Vec::new();
        }
        let mut windows = any_windows(&mut self.rng);
        match self.rng.below(3) {
            0 => windows.push(Window::new(7, 0, 1)),
            1 => windows.resize(WINDOWS + 1, Window::new(0, 0, 1)),
            _ => {}
        }
        windows
    }

    /// The minute of the next turn, seldom one that is none of a week.
    pub fn tick(&mut self) -> u16 {
        if self.pace == 0 {
            return self.minute;
        }
        let step = match self.rng.below(200) {
            0 => return BEYOND[self.rng.below(BEYOND.len())],
            1..=24 => {
                self.minute = self.edges[self.rng.below(self.edges.len())];
                0
            }
            25..=29 => usize::from(WEEK) - self.rng.below(60),
            _ => self.rng.below(self.pace),
        };
        self.minute = ((usize::from(self.minute) + step) % usize::from(WEEK)) as u16;
        self.minute
    }
}

/// The minutes of the week just before a window, at its start, last in it and at its end.
fn edges(window: Window) -> [u16; 4] {
    let at = |minute: u16| (DAY * window.weekday + minute) % WEEK;
    [(at(window.first) + WEEK - 1) % WEEK, at(window.first), at(window.end - 1), at(window.end)]
}

fn any_window(rng: &mut Rng) -> Window {
    let first = if rng.chance(20) { 0 } else { rng.below(usize::from(DAY)) as u16 };
    let length = [1, 2, 30, 60, 480, DAY][rng.below(6)];
    Window::new(rng.below(7) as u16, first, DAY.min(first + length))
}

/// A window that has minutes in common with the other.
fn beside(rng: &mut Rng, other: Window) -> Window {
    let inside = rng.between(usize::from(other.first), usize::from(other.end - 1)) as u16;
    let (first, end) = if rng.chance(50) { (inside, DAY.min(other.end + 20)) } else { (other.first.saturating_sub(20), inside + 1) };
    Window::new(other.weekday, first, end)
}

/// One window, some, eight, overlapping ones, or whole days.
fn any_windows(rng: &mut Rng) -> Vec<Window> {
    let one = any_window(rng);
    match rng.below(10) {
        0..=2 => vec![one],
        3..=4 => (0..rng.between(2, 4)).map(|_| any_window(rng)).collect(),
        5..=6 => (0..WINDOWS).map(|_| any_window(rng)).collect(),
        7..=8 => (0..rng.between(1, 4)).map(|_| beside(rng, one)).chain([one]).collect(),
        _ => (0..rng.between(1, 7)).map(|weekday| Window::new(weekday as u16, 0, DAY)).collect(),
    }
}
