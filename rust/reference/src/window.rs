//! The service windows, in which a leave may be signed, and the minutes of a week.

/// A setup carries no more windows.
pub const WINDOWS: usize = 8;

/// The minutes of a week are numbered below this.
pub const WEEK: u16 = 7 * DAY;

const DAY: u16 = 1_440;

/// A part of a weekday, as a setup writes it.
#[derive(Clone, Copy, PartialEq, Eq, Debug)]
pub struct Window {
    pub weekday: u16,
    /// The first minute of the day that is inside.
    pub first: u16,
    /// The first one after it that is not.
    pub end: u16,
}

impl Window {
    pub fn new(weekday: u16, first: u16, end: u16) -> Window {
        Window { weekday, first, end }
    }

    /// Whether its numbers are in range and its first minute is below its end.
    pub fn is_sound(self) -> bool {
        self.weekday < WEEK / DAY && self.first < self.end && self.end <= DAY
    }

    /// Whether the minute of the week is inside.
    pub fn has(self, minute: u16) -> bool {
        self.weekday == minute / DAY && (self.first..self.end).contains(&(minute % DAY))
    }
}

#[cfg(test)]
mod tests {
    use super::*;

    #[test]
    fn a_window_is_sound_if_its_numbers_are_in_range() {
        for (weekday, first, end) in [(0, 0, 1), (6, 0, 1440), (3, 1439, 1440), (6, 479, 480)] {
            assert!(Window::new(weekday, first, end).is_sound(), "{weekday} {first} {end}");
        }
        let strays =
            [(7, 0, 1), (65_535, 0, 1), (0, 0, 0), (0, 5, 5), (0, 6, 5), (0, 0, 1441), (0, 1440, 1440), (0, 1440, 1441), (0, 65_535, 0)];
        for (weekday, first, end) in strays {
            assert!(!Window::new(weekday, first, end).is_sound(), "{weekday} {first} {end}");
        }
    }

    #[test]
    fn the_first_minute_is_inside_and_the_end_is_not() {
        let inside = |window: Window| (0..WEEK).filter(|&minute| window.has(minute)).collect::<Vec<_>>();
        assert_eq!(inside(Window::new(0, 0, 1)), [0]);
        assert_eq!(inside(Window::new(2, 480, 483)), [3360, 3361, 3362]);
        assert_eq!(inside(Window::new(6, 1439, 1440)), [10_079]);
        assert_eq!(inside(Window::new(1, 0, 1440)), (1440..2880).collect::<Vec<_>>());
    }
}
