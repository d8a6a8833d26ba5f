//! The windows in which a controller may leave.

/// A setup carries no more windows.
pub const WINDOWS: usize = 8;

/// A part of a weekday: a leave is signed only inside a window of the setup, or at any time if that has none.
#[derive(Clone, Copy, PartialEq, Eq, Hash, Debug)]
pub struct Window {
    /// 0 to 6.
    pub weekday: u16,
    /// The first minute of the day that is inside; it is below the end.
    pub first: u16,
    /// The first minute after it that is not, at most 1440.
    pub end: u16,
}

/// Where the parts of a window lie in its word: the weekday in the low 16 bits, the first minute in the next 16, the end in the high 32.
const FIRST: u32 = 16;
const END: u32 = 32;

impl Window {
    /// The window of these numbers.
    pub const fn new(weekday: u16, first: u16, end: u16) -> Window {
        Window { weekday, first, end }
    }

    const fn word(self) -> u64 {
        self.weekday as u64 | (self.first as u64) << FIRST | (self.end as u64) << END
    }

    /// The window of a word that a setup took, whose end has no more than 16 bits.
    pub(crate) const fn from_word(word: u64) -> Window {
        Window { weekday: word as u16, first: (word >> FIRST) as u16, end: (word >> END) as u16 }
    }
}

/// The words of the first eight windows, and 0 after the last.
pub(crate) fn words(windows: &[Window]) -> [u64; WINDOWS] {
    let mut all = [0; WINDOWS];
    all.iter_mut().zip(windows).for_each(|(place, window)| *place = window.word());
    all
}

#[cfg(test)]
mod tests {
    use super::*;

    #[test]
    fn a_word_has_every_number_in_its_bits() {
        assert_eq!(Window::new(6, 480, 1440).word(), 0x0000_05a0_01e0_0006);
        for window in [Window::new(0, 0, 0), Window::new(65_535, 0, 0), Window::new(0, 65_535, 0), Window::new(0, 0, 65_535)] {
            assert_eq!(Window::from_word(window.word()), window);
        }
    }

    #[test]
    fn eight_windows_are_kept() {
        let windows: Vec<Window> = (0..9).map(|weekday| Window::new(weekday, 1, 2)).collect();
        assert_eq!(words(&windows).map(Window::from_word), windows[..8]);
        assert_eq!(words(&windows[..2])[2..], [0; 6]);
    }
}
