//! Views, and the ring that they are views of.

/// A history has no more views, and no more candidates are told.
pub const VIEWS: usize = 16;

/// Who joined a ring and who left it: two sets, bit k for controller k.
#[derive(Clone, Copy, PartialEq, Eq, Hash, Default)]
pub struct View(u64);

/// The bits of a set in a view's word.
const SET_BITS: u32 = u64::BITS / 2;

impl View {
    /// The view with these sets.
    pub const fn new(joined: u16, left: u16) -> View {
        View((left as u64) << SET_BITS | joined as u64)
    }

    /// The view of a word: the joined set in its low half, the left set in its high half.
    pub const fn from_word(word: u64) -> View {
        View(word)
    }

    /// The view as a word.
    pub const fn word(self) -> u64 {
        self.0
    }

    /// Who joined.
    pub const fn joined(self) -> u16 {
        self.0 as u16
    }

    /// Who left.
    pub const fn left(self) -> u16 {
        (self.0 >> SET_BITS) as u16
    }
}

/// As statements have it: eight hexadecimal digits, the joined set first.
impl std::fmt::Display for View {
    fn fmt(&self, f: &mut std::fmt::Formatter<'_>) -> std::fmt::Result {
        write!(f, "{:04x}{:04x}", self.joined(), self.left())
    }
}

/// The whole word, with the bits that stand for nobody.
impl std::fmt::Debug for View {
    fn fmt(&self, f: &mut std::fmt::Formatter<'_>) -> std::fmt::Result {
        write!(f, "View({:#018x})", self.0)
    }
}

/// A setup names no more notices.
pub const NOTICES: usize = 64;

/// What a taken setup fixes for good: the initial view, and the sender of each notice.
#[derive(Clone, Copy, PartialEq, Eq, Hash, Debug)]
pub struct Ring {
    /// The view that every history begins with.
    pub initial: View,
    /// The places after the last sender are 0.
    pub(crate) senders: [u8; NOTICES],
    pub(crate) count: u8,
}

impl Ring {
    /// The ring with these senders, notice 0's first; those after the 64th do not count.
    pub fn new(initial: View, senders: &[u8]) -> Ring {
        Ring { initial, senders: padded(senders), count: senders.len().min(NOTICES) as u8 }
    }

    /// Those whose prepares count, by the number of the notice.
    pub fn senders(&self) -> &[u8] {
        &self.senders[..usize::from(self.count)]
    }
}

/// The first 64 senders, and 0 after the last.
pub(crate) fn padded(senders: &[u8]) -> [u8; NOTICES] {
    let mut all = [0; NOTICES];
    all.iter_mut().zip(senders).for_each(|(place, &sender)| *place = sender);
    all
}
