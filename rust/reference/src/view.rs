//! Views, quorums and histories.

/// A set of controllers, bit k for controller k.
pub type Set = u16;

/// The number of controllers of a ring.
pub const CONTROLLERS: u8 = 16;

/// A joined set and a left set; the joined set is the upper half, as in the written form.
#[derive(Clone, Copy, PartialEq, Eq, PartialOrd, Ord, Hash, Default)]
pub struct View(u32);

/// The set of one controller, empty for a number that no controller has.
pub fn alone(controller: u8) -> Set {
    1u16.checked_shl(u32::from(controller)).unwrap_or(0)
}

impl View {
    pub const EMPTY: View = View(0);

    pub const fn new(joined: Set, left: Set) -> View {
        View((joined as u32) << 16 | left as u32)
    }

    /// The view whose eight hexadecimal digits are those of `bits`.
    pub const fn from_bits(bits: u32) -> View {
        View(bits)
    }

    pub const fn bits(self) -> u32 {
        self.0
    }

    pub const fn joined(self) -> Set {
        (self.0 >> 16) as Set
    }

    pub const fn left(self) -> Set {
        self.0 as Set
    }

    /// Whether the left set lies within the joined set.
    pub const fn is_view(self) -> bool {
        self.left() & !self.joined() == 0
    }

    pub const fn members(self) -> Set {
        self.joined() & !self.left()
    }

    pub const fn has_members(self) -> bool {
        self.members() != 0
    }

    pub fn has_member(self, controller: u8) -> bool {
        self.members() & alone(controller) != 0
    }

    /// The number of faulty members that a view with members bears.
    pub const fn borne(self) -> u32 {
        self.members().count_ones().saturating_sub(1) / 3
    }

    /// The size of a quorum; `None` without members, because nothing is signed by a quorum of nobody.
    pub const fn quorum(self) -> Option<u32> {
        if self.has_members() {
            Some(self.members().count_ones() - self.borne())
        } else {
            None
        }
    }

    /// The number of set bits, which grows from a view to any view it lies strictly within.
    pub const fn size(self) -> u32 {
        self.0.count_ones()
    }

    pub const fn within(self, other: View) -> bool {
        self.0 & !other.0 == 0
    }

    pub const fn strictly_within(self, other: View) -> bool {
        self.within(other) && self.0 != other.0
    }

    pub const fn comparable(self, other: View) -> bool {
        self.within(other) || other.within(self)
    }
}

impl std::fmt::Display for View {
    fn fmt(&self, f: &mut std::fmt::Formatter<'_>) -> std::fmt::Result {
        write!(f, "{:08x}", self.0)
    }
}

impl std::fmt::Debug for View {
    fn fmt(&self, f: &mut std::fmt::Formatter<'_>) -> std::fmt::Result {
        write!(f, "{self}")
    }
}

/// A strictly rising list of 1 to 16 views, each with members.
#[derive(Clone, Copy, PartialEq, Eq)]
pub struct History {
    len: u8,
    // The unused tail is always empty views, so that equal histories are equal as values.
    views: [View; History::LIMIT],
}

impl History {
    pub const LIMIT: usize = 16;

    pub fn new(views: &[View]) -> Option<History> {
        let proper = views.iter().all(|v| v.is_view() && v.has_members());
        let rising = views.windows(2).all(|pair| pair[0].strictly_within(pair[1]));
        if views.is_empty() || views.len() > History::LIMIT || !proper || !rising {
            return None;
        }
        let mut history = History { len: views.len() as u8, views: [View::EMPTY; History::LIMIT] };
        history.views[..views.len()].copy_from_slice(views);
        Some(history)
    }

    pub fn views(&self) -> &[View] {
        &self.views[..usize::from(self.len)]
    }

    pub fn first(&self) -> View {
        self.views[0]
    }

    pub fn top(&self) -> View {
        self.views[usize::from(self.len) - 1]
    }

    /// The views below the top.
    pub fn below_top(&self) -> &[View] {
        &self.views[..usize::from(self.len) - 1]
    }

    /// Whether this history has all the other's views.
    pub fn holds(&self, other: &History) -> bool {
        let mut rest = self.views().iter();
        other.views().iter().all(|view| rest.any(|mine| mine == view))
    }
}

impl std::hash::Hash for History {
    fn hash<H: std::hash::Hasher>(&self, state: &mut H) {
        for view in self.views() {
            state.write_u32(view.bits());
        }
    }
}

impl std::fmt::Debug for History {
    fn fmt(&self, f: &mut std::fmt::Formatter<'_>) -> std::fmt::Result {
        f.debug_list().entries(self.views()).finish()
    }
}

#[cfg(test)]
mod tests {
    use super::*;

    #[test]
    fn the_table_of_the_scope_document() {
        let quorums = [(1, 1), (2, 2), (3, 3), (4, 3), (6, 5), (7, 5), (10, 7), (16, 11)];
        for (members, quorum) in quorums {
            let joined = ((1u32 << members) - 1) as Set;
            assert_eq!(View::new(joined, 0).quorum(), Some(quorum), "{members} members");
        }
        assert_eq!(View::from_bits(0x0007_0002).members(), 0b101);
        assert!(!View::from_bits(0x0003_0001).comparable(View::from_bits(0x0007_0000)));
        assert!(View::from_bits(0x0001_0000).within(View::from_bits(0x0003_0001)));
        assert!(!View::from_bits(0x0001_0001).has_members());
        assert_eq!(View::from_bits(0x0001_0001).quorum(), None);
    }

    #[test]
    fn two_quorums_share_more_than_the_borne_faulty() {
        for members in 1..=16u32 {
            let view = View::new(((1u32 << members) - 1) as Set, 0);
            assert!(2 * view.quorum().unwrap() - members > view.borne());
        }
    }

    #[test]
    fn a_history_rises_strictly_and_ends_at_sixteen() {
        let chain: Vec<View> = (1..=16).map(|n| View::new(((1u32 << n) - 1) as Set, 0)).collect();
        assert!(History::new(&chain).is_some());
        let mut longer = chain.clone();
        longer.push(View::new(0xffff, 1));
        assert!(History::new(&longer).is_none());
        assert!(History::new(&[]).is_none());
        assert!(History::new(&[chain[0], chain[0]]).is_none());
        assert!(History::new(&[chain[1], chain[0]]).is_none());
        assert!(History::new(&[View::new(1, 1)]).is_none());
        assert!(History::new(&[View::new(1, 2)]).is_none());
    }

    #[test]
    fn holding_is_having_all_views() {
        let view = |bits| View::from_bits(bits);
        let long = History::new(&[view(0x10000), view(0x30000), view(0x70000)]).unwrap();
        let skipping = History::new(&[view(0x10000), view(0x70000)]).unwrap();
        let other = History::new(&[view(0x10000), view(0x50000), view(0x70000)]).unwrap();
        assert!(long.holds(&skipping) && !skipping.holds(&long));
        assert!(!long.holds(&other) && !other.holds(&long));
        assert!(long.holds(&long));
    }
}
