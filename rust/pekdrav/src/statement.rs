//! The text of a statement.

use crate::ffi;

/// No statement's text has more bytes.
pub const TEXT_MAX: usize = 3_120;

/// The kinds of statements, by the number that their text begins with.
#[derive(Clone, Copy, PartialEq, Eq, PartialOrd, Ord, Hash, Debug)]
#[repr(u8)]
pub enum Kind {
    /// Its origin asks to join.
    Join = 1,
    /// Its origin asks to leave.
    Leave = 2,
    /// A vote for a view.
    AgreeView = 3,
    /// A vote for a history.
    AgreeHistory = 4,
    /// What its origin has seen and is bound to, for those who enter a greater view.
    Report = 5,
    /// The payload of one of the sender's notices.
    Prepare = 6,
    /// An acknowledgement of a notice's payload.
    Ack = 7,
    /// Its origin has seen a quorum of acks of a notice.
    Store = 8,
}

/// Writes the statement that `line` is in a ring of that many notices from the start of `out`, and answers its length.
///
/// `None`, with `out` as it was, if `line` is the text of no statement that keeps the field rules or `out` is too short.
#[inline]
pub fn rewrite(line: &[u8], notices: usize, out: &mut [u8]) -> Option<usize> {
    let length = ffi::statement_rewrite(line, notices, out);
    (length > 0).then_some(length)
}
