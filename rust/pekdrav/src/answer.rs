//! What a call answers.

use crate::ffi::Value;
use crate::view::View;

/// What a call answers.
#[derive(Clone, Copy, PartialEq, Eq, Hash, Debug)]
pub enum Answer {
    /// The setup, request or statement was taken.
    Taken,
    /// A turn signed the statement of this number in the pool; the host sends its text to the others.
    Signed(u16),
    /// A turn entered this view.
    Entered(View),
    /// A turn delivered this payload of the notice.
    Delivered {
        /// The notice's number.
        notice: u8,
        /// Its payload.
        payload: u64,
        /// Who stored it at the least sealed top, as written, of which a quorum did; bit k for controller k.
        signers: u32,
    },
    /// There is nothing to do, and the controller has left the ring.
    Left,
    /// There is nothing to do.
    Quiet,
    /// The call was refused, and all is as before.
    Refused(Refusal),
}

impl Answer {
    /// The answer of this number, with the value, the notice and the signers that came with it.
    pub(crate) fn told(number: u8, [value, notice, signers]: Value) -> Answer {
        match number {
            0 => Answer::Taken,
            1 => Answer::Signed(value as u16),
            2 => Answer::Entered(View::from_word(value)),
            3 => Answer::Delivered { notice: notice as u8, payload: value, signers: signers as u32 },
            4 => Answer::Left,
            5 => Answer::Quiet,
            _ => Answer::Refused(Refusal::told(value)),
        }
    }
}

/// Why a call is refused, by the number in the table of refusals.
#[derive(Clone, Copy, PartialEq, Eq, PartialOrd, Ord, Hash, Debug)]
#[repr(u8)]
pub enum Refusal {
    /// A setup without an initial member, without notices or with more than 64, with a number above 15, or a second one.
    BadSetup = 1,
    /// The statement breaks a field rule, or the line is none; a report has a group for each notice.
    BadStatement = 2,
    /// The statement is in the record.
    Repeated = 3,
    /// The record or the pool is full, and one more statement must go in.
    Full = 4,
    /// A join by an initial member, a leave before entering, a send by another than the notice's sender, or any of them repeated.
    BadRequest = 5,
    /// On a turn, more than sixteen candidates.
    ManyCandidates = 6,
    /// On a turn, a record that contradicts itself: too many members lied.
    Conflict = 7,
    /// Any call before setup.
    OutOfPlace = 8,
    /// A statement or a send about a notice that the setup lacks.
    UnknownNotice = 9,
    /// At setup, more than 8 windows, or one whose weekday is above 6, whose end is above 1440, or whose first minute is not below its end.
    BadWindow = 10,
    /// On a turn, a minute above 10079.
    BadMinute = 11,
}

impl Refusal {
    /// The number in the table of refusals, 1 to 11.
    pub const fn number(self) -> u8 {
        self as u8
    }

    /// The refusal of this number. Every call that is refused tells 1 to 11.
    fn told(number: u64) -> Refusal {
        match number {
            1 => Refusal::BadSetup,
            2 => Refusal::BadStatement,
            3 => Refusal::Repeated,
            4 => Refusal::Full,
            5 => Refusal::BadRequest,
            6 => Refusal::ManyCandidates,
            7 => Refusal::Conflict,
            8 => Refusal::OutOfPlace,
            9 => Refusal::UnknownNotice,
            10 => Refusal::BadWindow,
            _ => Refusal::BadMinute,
        }
    }
}
