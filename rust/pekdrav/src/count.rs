//! Whether a quorum signed, and after how many statements.

use crate::ffi::CountWords;
use crate::statement::Kind;
use crate::view::{View, VIEWS};

/// What a count came to. It ends with the signer who completes the quorum.
#[derive(Clone, Copy, PartialEq, Eq, Hash, Debug)]
pub struct Count {
    /// Whether a quorum signed.
    pub reached: bool,
    /// How many statements of the record were read: all of them without a quorum, else those up to the one that completed it.
    pub read: usize,
}

impl Count {
    pub(crate) fn told([reached, read]: CountWords) -> Count {
        Count { reached: reached != 0, read: read as usize }
    }
}

/// What a quorum of a view may have signed at it. Views are compared as whole words.
#[derive(Clone, Copy, PartialEq, Eq, Hash, Debug)]
pub enum Question<'a> {
    /// Votes for a view.
    AgreeView {
        /// The view whose members are counted.
        at: View,
        /// What they voted for.
        view: View,
    },
    /// Votes for a history. Nobody signed for more than 16 views.
    AgreeHistory {
        /// The view whose members are counted.
        at: View,
        /// The views of the history.
        views: &'a [View],
    },
    /// Acknowledgements of a notice's payload.
    Ack {
        /// The view whose members are counted.
        at: View,
        /// The number of the notice.
        notice: u8,
        /// The payload.
        payload: u64,
    },
    /// Those who have seen a quorum of acks for a notice's payload.
    Store {
        /// The view whose members are counted.
        at: View,
        /// The number of the notice.
        notice: u8,
        /// The payload.
        payload: u64,
    },
}

/// A question in the words that it is asked in.
pub(crate) struct Asked {
    pub kind: u8,
    pub notice: u8,
    pub at: u64,
    pub what: u64,
    pub views: [u64; VIEWS],
    /// How many views there are, which may be more than have room.
    pub len: usize,
}

impl From<&Question<'_>> for Asked {
    fn from(question: &Question) -> Asked {
        let about = |kind: Kind, notice, at: View, what| Asked { kind: kind as u8, notice, at: at.word(), what, views: [0; VIEWS], len: 0 };
        match *question {
            Question::AgreeView { at, view } => about(Kind::AgreeView, 0, at, view.word()),
            Question::AgreeHistory { at, views } => {
                let mut asked = Asked { len: views.len(), ..about(Kind::AgreeHistory, 0, at, 0) };
                asked.views.iter_mut().zip(views).for_each(|(word, view)| *word = view.word());
                asked
            }
            Question::Ack { at, notice, payload } => about(Kind::Ack, notice, at, payload),
            Question::Store { at, notice, payload } => about(Kind::Store, notice, at, payload),
        }
    }
}
