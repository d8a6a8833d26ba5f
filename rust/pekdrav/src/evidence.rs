//! What a record shows.

use crate::view::{View, NOTICES, VIEWS};

/// What a record shows in a ring.
#[derive(Clone, PartialEq, Eq, Debug)]
pub struct Evidence {
    /// The initial view with all who asked to join and leave.
    pub wished: View,
    /// The rest; nothing after a conflict.
    pub shown: Option<Shown>,
}

/// What a record shows where it does not contradict itself.
#[derive(Clone, PartialEq, Eq, Debug)]
pub struct Shown {
    /// The views that may come next, by size; nothing where there are more than sixteen.
    pub candidates: Option<Vec<View>>,
    /// The views of the sealed history that holds every other.
    pub greatest: Vec<View>,
    /// The certificates, at most one of each notice, by rising number.
    pub certificates: Vec<Certificate>,
}

/// A payload of a notice that a quorum acknowledged.
#[derive(Clone, Copy, PartialEq, Eq, Debug)]
pub struct Certificate {
    /// The number of the notice.
    pub notice: u8,
    /// The payload.
    pub payload: u64,
    /// Whether a quorum stored it.
    pub stored: bool,
}

/// What a record shows, in the words that it is told in. [`Evidence`] is made from them.
///
/// What is not told is 0: after a conflict all but `conflict` and `wished`, with more than sixteen candidates their count and the candidates,
/// the payload of a notice without a certificate, and the places after the last view of each list.
#[derive(Clone, PartialEq, Eq, Debug)]
#[repr(C)]
pub struct EvidenceWords {
    /// Whether the record contradicts itself.
    pub conflict: u64,
    /// Whether there are more than sixteen candidates.
    pub many: u64,
    /// The word of the wished view.
    pub wished: u64,
    /// How many candidates follow.
    pub candidate_count: u64,
    /// How many views of the greatest history follow.
    pub greatest_count: u64,
    /// The notices that have a certificate, bit j for notice j.
    pub certified: u64,
    /// Those of them whose payload is stored.
    pub stored: u64,
    /// 0.
    pub reserved: u64,
    /// The words of the candidates.
    pub candidates: [u64; VIEWS],
    /// The words of the views of the greatest history.
    pub greatest: [u64; VIEWS],
    /// The payloads of the certificates, by the number of the notice.
    pub payloads: [u64; NOTICES],
}

impl EvidenceWords {
    /// The same word everywhere.
    pub const fn filled(word: u64) -> EvidenceWords {
        EvidenceWords {
            conflict: word,
            many: word,
            wished: word,
            candidate_count: word,
            greatest_count: word,
            certified: word,
            stored: word,
            reserved: word,
            candidates: [word; VIEWS],
            greatest: [word; VIEWS],
            payloads: [word; NOTICES],
        }
    }
}

impl Default for EvidenceWords {
    fn default() -> EvidenceWords {
        EvidenceWords::filled(0)
    }
}

impl From<&EvidenceWords> for Evidence {
    fn from(words: &EvidenceWords) -> Evidence {
        let views = |list: &[u64; VIEWS], count: u64| list.iter().take(count as usize).map(|&word| View::from_word(word)).collect();
        let certificate =
            |notice: usize| Certificate { notice: notice as u8, payload: words.payloads[notice], stored: words.stored >> notice & 1 == 1 };
        let certified = (0..NOTICES).filter(|notice| words.certified >> notice & 1 == 1);
        let shown = Shown {
            candidates: (words.many == 0).then(|| views(&words.candidates, words.candidate_count)),
            greatest: views(&words.greatest, words.greatest_count),
            certificates: certified.map(certificate).collect(),
        };
        Evidence { wished: View::from_word(words.wished), shown: (words.conflict == 0).then_some(shown) }
    }
}
