//! A list of a pool's statements, and what it shows.

use crate::count::{Asked, Count, Question};
use crate::evidence::{Evidence, EvidenceWords};
use crate::ffi;
use crate::pool::{Pool, STATEMENTS};
use crate::statement::Kind;
use crate::view::{Ring, View};

/// Statements of a pool by their numbers, in order of arrival.
///
/// A controller has one of its own; one that is made here can be looked at in any ring. `==` compares the memory, also places that do not count.
#[derive(Clone, PartialEq, Eq)]
#[repr(C)]
pub struct Record {
    ids: [u16; STATEMENTS],
    count: u16,
}

impl Default for Record {
    fn default() -> Record {
        Record { ids: [0; STATEMENTS], count: 0 }
    }
}

impl std::fmt::Debug for Record {
    fn fmt(&self, f: &mut std::fmt::Formatter<'_>) -> std::fmt::Result {
        f.debug_list().entries(self.numbers()).finish()
    }
}

/// No text of what a record shows has more bytes.
const SCREEN_MAX: usize = 4_096;

impl Record {
    /// An empty record.
    pub fn new() -> Record {
        Record::default()
    }

    /// The record of these numbers, if there are at most 512.
    pub fn of(numbers: &[u16]) -> Option<Record> {
        let mut record = Record::new();
        record.ids.get_mut(..numbers.len())?.copy_from_slice(numbers);
        record.count = numbers.len() as u16;
        Some(record)
    }

    /// The numbers of its statements.
    pub fn numbers(&self) -> &[u16] {
        &self.ids[..self.len()]
    }

    /// How many statements it has.
    pub fn len(&self) -> usize {
        usize::from(self.count).min(STATEMENTS)
    }

    /// Whether it has none.
    pub fn is_empty(&self) -> bool {
        self.count == 0
    }

    /// Who signed a statement of this kind at this view, bit k for controller k.
    #[inline]
    pub fn signers(&self, pool: &Pool, kind: Kind, at: View) -> u32 {
        ffi::pekdrav_record_signers(self, pool.words(), kind as u8, at.word())
    }

    /// Whether a quorum of the question's view signed what it asks for, and how many statements were read.
    ///
    /// Only members of the view count, each once; a view without members has no quorum.
    #[inline]
    pub fn count(&self, pool: &Pool, question: &Question) -> Count {
        Count::told(ffi::record_count(self, pool.words(), &Asked::from(question)))
    }

    /// Whether a quorum of the view has counted reports on it, and how many statements were read.
    ///
    /// `None` where a turn would be refused with 7 or 6, since no report is judged then.
    #[inline]
    pub fn count_reports(&self, pool: &Pool, ring: &Ring, view: View) -> Option<Count> {
        ffi::record_count_reports(self, pool.words(), ring, view.word()).map(Count::told)
    }

    /// All members of the question's view that signed what it asks for, bit k for controller k.
    ///
    /// The count says yes exactly where they are a quorum; here those after the completing signer are too.
    #[inline]
    pub fn who(&self, pool: &Pool, question: &Question) -> u32 {
        ffi::record_who(self, pool.words(), &Asked::from(question))
    }

    /// All members of the view that have counted reports on it; `None` where no report is judged.
    #[inline]
    pub fn who_reported(&self, pool: &Pool, ring: &Ring, view: View) -> Option<u32> {
        ffi::record_who_reported(self, pool.words(), ring, view.word())
    }

    /// Who acknowledged the payload at the least sealed top, as written, that has a certificate for it; nobody if none has.
    #[inline]
    pub fn ack_set(&self, pool: &Pool, ring: &Ring, notice: u8, payload: u64) -> u32 {
        ffi::record_ack_set(self, pool.words(), ring, notice, payload)
    }

    /// Who stored the payload at the least sealed top, as written, of which a quorum did; nobody if there is none.
    #[inline]
    pub fn store_set(&self, pool: &Pool, ring: &Ring, notice: u8, payload: u64) -> u32 {
        ffi::record_store_set(self, pool.words(), ring, notice, payload)
    }

    /// What the record shows in a ring.
    pub fn evidence(&self, pool: &Pool, ring: &Ring) -> Evidence {
        let mut out = EvidenceWords::default();
        self.evidence_into(pool, ring, &mut out);
        Evidence::from(&out)
    }

    /// The same in memory that is lent, all of which is written.
    #[inline]
    pub fn evidence_into(&self, pool: &Pool, ring: &Ring, out: &mut EvidenceWords) {
        ffi::record_evidence(self, pool.words(), ring, out);
    }

    /// What the record shows in a ring, in lines. [`Controller::screen`](crate::Controller::screen) tells more, in another form.
    ///
    /// The lines: `wished,VIEW`; then `conflict` and nothing more, or `candidates,COUNT,VIEW,..` (`candidates,many` for more than sixteen),
    /// `greatest,COUNT,VIEW,..` and for each notice that has a certificate `certificate,NOTICE,PAYLOAD,stored,READ` (without the notice in a ring
    /// of one; `kept` if it is not stored; `certificate,none` if no notice has one). After READ statements of the record the certificate's acks were
    /// complete: the least that a count of them reads, over the sealed tops at which it says yes.
    pub fn screen(&self, pool: &Pool, ring: &Ring) -> String {
        let mut out = [0; SCREEN_MAX];
        let length = ffi::record_screen(self, pool.words(), ring, &mut out);
        out[..length].iter().map(|&byte| char::from(byte)).collect()
    }
}
