//! The exports of `crates/pekdrav`, as `include/pekdrav.h` declares them for C; the only module with `unsafe` in it.

use std::mem::MaybeUninit;

use crate::controller::Fields;
use crate::count::Asked;
use crate::evidence::EvidenceWords;
use crate::pool::{POOL_WORDS, STATEMENTS};
use crate::record::Record;
use crate::view::{Ring, NOTICES, VIEWS};
use crate::window::WINDOWS;

/// A pool in memory.
pub type Words = [u64; POOL_WORDS];

type Keys = [u64; 2 * STATEMENTS];
type Groups = [u64; STATEMENTS];

/// The two arrays in which votes are gathered. Nothing has to be in them before a call, and nothing in them counts afterwards, so they are not cleared.
struct Workspace {
    keys: MaybeUninit<Keys>,
    groups: MaybeUninit<Groups>,
}

impl Workspace {
    #[inline]
    fn new() -> Workspace {
        Workspace { keys: MaybeUninit::uninit(), groups: MaybeUninit::uninit() }
    }
}

/// What comes with an answer: its value, and the notice and the signers of a delivery.
pub type Value = [u64; 3];

/// What a count came to: whether a quorum signed, and how many statements were read.
pub type CountWords = [u64; 2];

/// The senders of the notices, the first of which count.
pub type Senders = [u8; NOTICES];

/// The words of the windows, the first of which count.
pub type Windows = [u64; WINDOWS];

// The structs lie in memory as the arrays that the library has.
const _: () = assert!(size_of::<Fields>() == size_of::<[u64; 232]>());
const _: () = assert!(size_of::<Record>() == size_of::<[u16; 513]>());
const _: () = assert!(size_of::<EvidenceWords>() == size_of::<[u64; 104]>());

// SAFETY: an array is a pointer to it, and a slice a pointer and then a length; nothing checks these lines against the Rattle source. Each function
// answers whatever the memory holds and keeps no pointer, so one that is lent references alone is safe to call.
unsafe extern "C" {
    pub safe fn pekdrav_raw_controller_init(fields: &mut Fields, record: &mut Record);
    pub safe fn pekdrav_raw_controller_setup(
        fields: &mut Fields,
        record: &mut Record,
        number: u8,
        members: u16,
        count: u8,
        senders: &Senders,
        window_count: u8,
        windows: &Windows,
        value: &mut Value,
    ) -> u8;
    pub safe fn pekdrav_raw_controller_join(fields: &mut Fields, value: &mut Value) -> u8;
    pub safe fn pekdrav_raw_controller_leave(fields: &mut Fields, value: &mut Value) -> u8;
    pub safe fn pekdrav_raw_controller_send(fields: &mut Fields, notice: u8, payload: u64, value: &mut Value) -> u8;
    fn pekdrav_raw_controller_add(
        fields: &Fields,
        record: &mut Record,
        words: &mut Words,
        line: *const u8,
        line_len: usize,
        value: &mut Value,
    ) -> u8;
    fn pekdrav_raw_controller_turn(
        fields: &mut Fields,
        record: &mut Record,
        words: &mut Words,
        keys: *mut Keys,
        groups: *mut Groups,
        minute: u16,
        value: &mut Value,
    ) -> u8;

    pub safe fn pekdrav_pool_clear(words: &mut Words);
    fn pekdrav_pool_append(words: &mut Words, line: *const u8, line_len: usize, notices: usize) -> u16;
    fn pekdrav_pool_text(words: &Words, number: u16, out: *mut u8, out_len: usize) -> usize;

    pub safe fn pekdrav_record_signers(record: &Record, words: &Words, kind: u8, at: u64) -> u32;
    safe fn pekdrav_raw_record_count(
        record: &Record,
        words: &Words,
        kind: u8,
        notice: u8,
        at: u64,
        what: u64,
        views: &[u64; VIEWS],
        len: usize,
        out: &mut CountWords,
    );
    fn pekdrav_raw_record_count_reports(
        record: &Record,
        words: &Words,
        initial: u64,
        count: u8,
        senders: &Senders,
        keys: *mut Keys,
        groups: *mut Groups,
        view: u64,
        out: &mut CountWords,
    ) -> u8;
    safe fn pekdrav_raw_record_who(
        record: &Record,
        words: &Words,
        kind: u8,
        notice: u8,
        at: u64,
        what: u64,
        views: &[u64; VIEWS],
        len: usize,
    ) -> u32;
    fn pekdrav_raw_record_who_reported(
        record: &Record,
        words: &Words,
        initial: u64,
        count: u8,
        senders: &Senders,
        keys: *mut Keys,
        groups: *mut Groups,
        view: u64,
        out: &mut u32,
    ) -> u8;
    fn pekdrav_raw_record_ack_set(
        record: &Record,
        words: &Words,
        initial: u64,
        count: u8,
        senders: &Senders,
        keys: *mut Keys,
        groups: *mut Groups,
        notice: u8,
        payload: u64,
    ) -> u32;
    fn pekdrav_raw_record_store_set(
        record: &Record,
        words: &Words,
        initial: u64,
        count: u8,
        senders: &Senders,
        keys: *mut Keys,
        groups: *mut Groups,
        notice: u8,
        payload: u64,
    ) -> u32;
    fn pekdrav_raw_record_evidence(
        record: &Record,
        words: &Words,
        initial: u64,
        count: u8,
        senders: &Senders,
        keys: *mut Keys,
        groups: *mut Groups,
        out: &mut EvidenceWords,
    );
    fn pekdrav_record_screen(
        record: &Record,
        words: &Words,
        initial: u64,
        count: u8,
        senders: &Senders,
        out: *mut u8,
        out_len: usize,
    ) -> usize;

    fn pekdrav_raw_controller_screen(
        fields: &Fields,
        record: &Record,
        words: &Words,
        keys: *mut Keys,
        groups: *mut Groups,
        out: *mut u8,
        out_len: usize,
    ) -> usize;

    fn pekdrav_statement_rewrite(line: *const u8, line_len: usize, notices: usize, out: *mut u8, out_len: usize) -> usize;
    fn pekdrav_schedule_rows(schedule: *const u8, schedule_len: usize, rows: *mut u8, rows_len: usize) -> usize;
    fn pekdrav_schedule_screen(schedule: *const u8, schedule_len: usize, number: u8, out: *mut u8, out_len: usize) -> usize;
}

#[inline]
pub fn raw_controller_add(fields: &Fields, record: &mut Record, words: &mut Words, line: &[u8], value: &mut Value) -> u8 {
    // SAFETY: the pointer is that of a slice, with its length; so in each function below.
    unsafe { pekdrav_raw_controller_add(fields, record, words, line.as_ptr(), line.len(), value) }
}

#[inline]
pub fn raw_controller_turn(fields: &mut Fields, record: &mut Record, words: &mut Words, minute: u16, value: &mut Value) -> u8 {
    let mut work = Workspace::new();
    // SAFETY: the pointers are those of arrays that nobody else has, and any words in them serve; so in each function of a record that has them.
    unsafe { pekdrav_raw_controller_turn(fields, record, words, work.keys.as_mut_ptr(), work.groups.as_mut_ptr(), minute, value) }
}

#[inline]
pub fn pool_append(words: &mut Words, line: &[u8], notices: usize) -> u16 {
    // SAFETY: as above.
    unsafe { pekdrav_pool_append(words, line.as_ptr(), line.len(), notices) }
}

#[inline]
pub fn pool_text(words: &Words, number: u16, out: &mut [u8]) -> usize {
    // SAFETY: as above.
    unsafe { pekdrav_pool_text(words, number, out.as_mut_ptr(), out.len()) }
}

#[inline]
pub fn record_count(record: &Record, words: &Words, asked: &Asked) -> CountWords {
    let Asked { kind, notice, at, what, ref views, len } = *asked;
    let mut out = [0; 2];
    pekdrav_raw_record_count(record, words, kind, notice, at, what, views, len, &mut out);
    out
}

/// Answers nothing where no report is judged.
#[inline]
pub fn record_count_reports(record: &Record, words: &Words, ring: &Ring, view: u64) -> Option<CountWords> {
    let (initial, count, senders) = (ring.initial.word(), ring.count, &ring.senders);
    let mut work = Workspace::new();
    let (keys, groups) = (work.keys.as_mut_ptr(), work.groups.as_mut_ptr());
    let mut out = [0; 2];
    // SAFETY: as in `raw_controller_turn`.
    let told = unsafe { pekdrav_raw_record_count_reports(record, words, initial, count, senders, keys, groups, view, &mut out) };
    (told != 0).then_some(out)
}

#[inline]
pub fn record_who(record: &Record, words: &Words, asked: &Asked) -> u32 {
    let Asked { kind, notice, at, what, ref views, len } = *asked;
    pekdrav_raw_record_who(record, words, kind, notice, at, what, views, len)
}

/// Answers nothing where no report is judged.
#[inline]
pub fn record_who_reported(record: &Record, words: &Words, ring: &Ring, view: u64) -> Option<u32> {
    let (initial, count, senders) = (ring.initial.word(), ring.count, &ring.senders);
    let mut work = Workspace::new();
    let (keys, groups) = (work.keys.as_mut_ptr(), work.groups.as_mut_ptr());
    let mut out = 0;
    // SAFETY: as in `raw_controller_turn`.
    let told = unsafe { pekdrav_raw_record_who_reported(record, words, initial, count, senders, keys, groups, view, &mut out) };
    (told != 0).then_some(out)
}

#[inline]
pub fn record_ack_set(record: &Record, words: &Words, ring: &Ring, notice: u8, payload: u64) -> u32 {
    let (initial, count, senders) = (ring.initial.word(), ring.count, &ring.senders);
    let mut work = Workspace::new();
    let (keys, groups) = (work.keys.as_mut_ptr(), work.groups.as_mut_ptr());
    // SAFETY: as in `raw_controller_turn`.
    unsafe { pekdrav_raw_record_ack_set(record, words, initial, count, senders, keys, groups, notice, payload) }
}

#[inline]
pub fn record_store_set(record: &Record, words: &Words, ring: &Ring, notice: u8, payload: u64) -> u32 {
    let (initial, count, senders) = (ring.initial.word(), ring.count, &ring.senders);
    let mut work = Workspace::new();
    let (keys, groups) = (work.keys.as_mut_ptr(), work.groups.as_mut_ptr());
    // SAFETY: as in `raw_controller_turn`.
    unsafe { pekdrav_raw_record_store_set(record, words, initial, count, senders, keys, groups, notice, payload) }
}

#[inline]
pub fn record_evidence(record: &Record, words: &Words, ring: &Ring, out: &mut EvidenceWords) {
    let (initial, count, senders) = (ring.initial.word(), ring.count, &ring.senders);
    let mut work = Workspace::new();
    // SAFETY: as in `raw_controller_turn`.
    unsafe { pekdrav_raw_record_evidence(record, words, initial, count, senders, work.keys.as_mut_ptr(), work.groups.as_mut_ptr(), out) }
}

#[inline]
pub fn record_screen(record: &Record, words: &Words, ring: &Ring, out: &mut [u8]) -> usize {
    let (initial, count, senders) = (ring.initial.word(), ring.count, &ring.senders);
    // SAFETY: as above.
    unsafe { pekdrav_record_screen(record, words, initial, count, senders, out.as_mut_ptr(), out.len()) }
}

#[inline]
pub fn controller_screen(fields: &Fields, record: &Record, words: &Words, out: &mut [u8]) -> usize {
    let mut work = Workspace::new();
    let (keys, groups) = (work.keys.as_mut_ptr(), work.groups.as_mut_ptr());
    // SAFETY: as in `raw_controller_turn`, and the last pointer is that of a slice, with its length.
    unsafe { pekdrav_raw_controller_screen(fields, record, words, keys, groups, out.as_mut_ptr(), out.len()) }
}

#[inline]
pub fn statement_rewrite(line: &[u8], notices: usize, out: &mut [u8]) -> usize {
    // SAFETY: as above.
    unsafe { pekdrav_statement_rewrite(line.as_ptr(), line.len(), notices, out.as_mut_ptr(), out.len()) }
}

#[inline]
pub fn schedule_rows(schedule: &[u8], rows: &mut [u8]) -> usize {
    // SAFETY: as above.
    unsafe { pekdrav_schedule_rows(schedule.as_ptr(), schedule.len(), rows.as_mut_ptr(), rows.len()) }
}

#[inline]
pub fn schedule_screen(schedule: &[u8], number: u8, out: &mut [u8]) -> usize {
    // SAFETY: as above.
    unsafe { pekdrav_schedule_screen(schedule.as_ptr(), schedule.len(), number, out.as_mut_ptr(), out.len()) }
}
