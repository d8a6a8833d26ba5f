//! One controller, over a pool of its own or one that it shares.

use crate::answer::Answer;
use crate::count::{Count, Question};
use crate::evidence::Evidence;
use crate::ffi::{self, Value};
use crate::pool::Pool;
use crate::record::Record;
use crate::screen::with_memory;
use crate::statement::Kind;
use crate::view::{padded, Ring, View, NOTICES, VIEWS};
use crate::window::{words, Window, WINDOWS};

/// What a controller is bound to in a notice.
#[derive(Clone, Copy, PartialEq, Eq, Hash, Debug)]
pub enum Binding {
    /// To nothing yet.
    Unbound,
    /// To one payload: it acknowledges no other.
    Bound(u64),
    /// It has seen two payloads, and acknowledges nothing any more.
    Barred,
}

/// What a controller has of one notice.
#[derive(Clone, Copy, PartialEq, Eq, Hash, Debug)]
pub struct Notice {
    /// The one whose prepares of it count.
    pub sender: u8,
    /// What the controller is bound to.
    pub binding: Binding,
    /// Whether the controller delivered it.
    pub delivered: bool,
    /// The payload that is to be sent.
    pub send_requested: Option<u64>,
}

/// What a controller has beside its record, in the order of `struct pekdrav_fields`.
#[derive(Clone, PartialEq, Eq, Debug)]
#[repr(C)]
pub(crate) struct Fields {
    ready: u64,
    number: u64,
    initial: u64,
    notice_count: u64,
    /// A set of notices, bit j for notice j; so are the next, `bound` and `barred`.
    delivered: u64,
    send_requested: u64,
    join_requested: u64,
    leave_requested: u64,
    bound: u64,
    barred: u64,
    window_count: u64,
    reserved_1: [u64; 1],
    entered_count: u64,
    reserved_2: [u64; 3],
    entered: [u64; VIEWS],
    /// By the number of the notice; so are the next two.
    senders: [u64; NOTICES],
    /// Those that are bound.
    payloads: [u64; NOTICES],
    send_payloads: [u64; NOTICES],
    windows: [u64; WINDOWS],
}

impl Fields {
    const EMPTY: Fields = Fields {
        ready: 0,
        number: 0,
        initial: 0,
        notice_count: 0,
        delivered: 0,
        send_requested: 0,
        join_requested: 0,
        leave_requested: 0,
        bound: 0,
        barred: 0,
        window_count: 0,
        reserved_1: [0; 1],
        entered_count: 0,
        reserved_2: [0; 3],
        entered: [0; VIEWS],
        senders: [0; NOTICES],
        payloads: [0; NOTICES],
        send_payloads: [0; NOTICES],
        windows: [0; WINDOWS],
    };

    fn notice(&self, number: usize) -> Notice {
        let in_set = |set: u64| set >> number & 1 == 1;
        let binding = if in_set(self.barred) {
            Binding::Barred
        } else if in_set(self.bound) {
            Binding::Bound(self.payloads[number])
        } else {
            Binding::Unbound
        };
        Notice {
            sender: self.senders[number] as u8,
            binding,
            delivered: in_set(self.delivered),
            send_requested: in_set(self.send_requested).then_some(self.send_payloads[number]),
        }
    }
}

/// A controller in the memory that the proved calls are lent.
///
/// A refused call leaves it as it was. `==` compares the memory, also words that stand for nothing.
#[derive(Clone, PartialEq, Eq, Debug)]
pub struct Controller {
    fields: Fields,
    record: Record,
}

impl Default for Controller {
    fn default() -> Controller {
        let mut controller = Controller { fields: Fields::EMPTY, record: Record::default() };
        ffi::pekdrav_raw_controller_init(&mut controller.fields, &mut controller.record);
        controller
    }
}

/// Makes a call, which is lent the place of its value, notice and signers.
fn answered(call: impl FnOnce(&mut Value) -> u8) -> Answer {
    let mut value = Value::default();
    let number = call(&mut value);
    Answer::told(number, value)
}

/// How many there are, or 255 if there are more, which the library refuses as it refuses that many.
fn counted(length: usize) -> u8 {
    u8::try_from(length).unwrap_or(u8::MAX)
}

/// The calls.
impl Controller {
    /// A controller that waits for its setup.
    pub fn new() -> Controller {
        Controller::default()
    }

    /// Starts controller `number` in the ring of these initial members, bit k for controller k, with a sender for each of 1 to 64 notices. It leaves only
    /// in one of the windows, of which there are at most 8 and which may overlap, or at any time if there are none.
    pub fn setup(&mut self, number: u8, members: u16, senders: &[u8], windows: &[Window]) -> Answer {
        let Controller { fields, record } = self;
        let (count, window_count) = (counted(senders.len()), counted(windows.len()));
        let (listed, windows) = (padded(senders), words(windows));
        answered(|value| ffi::pekdrav_raw_controller_setup(fields, record, number, members, count, &listed, window_count, &windows, value))
    }

    /// Notes that it is to join; a later turn signs that.
    pub fn join(&mut self) -> Answer {
        answered(|value| ffi::pekdrav_raw_controller_join(&mut self.fields, value))
    }

    /// Notes that it is to leave; a later turn signs that.
    pub fn leave(&mut self) -> Answer {
        answered(|value| ffi::pekdrav_raw_controller_leave(&mut self.fields, value))
    }

    /// Notes what the notice's sender is to send; a later turn signs its prepare.
    pub fn send(&mut self, notice: u8, payload: u64) -> Answer {
        answered(|value| ffi::pekdrav_raw_controller_send(&mut self.fields, notice, payload, value))
    }

    /// Adds the statement that `line` is in its ring, once the host has checked its signature.
    pub fn add(&mut self, pool: &mut Pool, line: &[u8]) -> Answer {
        let Controller { fields, record } = self;
        answered(|value| ffi::raw_controller_add(fields, record, pool.words_mut(), line, value))
    }

    /// Does the first step that the rules allow in this minute of the week, 0 to 10079, which the host's clock gives: 1440 for each weekday before, and
    /// the minute of the day.
    pub fn turn(&mut self, pool: &mut Pool, minute: u16) -> Answer {
        let Controller { fields, record } = self;
        answered(|value| ffi::raw_controller_turn(fields, record, pool.words_mut(), minute, value))
    }
}

/// What its record shows in its ring, as the functions of [`Record`] tell it.
impl Controller {
    /// Who signed a statement of this kind at this view, bit k for controller k.
    pub fn signers(&self, pool: &Pool, kind: Kind, at: View) -> u32 {
        self.record.signers(pool, kind, at)
    }

    /// Whether a quorum signed what the question asks for, and how many statements were read.
    pub fn count(&self, pool: &Pool, question: &Question) -> Count {
        self.record.count(pool, question)
    }

    /// Whether a quorum of the view has counted reports on it; `None` where a turn would be refused with 7 or 6.
    pub fn count_reports(&self, pool: &Pool, view: View) -> Option<Count> {
        self.record.count_reports(pool, &self.ring(), view)
    }

    /// All members of the question's view that signed what it asks for, bit k for controller k.
    pub fn who(&self, pool: &Pool, question: &Question) -> u32 {
        self.record.who(pool, question)
    }

    /// All members of the view that have counted reports on it; `None` where a turn would be refused with 7 or 6.
    pub fn who_reported(&self, pool: &Pool, view: View) -> Option<u32> {
        self.record.who_reported(pool, &self.ring(), view)
    }

    /// Who acknowledged the payload at the least sealed top, as written, that has a certificate for it; nobody if none has.
    pub fn ack_set(&self, pool: &Pool, notice: u8, payload: u64) -> u32 {
        self.record.ack_set(pool, &self.ring(), notice, payload)
    }

    /// Who stored the payload at the least sealed top, as written, of which a quorum did; nobody if there is none.
    pub fn store_set(&self, pool: &Pool, notice: u8, payload: u64) -> u32 {
        self.record.store_set(pool, &self.ring(), notice, payload)
    }

    /// What the record shows.
    pub fn evidence(&self, pool: &Pool) -> Evidence {
        self.record.evidence(pool, &self.ring())
    }
}

/// Its service screen.
impl Controller {
    /// What it knows of its ring, who signed for what, and what it waits for, in lines. `include/pekdrav.h` has their form.
    pub fn screen(&self, pool: &Pool) -> String {
        with_memory(|out| self.screen_into(pool, out))
    }

    /// Writes the same from the start of `out` and answers its length; `None`, with `out` as it was, if that has fewer than `SCREEN_BYTES` bytes.
    #[inline]
    pub fn screen_into(&self, pool: &Pool, out: &mut [u8]) -> Option<usize> {
        let length = ffi::controller_screen(&self.fields, &self.record, pool.words(), out);
        // Every screen has a line, so none has the length 0.
        (length > 0).then_some(length)
    }
}

/// What it is now.
impl Controller {
    /// Whether a setup was taken.
    pub fn is_set_up(&self) -> bool {
        self.fields.ready != 0
    }

    /// Its number in the ring.
    pub fn number(&self) -> u8 {
        self.fields.number as u8
    }

    /// The initial view.
    pub fn initial(&self) -> View {
        View::from_word(self.fields.initial)
    }

    /// What it has of each notice, by number; nothing before setup.
    pub fn notices(&self) -> impl ExactSizeIterator<Item = Notice> + '_ {
        let count = if self.is_set_up() { self.fields.notice_count as usize } else { 0 };
        (0..count.min(NOTICES)).map(|number| self.fields.notice(number))
    }

    /// What it has of this notice, if its setup has it.
    pub fn notice(&self, notice: u8) -> Option<Notice> {
        self.notices().nth(notice.into())
    }

    /// The initial view and the senders.
    pub fn ring(&self) -> Ring {
        let senders: Vec<u8> = self.notices().map(|notice| notice.sender).collect();
        Ring::new(self.initial(), &senders)
    }

    /// The windows of its setup; none before it.
    pub fn windows(&self) -> impl ExactSizeIterator<Item = Window> + '_ {
        let count = if self.is_set_up() { self.fields.window_count as usize } else { 0 };
        self.fields.windows[..count.min(WINDOWS)].iter().map(|&word| Window::from_word(word))
    }

    /// Whether a join was requested.
    pub fn join_requested(&self) -> bool {
        self.fields.join_requested != 0
    }

    /// Whether a leave was requested.
    pub fn leave_requested(&self) -> bool {
        self.fields.leave_requested != 0
    }

    /// Its record.
    pub fn record(&self) -> &Record {
        &self.record
    }

    /// The views that it entered.
    pub fn entered(&self) -> Vec<View> {
        let entered = self.fields.entered.iter().take(self.fields.entered_count as usize);
        entered.map(|&word| View::from_word(word)).collect()
    }
}
