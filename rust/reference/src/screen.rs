//! The service screen of a controller: what it knows of its ring, who signed for what, and what it waits for, as lines of text.

use crate::controller::{Controller, Notice, Refusal, Situation};
use crate::evidence::{Evidence, Known, Quorum};
use crate::rules::Rules;
use crate::statement::Binding;
use crate::text::{write_decimal, write_hex};
use crate::view::{alone, Set, View, CONTROLLERS};

/// No screen has more bytes.
pub const SCREEN_LIMIT: usize = 32_768;

/// The lines written so far.
struct Text(Vec<u8>);

impl Text {
    fn word(&mut self, word: &str) {
        self.0.extend_from_slice(word.as_bytes());
    }

    fn line(&mut self, line: &str) {
        self.word(line);
        self.end();
    }

    fn end(&mut self) {
        self.0.push(b'\n');
    }

    fn decimal(&mut self, number: u64) {
        write_decimal(&mut self.0, number);
    }

    fn digits(&mut self, view: View) {
        write_hex(&mut self.0, view.bits(), 8);
    }

    /// A colon, and after it the numbers of the set.
    fn numbers(&mut self, set: Set) {
        self.word(":");
        for k in (0..CONTROLLERS).filter(|&k| set & alone(k) != 0) {
            self.word(" ");
            self.decimal(k.into());
        }
    }

    /// The digits of a view, and its members.
    fn view(&mut self, view: View) {
        self.digits(view);
        self.numbers(view.members());
    }

    /// The digits of a set, and the numbers in it.
    fn set(&mut self, set: Set) {
        write_hex(&mut self.0, set.into(), 4);
        self.numbers(set);
    }

    /// A line of a word and a view with its members.
    fn view_line(&mut self, word: &str, view: View) {
        self.word(word);
        self.view(view);
        self.end();
    }
}

impl<R: Rules> Controller<R> {
    /// The service screen.
    pub fn screen(&self) -> String {
        let mut text = Text(Vec::new());
        match self.ring() {
            None => text.line("not set up"),
            Some(ring) => {
                let evidence = self.evidence(ring);
                // The screen does not depend on the minute: of a leave it asks what it would do without windows.
                let situation = self.situation(ring, 0, &evidence);
                self.lines(&mut text, &evidence, situation);
            }
        }
        String::from_utf8_lossy(&text.0).into_owned()
    }

    fn lines(&self, text: &mut Text, evidence: &Evidence, situation: Result<Situation<R>, Refusal>) {
        let conflict = matches!(situation, Err(Refusal::Conflict));
        text.word("controller ");
        text.decimal(self.number().into());
        text.end();
        self.place(text, evidence.greatest().filter(|_| !conflict).map(|greatest| greatest.top()));
        text.view_line("wished ", evidence.wished);
        match &situation {
            Err(Refusal::Conflict) => text.line("conflict"),
            Err(_) => text.line("candidates: more than 16"),
            Ok(_) => candidates(text, &evidence.candidates),
        }
        for (number, (mine, known)) in (0..).zip(self.notices().iter().zip(&evidence.notices)) {
            notice(text, number, mine, (!conflict).then_some(known));
        }
        match situation {
            Err(Refusal::Conflict) => text.line("turns are refused with 7"),
            Err(_) => text.line("turns are refused with 6"),
            Ok(situation) => waits(text, &situation),
        }
    }

    /// Where it is; no top is known after a conflict.
    fn place(&self, text: &mut Text, top: Option<View>) {
        match (top, self.entered().last()) {
            (Some(top), _) if top.left() & alone(self.number()) != 0 => text.line("left"),
            (Some(top), _) if self.stands_in(top) => text.view_line("stands in ", top),
            (_, Some(&last)) => text.view_line("entered ", last),
            (_, None) => text.line("entered nothing"),
        }
    }
}

fn candidates(text: &mut Text, views: &[View]) {
    text.word("candidates");
    for &view in views {
        text.word(" ");
        text.digits(view);
    }
    text.end();
}

/// The line of a notice; nothing is known of its certificate after a conflict.
fn notice(text: &mut Text, number: u64, mine: &Notice, known: Option<&Known>) {
    text.word("notice ");
    text.decimal(number);
    text.word(": ");
    match mine.binding {
        Binding::Unbound => text.word("unbound"),
        Binding::Barred => text.word("barred"),
        Binding::Bound(payload) => {
            text.word("bound to ");
            text.decimal(payload);
        }
    }
    if let Some(known) = known {
        let acks = known.certificates.first();
        certificate(text, acks, acks.and_then(|acks| known.stores(acks.payload)));
    }
    text.line(if mine.delivered { "; delivered" } else { "; not delivered" });
}

fn certificate(text: &mut Text, acks: Option<&Quorum>, stores: Option<&Quorum>) {
    match acks {
        None => text.word("; no certificate"),
        Some(acks) => {
            text.word("; certificate for ");
            text.decimal(acks.payload);
            text.word(" acked by ");
            text.set(acks.signers);
        }
    }
    match stores {
        None => text.word("; not stored"),
        Some(stores) => {
            text.word("; stored by ");
            text.set(stores.signers);
        }
    }
}

/// What a controller waits for whose turns are not refused.
fn waits<R: Rules>(text: &mut Text, situation: &Situation<R>) {
    let (top, lacking) = situation.waits_for_reports();
    for &(view, silent) in &lacking {
        text.word("waits to enter ");
        text.digits(top);
        text.word(" for reports on ");
        text.digits(view);
        text.word(" from ");
        text.set(silent);
        text.end();
    }
    let window = situation.waits_for_window();
    if window {
        text.line("waits for a window to leave");
    }
    if lacking.is_empty() && !window {
        text.line("waits for nothing");
    }
}
