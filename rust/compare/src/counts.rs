//! Counts of quorums, compared.

use std::collections::HashSet;

use generate::Rng;
use pekdrav::{Count, Pool, Record, Ring, View, POOL_WORDS, STATEMENTS};
use reference::{Body, Question, Statement};

use crate::evidence::{as_mine, compare_text, mine, shown, shrink, Lent};
use crate::records::{resigned, Case};

/// Puts the statements into a pool in another order, with statements between them that the record lacks: the same by others, and others.
pub fn scattered(rng: &mut Rng, case: &Case) -> Result<Lent, String> {
    let notices = case.senders.len();
    let room = STATEMENTS - case.statements.len();
    let mut all = case.statements.clone();
    for _ in 0..room.min(40).min(40 * all.len()) {
        let copied = rng.below(all.len());
        all.push(resigned(rng, notices, &all[copied]));
    }
    (1..all.len()).for_each(|place| all.swap(place, rng.below(place + 1)));
    let mut pool = Pool::new();
    for statement in &all {
        pool.append(&statement.write(), notices).map_err(|error| format!("{statement:?}: {error}"))?;
    }
    // A statement that the pool has gets the number that it has there.
    let number = |statement: &Statement| pool.append(&statement.write(), notices).map_err(|error| format!("{statement:?}: {error}"));
    let numbers = case.statements.iter().map(number).collect::<Result<Vec<u16>, _>>()?;
    let record = Record::of(&numbers).ok_or("a record has at most 512 statements")?;
    Ok(Lent { pool, record, ring: Ring::new(as_mine(case.initial), &case.senders) })
}

/// The same with statements that come twice, which no controller's record has but any memory may.
pub fn repeated(rng: &mut Rng, case: &Case) -> Case {
    let mut statements = case.statements.clone();
    for _ in 0..(STATEMENTS - statements.len()).min(2 * statements.len()) {
        let again = statements[rng.below(statements.len())].clone();
        statements.insert(rng.below(statements.len() + 1), again);
    }
    Case { initial: case.initial, senders: case.senders.clone(), statements }
}

/// A question, and bits that no controller has: with any of them in a view nobody signed.
#[derive(Clone, PartialEq, Eq, Hash, Debug)]
pub(crate) struct Asked {
    pub question: Question,
    /// In the word of the view that it is signed at, and in those that are voted for.
    pub at_bits: u64,
    voted_bits: u64,
}

impl From<Question> for Asked {
    fn from(question: Question) -> Asked {
        Asked { question, at_bits: 0, voted_bits: 0 }
    }
}

impl Asked {
    /// Asks the question in the form of the proved code.
    pub fn ask<T>(&self, ask: impl FnOnce(&pekdrav::Question) -> T) -> T {
        let with = |view: reference::View, bits: u64| View::from_word(as_mine(view).word() | bits);
        let voted = |view: &reference::View| with(*view, self.voted_bits);
        let at = with(self.question.at(), self.at_bits);
        let listed: Vec<View>;
        let question = match &self.question {
            Question::AgreeView { view, .. } => pekdrav::Question::AgreeView { at, view: voted(view) },
            Question::AgreeHistory { views, .. } => {
                listed = views.iter().map(voted).collect();
                pekdrav::Question::AgreeHistory { at, views: &listed }
            }
            &Question::Ack { notice, payload, .. } => pekdrav::Question::Ack { at, notice, payload },
            &Question::Store { notice, payload, .. } => pekdrav::Question::Store { at, notice, payload },
        };
        ask(&question)
    }

    /// Whether its views are views, so that somebody may have signed.
    pub fn is_proper(&self) -> bool {
        self.at_bits | self.voted_bits == 0
    }

    fn mine(&self, pool: &Pool, record: &Record) -> Count {
        self.ask(|question| record.count(pool, question))
    }

    fn theirs(&self, statements: &[Statement]) -> Count {
        if self.is_proper() {
            told(self.question.count(statements))
        } else {
            nobody(statements)
        }
    }
}

fn told(count: reference::Count) -> Count {
    Count { reached: count.reached, read: count.read }
}

/// What a count comes to where nobody signed.
fn nobody(statements: &[Statement]) -> Count {
    Count { reached: false, read: statements.len() }
}

/// The questions that the record answers, each once.
fn answered(statements: &[Statement]) -> Vec<Question> {
    let mut met = HashSet::new();
    statements.iter().filter_map(|statement| Question::of(&statement.body)).filter(|question| met.insert(question.clone())).collect()
}

fn at_of(question: &mut Question) -> &mut reference::View {
    match question {
        Question::AgreeView { at, .. } | Question::AgreeHistory { at, .. } | Question::Ack { at, .. } | Question::Store { at, .. } => at,
    }
}

/// The same at other views: with another member, without one, with nobody in it, and with bits that no controller has.
fn elsewhere(question: &Question) -> Vec<Asked> {
    let at = question.at();
    let (joined, left) = (at.joined(), at.left());
    let last = joined & joined.wrapping_neg();
    let views = [(joined | 1 << 15, left), (joined ^ 1 << 15, left), (joined, left | last), (joined, joined), (0, 0), (!0, 0)];
    let moved = views.into_iter().map(|(joined, left)| {
        let mut moved = question.clone();
        *at_of(&mut moved) = reference::View::new(joined, left);
        Asked::from(moved)
    });
    let odd = [16, 20, 31, 48, 63].map(|bit| Asked { at_bits: 1 << bit, ..Asked::from(question.clone()) });
    moved.chain(odd).collect()
}

/// Votes for other views than these: one missing, one more, another order, none, more than a history has.
fn relisted(at: reference::View, views: &[reference::View]) -> Vec<Asked> {
    let without = |place: usize| views.iter().enumerate().filter(|other| other.0 != place).map(|other| *other.1).collect::<Vec<_>>();
    let more = [views, &[reference::View::new(!0, 1)]].concat();
    let again = |length: usize| views.iter().copied().cycle().take(length).collect::<Vec<_>>();
    let turned: Vec<_> = views.iter().rev().copied().collect();
    let lists =
        [without(0), without(views.len() / 2), without(views.len() - 1), more, turned, Vec::new(), again(16), again(17), again(600)];
    let mut asked: Vec<Asked> = lists.map(|views| Asked::from(Question::AgreeHistory { at, views })).into();
    let odd = [17, 40, 60].map(|bit| Asked { voted_bits: 1 << bit, ..Asked::from(Question::AgreeHistory { at, views: views.to_vec() }) });
    asked.extend(odd);
    asked
}

/// Questions that differ from this one in what is asked for.
fn otherwise(question: &Question) -> Vec<Asked> {
    let voted = |at, bits: u32| Asked::from(Question::AgreeView { at, view: reference::View::from_bits(bits) });
    let about = |at, notice, payload| [Question::Ack { at, notice, payload }, Question::Store { at, notice, payload }].map(Asked::from);
    match *question {
        Question::AgreeView { at, view } => {
            let odd = [18, 50].map(|bit| Asked { voted_bits: 1 << bit, ..Asked::from(question.clone()) });
            let views = [view.bits() ^ 1 << 31, view.bits() ^ 1, 0, at.bits()].map(|bits| voted(at, bits));
            odd.into_iter().chain(views).chain(about(at, 0, view.bits().into())).collect()
        }
        Question::AgreeHistory { at, ref views } => relisted(at, views),
        Question::Ack { at, notice, payload } | Question::Store { at, notice, payload } => {
            let notices = [notice, notice ^ 1, notice ^ 32, notice ^ 64, notice ^ 128].map(|notice| about(at, notice, payload));
            let payloads = [payload ^ 1, payload ^ 1 << 63, 0].map(|payload| about(at, notice, payload));
            notices.into_iter().chain(payloads).flatten().collect()
        }
    }
}

/// All that is asked of a record: what it answers, and from some of that what differs in one thing.
pub(crate) fn asked(statements: &[Statement]) -> Vec<Asked> {
    let answered = answered(statements);
    let some = answered.iter().step_by(1 + answered.len() / 24);
    let others: Vec<Asked> = some.flat_map(|question| elsewhere(question).into_iter().chain(otherwise(question))).collect();
    answered.into_iter().map(Asked::from).chain(others).collect()
}

/// The views on which reports are counted: those of the greatest history, those that somebody reports on, and others.
pub(crate) fn reported(case: &Case, evidence: &reference::Evidence) -> Vec<reference::View> {
    let at = |statement: &Statement| match &statement.body {
        Body::Report(report) => Some(report.at),
        _ => None,
    };
    let greatest = evidence.greatest().map_or(&[][..], |history| history.views());
    let gone = reference::View::new(case.initial.joined(), case.initial.joined());
    let others = [case.initial, evidence.wished, gone, reference::View::EMPTY, reference::View::new(!0, 0)];
    let mut met = HashSet::new();
    let views = greatest.iter().copied().chain(case.statements.iter().filter_map(at)).chain(others);
    views.filter(|view| met.insert(*view)).collect()
}

/// What the compared counts came to.
#[derive(Default)]
pub struct Tally {
    pub records: u64,
    pub questions: u64,
    /// A quorum that the record's last statement completes, and one that an earlier does.
    pub last: u64,
    pub earlier: u64,
    pub reports: u64,
    pub reported: u64,
    /// Reports that are not judged.
    pub refused: u64,
}

impl Tally {
    fn add(&mut self, count: Count, length: usize) {
        self.questions += 1;
        self.last += u64::from(count.reached && count.read == length);
        self.earlier += u64::from(count.reached && count.read < length);
    }

    fn add_reports(&mut self, count: Option<Count>) {
        self.reports += 1;
        self.reported += u64::from(count.is_some_and(|count| count.reached));
        self.refused += u64::from(count.is_none());
    }
}

impl std::fmt::Display for Tally {
    fn fmt(&self, f: &mut std::fmt::Formatter<'_>) -> std::fmt::Result {
        write!(
            f,
            "{} records, {} questions: {} complete with the last statement, {} before; {} counts of reports: {} complete, {} not judged",
            self.records, self.questions, self.last, self.earlier, self.reports, self.reported, self.refused
        )
    }
}

/// Compares the counts of reports, and that they are refused where the evidence says so.
fn compare_reports(case: &Case, lent: &Lent, evidence: &reference::Evidence, tally: &mut Tally) -> Result<(), String> {
    let words = mine(lent);
    let judged = words.conflict | words.many == 0;
    for at in reported(case, evidence) {
        for bits in [0, 1 << 16, 1 << 48] {
            let count = lent.record.count_reports(&lent.pool, &lent.ring, View::from_word(as_mine(at).word() | bits));
            let counted = if bits == 0 { told(evidence.count_reports(&case.statements, at)) } else { nobody(&case.statements) };
            let expected = evidence.is_judged().then_some(counted);
            if count != expected || judged != count.is_some() {
                return Err(format!("{case}\nreports on {at} with the bits {bits:#x}\nproved: {count:?}\nreference: {expected:?}"));
            }
            tally.add_reports(count);
        }
    }
    Ok(())
}

/// Compares every count of a record that is lent by `lend`, and the text of what it shows.
pub fn compare(case: &Case, mut lend: impl FnMut(&Case) -> Result<Lent, String>, tally: &mut Tally) -> Result<(), String> {
    let lent = lend(case)?;
    for asked in asked(&case.statements) {
        let count = asked.mine(&lent.pool, &lent.record);
        if count != asked.theirs(&case.statements) {
            let lend = std::cell::RefCell::new(lend);
            let mine = |case: &Case| lend.borrow_mut()(case).map(|lent| asked.mine(&lent.pool, &lent.record));
            let least = shrink(case, |case| mine(case).is_ok_and(|count| count != asked.theirs(&case.statements)));
            let theirs = asked.theirs(&least.statements);
            return Err(format!("{least}\n{asked:?}\nproved: {:?}\nreference: {theirs:?}", mine(&least)));
        }
        tally.add(count, case.statements.len());
    }
    let evidence = shown(case);
    compare_reports(case, &lent, &evidence, tally)?;
    compare_text(case, &lent, &evidence)?;
    tally.records += 1;
    Ok(())
}

/// The same memory with some of its words and numbers changed to anything.
pub fn damaged(rng: &mut Rng, lent: &Lent) -> Lent {
    let mut words: Vec<u64> = lent.pool.words().to_vec();
    for _ in 0..rng.between(1, 200) {
        // Half of them in the words that a statement without views and groups has.
        let place = if rng.chance(50) { rng.below(7 * STATEMENTS) } else { rng.below(words.len()) };
        words[place] = match rng.below(4) {
            0 => words[place] ^ 1 << rng.below(64),
            1 => words[rng.below(7 * STATEMENTS)],
            2 => [0, u64::MAX][rng.below(2)],
            _ => rng.draw(),
        };
    }
    let last = words.len() - 1;
    words[last] = [words[last], rng.below(600) as u64, rng.draw()][rng.below(3)];
    let pool = <Box<[u64; POOL_WORDS]>>::try_from(words.into_boxed_slice()).map_or_else(|_| Pool::new(), Pool::from);
    let mut numbers = lent.record.numbers().to_vec();
    (0..rng.below(4)).for_each(|_| numbers.push(rng.draw() as u16));
    for _ in 0..rng.below(8).min(numbers.len()) {
        let (place, from) = (rng.below(numbers.len()), rng.below(numbers.len()));
        numbers.swap(place, from);
    }
    numbers.truncate(STATEMENTS);
    Lent { pool, record: Record::of(&numbers).unwrap_or_default(), ring: lent.ring }
}

/// Whether the numbers of a count go together in a record of that length.
fn fits(count: Count, length: usize) -> bool {
    if count.reached {
        (1..=length).contains(&count.read)
    } else {
        count.read == length
    }
}

/// The record with its first statements alone.
fn beginning(record: &Record, length: usize) -> Record {
    Record::of(&record.numbers()[..length]).unwrap_or_default()
}

/// That each count of what the record answers in proper memory is one that ends with the completing signer, whatever the memory holds now: with fewer
/// statements there is no quorum, and with more the count is the same.
pub fn ends_where_it_says(case: &Case, lent: &Lent, tally: &mut Tally) -> Result<(), String> {
    let length = lent.record.len();
    for asked in asked(&case.statements) {
        let count = asked.mine(&lent.pool, &lent.record);
        let shorter = |length: usize| asked.mine(&lent.pool, &beginning(&lent.record, length));
        let before = count.read.saturating_sub(1);
        if !fits(count, length)
            || (count.reached && (shorter(count.read) != count || shorter(before) != Count { reached: false, read: before }))
        {
            return Err(format!("{case}\n{asked:?}: {count:?} of {length}"));
        }
        tally.add(count, length);
    }
    let words = mine(lent);
    for at in reported(case, &shown(case)) {
        let count = lent.record.count_reports(&lent.pool, &lent.ring, as_mine(at));
        if !count.is_none_or(|count| fits(count, length)) || count.is_some() != (words.conflict | words.many == 0) {
            return Err(format!("{case}\nreports on {at}: {count:?} of {length}"));
        }
        tally.add_reports(count);
    }
    tally.records += 1;
    Ok(())
}
