//! What a record shows, compared.

use pekdrav::{Certificate, Evidence, EvidenceWords, Pool, Record, Ring, Shown, View, STATEMENTS, VIEWS};
use reference::Known;

use crate::records::Case;

/// A view of the reference as the proved code has it.
pub fn as_mine(view: reference::View) -> View {
    View::new(view.joined(), view.left())
}

/// A record in memory to lend, and the ring in which it is looked at.
pub struct Lent {
    pub pool: Pool,
    pub record: Record,
    pub ring: Ring,
}

/// Puts the statements into a pool by their lines; each gets the number of its place.
pub fn lend(case: &Case) -> Result<Lent, String> {
    let mut pool = Pool::new();
    let mut numbers = Vec::new();
    for (place, statement) in (0..).zip(&case.statements) {
        let number = pool.append(&statement.write(), case.senders.len());
        if number != Ok(place) {
            return Err(format!("{statement:?} at {place} went to {number:?}"));
        }
        numbers.push(place);
    }
    let record = Record::of(&numbers).ok_or("a record has at most 512 statements")?;
    Ok(Lent { pool, record, ring: Ring::new(as_mine(case.initial), &case.senders) })
}

/// The words that the proved code tells, over memory that held other words.
pub fn mine(lent: &Lent) -> EvidenceWords {
    let mut out = EvidenceWords::filled(u64::MAX);
    lent.record.evidence_into(&lent.pool, &lent.ring, &mut out);
    out
}

/// The words that this evidence is told in. What is not told is 0.
pub fn words(evidence: &Evidence) -> EvidenceWords {
    let mut out = EvidenceWords { wished: evidence.wished.word(), ..EvidenceWords::default() };
    let Some(shown) = &evidence.shown else {
        out.conflict = 1;
        return out;
    };
    let list = |count: &mut u64, out: &mut [u64; VIEWS], views: &[View]| {
        *count = views.len() as u64;
        out.iter_mut().zip(views).for_each(|(word, view)| *word = view.word());
    };
    list(&mut out.candidate_count, &mut out.candidates, shown.candidates.as_deref().unwrap_or(&[]));
    list(&mut out.greatest_count, &mut out.greatest, &shown.greatest);
    out.many = shown.candidates.is_none().into();
    for &Certificate { notice, payload, stored } in &shown.certificates {
        out.certified |= 1 << notice;
        out.stored |= u64::from(stored) << notice;
        out.payloads[usize::from(notice)] = payload;
    }
    out
}

/// The reference's evidence, in its own form.
pub fn shown(case: &Case) -> reference::Evidence {
    reference::Evidence::of(case.initial, &case.senders, &case.statements)
}

/// The reference's evidence.
pub fn theirs(case: &Case) -> Evidence {
    told(&shown(case))
}

/// The same as the proved code has it.
fn told(evidence: &reference::Evidence) -> Evidence {
    let listed = |views: &[reference::View]| views.iter().map(|&view| as_mine(view)).collect::<Vec<View>>();
    let certificate = |(notice, known): (u8, &Known)| {
        let payload = known.certificate()?;
        Some(Certificate { notice, payload, stored: known.stores(payload).is_some() })
    };
    let rest = || Shown {
        candidates: (evidence.candidates.len() <= VIEWS).then(|| listed(&evidence.candidates)),
        greatest: evidence.greatest().map_or(Vec::new(), |history| listed(history.views())),
        certificates: (0..).zip(&evidence.notices).filter_map(certificate).collect(),
    };
    Evidence { wished: as_mine(evidence.wished), shown: (!evidence.conflict()).then(rest) }
}

/// The text of what a record shows, from the evidence; with one notice its number is not told.
fn text(case: &Case, theirs: &reference::Evidence) -> String {
    let evidence = told(theirs);
    let view = |view: View| format!("{:04x}{:04x}", view.joined(), view.left());
    let list =
        |views: &[View]| std::iter::once(views.len().to_string()).chain(views.iter().map(|&one| view(one))).collect::<Vec<_>>().join(",");
    let wished = format!("wished,{}\n", view(evidence.wished));
    let Some(shown) = &evidence.shown else { return wished + "conflict\n" };
    let candidates = shown.candidates.as_ref().map_or("many".to_string(), |views| list(views));
    let certificate = |&Certificate { notice, payload, stored }: &Certificate| {
        let word = if stored { "stored" } else { "kept" };
        let number = if case.senders.len() == 1 { String::new() } else { format!("{notice},") };
        let read = theirs.acked_after(&case.statements, notice, payload).unwrap_or(0);
        format!("certificate,{number}{payload},{word},{read}\n")
    };
    let certificates: String = match shown.certificates.as_slice() {
        [] => "certificate,none\n".to_string(),
        some => some.iter().map(certificate).collect(),
    };
    format!("{wished}candidates,{candidates}\ngreatest,{}\n{certificates}", list(&shown.greatest))
}

/// Compares the text of what a record shows with one made from the reference's evidence.
pub fn compare_text(case: &Case, lent: &Lent, theirs: &reference::Evidence) -> Result<(), String> {
    let (mine, theirs) = (lent.record.screen(&lent.pool, &lent.ring), text(case, theirs));
    if mine == theirs {
        return Ok(());
    }
    Err(format!(
        "initial {} senders {:?}, a record of {}\nproved:\n{mine}reference:\n{theirs}",
        case.initial,
        case.senders,
        case.statements.len()
    ))
}

/// What the compared records showed.
#[derive(Default)]
pub struct Tally {
    pub records: u64,
    pub statements: u64,
    pub longest: usize,
    pub conflicts: u64,
    /// More than sixteen candidates.
    pub many: u64,
    /// A view after the initial one was entered into a sealed history.
    pub sealed: u64,
    pub certified: u64,
    pub stored: u64,
    /// Certificates of more than one notice.
    pub several: u64,
}

impl Tally {
    fn add(&mut self, case: &Case, evidence: &Evidence) {
        self.records += 1;
        self.statements += case.statements.len() as u64;
        self.longest = self.longest.max(case.statements.len());
        let Some(shown) = &evidence.shown else {
            self.conflicts += 1;
            return;
        };
        self.many += u64::from(shown.candidates.is_none());
        self.sealed += u64::from(shown.greatest.len() > 1);
        self.certified += u64::from(!shown.certificates.is_empty());
        self.stored += u64::from(shown.certificates.iter().any(|certificate| certificate.stored));
        self.several += u64::from(shown.certificates.len() > 1);
    }
}

impl std::fmt::Display for Tally {
    fn fmt(&self, f: &mut std::fmt::Formatter<'_>) -> std::fmt::Result {
        write!(
            f,
            "{} records of {} statements, the longest of {}: {} conflicts, {} with more than 16 candidates, {} sealed, {} certified, {} stored, {} of several notices",
            self.records, self.statements, self.longest, self.conflicts, self.many, self.sealed, self.certified, self.stored, self.several
        )
    }
}

/// The fewest statements found in which they still differ.
pub fn shrink(case: &Case, differs: impl Fn(&Case) -> bool) -> Case {
    let mut least = case.clone();
    let mut place = least.statements.len();
    while place > 0 {
        place -= 1;
        let mut fewer = least.clone();
        fewer.statements.remove(place);
        if differs(&fewer) {
            least = fewer;
        }
    }
    least
}

pub fn compare(case: &Case, tally: &mut Tally) -> Result<(), String> {
    assert!(case.statements.len() <= STATEMENTS, "a record has at most 512 statements");
    let lent = lend(case)?;
    let shown = shown(case);
    let (mine_now, theirs_now) = (mine(&lent), told(&shown));
    // Both ways: every word, and what the words are read as.
    if mine_now != words(&theirs_now) || Evidence::from(&mine_now) != theirs_now {
        let least = shrink(case, |case| lend(case).is_ok_and(|lent| mine(&lent) != words(&theirs(case))));
        let (one, other) = (mine(&lend(&least)?), words(&theirs(&least)));
        return Err(format!("{least}\nproved: {one:x?}\nreference: {other:x?}"));
    }
    compare_text(case, &lent, &shown)?;
    tally.add(case, &theirs_now);
    Ok(())
}
