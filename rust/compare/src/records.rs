//! Records to compare evidence on: those of runs, changed ones, and the worst that liars can write.

use generate::Rng;
use reference::bench::run_watched;
use reference::{Bench, Binding, Body, Document, History, Record, Report, Set, Statement, Told, View, NOTICES};

/// A list of different statements, and the ring in which it is looked at.
#[derive(Clone, Debug)]
pub struct Case {
    pub initial: View,
    /// By the number of the notice.
    pub senders: Vec<u8>,
    pub statements: Vec<Statement>,
}

impl Case {
    /// The same with its first statements alone.
    pub fn first(&self, count: usize) -> Case {
        let statements = self.statements.iter().take(count).cloned().collect();
        Case { initial: self.initial, senders: self.senders.clone(), statements }
    }
}

/// The ring, and the statements as lines.
impl std::fmt::Display for Case {
    fn fmt(&self, f: &mut std::fmt::Formatter<'_>) -> std::fmt::Result {
        let lines: Vec<String> = self.statements.iter().map(|said| String::from_utf8_lossy(&said.write()).into_owned()).collect();
        write!(f, "initial {} senders {:?}\n{}", self.initial, self.senders, lines.join("\n"))
    }
}

/// The pool at the end of a run, if a setup was taken.
pub fn pool_of(schedule: &[u8]) -> Option<Case> {
    let mut bench = Bench::<Document>::new();
    run_watched(&mut bench, schedule, |_, _, _| {});
    let ring = bench.controller(0)?.ring()?;
    Some(Case { initial: ring.initial, senders: ring.senders.clone(), statements: bench.pool().statements().to_vec() })
}

fn put(statements: &mut Vec<Statement>, statement: Statement) {
    if statements.len() < Record::LIMIT && !statements.contains(&statement) {
        statements.push(statement);
    }
}

/// A statement by somebody else, or about another notice: a double signature, or one of somebody who is no member.
pub fn resigned(rng: &mut Rng, notices: usize, statement: &Statement) -> Statement {
    let origin = if rng.chance(80) { rng.below(16) as u8 } else { statement.origin };
    let mut body = statement.body.clone();
    match &mut body {
        Body::Prepare { notice, .. } | Body::Ack { notice, .. } | Body::Store { notice, .. } if rng.chance(50) => {
            *notice = rng.below(notices) as u8;
        }
        _ => {}
    }
    Statement { origin, body }
}

/// Another order, some statements missing, some signed by others, sometimes another initial view or sender.
pub fn changed(rng: &mut Rng, case: &Case) -> Case {
    let mut statements = case.statements.clone();
    for place in (1..statements.len()).rev() {
        if rng.chance(30) {
            statements.swap(place, rng.below(place + 1));
        }
    }
    if rng.chance(60) {
        let percent = rng.below(30);
        statements.retain(|_| !rng.chance(percent));
    }
    let more = if rng.chance(50) { rng.below(40) } else { 0 };
    for _ in 0..more.min(40 * statements.len()) {
        let copied = rng.below(statements.len());
        let copy = resigned(rng, case.senders.len(), &statements[copied]);
        put(&mut statements, copy);
    }
    let initial = if rng.chance(5) { View::new(rng.draw() as Set | 1, 0) } else { case.initial };
    let mut senders = case.senders.clone();
    if rng.chance(10) {
        let notice = rng.below(senders.len());
        senders[notice] = rng.below(16) as u8;
    }
    Case { initial, senders, statements }
}

/// The view in which the first `count` controllers have joined.
fn rising(count: u32) -> View {
    View::new(((1u32 << count) - 1) as Set, 0)
}

/// The only member of the initial view, which is a quorum by itself.
fn liar(statements: &mut Vec<Statement>, body: Body) {
    put(statements, Statement::new(0, body));
}

/// All sixteen ask to join.
fn wishes() -> Vec<Statement> {
    (1..16).map(|origin| Statement::new(origin, Body::Join)).collect()
}

/// A ring of one liar that names as many views and histories as there is room for, all at the initial view.
pub fn breadth(count: usize) -> Case {
    let mut statements = wishes();
    let at = rising(1);
    for joined in (1..0x8000u32).map(|set| set << 1 | 1) {
        if statements.len() + 2 > count {
            break;
        }
        let view = View::new(joined as Set, 0);
        liar(&mut statements, Body::AgreeView { at, view });
        if let Some(history) = History::new(&[at, view]) {
            liar(&mut statements, Body::AgreeHistory { at, history });
        }
    }
    Case { initial: at, senders: vec![0], statements }
}

/// Each view of the chain is chosen at the one before by a quorum of it, and agreed to with all below.
fn climb(chain: &[View], statements: &mut Vec<Statement>) {
    for place in 1..chain.len() {
        let at = chain[place - 1];
        let signers = (0..16u8).filter(|&k| at.has_member(k)).take(at.quorum().unwrap_or(0) as usize);
        for origin in signers {
            put(statements, Statement::new(origin, Body::AgreeView { at, view: chain[place] }));
            if let Some(history) = History::new(&chain[..=place]) {
                put(statements, Statement::new(origin, Body::AgreeHistory { at, history }));
            }
        }
    }
}

/// A chain of 16 views that all seal, by honest quorums of up to eleven.
pub fn quorums() -> Case {
    let chain: Vec<View> = (1..=16).map(rising).collect();
    let mut statements = wishes();
    climb(&chain, &mut statements);
    Case { initial: chain[0], senders: vec![0], statements }
}

/// A chain in which each view is larger by one than the one before: 1 joins, 1 leaves, 2 joins, and so on. A history has at most 16 views, so each
/// agreement names the initial view, the view that it is signed at and the next. No verdict rests on more views, one on the other, and the largest
/// comes first, so that nothing is remembered when it is asked for.
pub fn deepest() -> Case {
    let sets = |n: u32| (((2u32 << n.div_ceil(2)) - 1) as Set, ((2u32 << (n / 2)) - 2) as Set);
    let chain: Vec<View> = (0..=30).map(sets).map(|(joined, left)| View::new(joined, left)).collect();
    let mut statements = wishes();
    (1..16).for_each(|origin| put(&mut statements, Statement::new(origin, Body::Leave)));
    for pair in chain.windows(2) {
        let (at, view) = (pair[0], pair[1]);
        for origin in (0..16u8).filter(|&k| at.has_member(k)) {
            put(&mut statements, Statement::new(origin, Body::AgreeView { at, view }));
            let mut views = vec![chain[0], at, view];
            views.dedup();
            if let Some(history) = History::new(&views) {
                put(&mut statements, Statement::new(origin, Body::AgreeHistory { at, history }));
            }
        }
    }
    statements.reverse();
    Case { initial: chain[0], senders: vec![0], statements }
}

/// A history of some views of the chain, the first and the one at `least` among them, that goes on after `least`.
fn some_of(rng: &mut Rng, chain: &[View], least: usize) -> Option<History> {
    let set = rng.draw();
    let taken = |place: &usize| *place == 0 || *place == least || set >> place & 1 == 1;
    let views: Vec<View> = (0..chain.len()).filter(taken).map(|place| chain[place]).collect();
    History::new(&views).filter(|history| history.top() != chain[least])
}

/// A chain of 16 views in which one liar is alone, since each other member leaves as it joins; and hundreds of histories of them, each
/// agreed at one of its own views.
pub fn depth(count: usize) -> Case {
    let mut rng = Rng::new(13);
    let chain: Vec<View> = (0..16u32).map(|n| View::new(((2u32 << n) - 1) as Set, ((2u32 << n) - 2) as Set)).collect();
    let mut statements = wishes();
    (1..16).for_each(|origin| put(&mut statements, Statement::new(origin, Body::Leave)));
    climb(&chain, &mut statements);
    while statements.len() < count {
        let least = rng.below(15);
        if let Some(history) = some_of(&mut rng, &chain, least) {
            liar(&mut statements, Body::AgreeHistory { at: chain[least], history });
        }
    }
    statements.truncate(count);
    Case { initial: chain[0], senders: vec![0], statements }
}

/// Half the statements of the one and half of the other.
pub fn mixed(count: usize) -> Case {
    let (wide, deep) = (breadth(Record::LIMIT), depth(Record::LIMIT));
    let mut statements = Vec::new();
    for statement in deep.statements.iter().zip(&wide.statements).flat_map(|(one, other)| [one, other]) {
        if statements.len() < count {
            put(&mut statements, statement.clone());
        }
    }
    Case { initial: wide.initial, senders: vec![0], statements }
}

/// Controller 0 alone, with 1, and with 1 and 2, each view sealed at the one before; 2 has entered nothing. The second view has no quorum of reports, so
/// that a turn of 2 looks at the reports and has nothing to do in the end, again and again.
fn waiting() -> (Vec<View>, Vec<Statement>) {
    let chain: Vec<View> = (1..=3).map(rising).collect();
    let mut statements: Vec<Statement> = (1..3).map(|origin| Statement::new(origin, Body::Join)).collect();
    climb(&chain, &mut statements);
    (chain, statements)
}

/// Who waits in the records of `reports` and `prepares`. The first report is a quorum of the first view, so that few are judged; `short_of_quorum` has more.
pub const WAITING: u8 = 2;

/// Reports at the first view until there are `count` statements, `tell` having what report `place` tells of a notice.
fn report(chain: &[View], statements: &mut Vec<Statement>, count: usize, tell: impl Fn(usize, usize) -> Told) {
    let views = [vec![chain[0]], chain[..2].to_vec(), chain.to_vec()];
    // Nine reports in a row differ in their views, and the next nine in what they tell.
    for place in 0..Record::LIMIT {
        if statements.len() >= count {
            return;
        }
        let told = (0..NOTICES).map(|notice| tell(place, notice)).collect();
        if let Some(history) = History::new(&views[place % 3]) {
            liar(statements, Body::Report(Report { at: chain[0], view: chain[place / 3 % 3], told, history }));
        }
    }
}

/// 64 notices, each with a certificate, and for the rest reports that are bound to all of them and keep all but one; no two are alike.
pub fn reports(count: usize) -> Case {
    let (chain, mut statements) = waiting();
    for notice in 0..NOTICES as u8 {
        liar(&mut statements, Body::Prepare { notice, payload: u64::MAX - u64::from(notice) });
        liar(&mut statements, Body::Ack { at: chain[0], notice, payload: u64::MAX - u64::from(notice) });
    }
    let tell = |place: usize, notice: usize| {
        let payload = u64::MAX - notice as u64;
        let binding = if notice == place / 9 / NOTICES { Binding::Unbound } else { Binding::Bound(payload) };
        Told { binding, kept: (notice != place / 9 % NOTICES).then_some(payload) }
    };
    report(&chain, &mut statements, count, tell);
    Case { initial: chain[0], senders: vec![0; NOTICES], statements }
}

/// 64 notices, half of the record prepares of them and the other half reports that are bound to one or another. With `spread` each notice has some
/// of the prepares, without it the last notice has them all.
pub fn prepares(count: usize, spread: bool) -> Case {
    let (chain, mut statements) = waiting();
    let (notices, each) = if spread { (NOTICES, count / 2 / NOTICES) } else { (1, count / 2) };
    let payload = |notice: usize, place: usize| (notice * count + place) as u64;
    for notice in NOTICES - notices..NOTICES {
        for place in 0..each {
            liar(&mut statements, Body::Prepare { notice: notice as u8, payload: payload(notice, place) });
        }
    }
    let tell = |place: usize, notice: usize| match notice {
        _ if notice < NOTICES - notices => Told::default(),
        _ if spread && notice == place / 9 % NOTICES => Told::default(),
        _ => Told { binding: Binding::Bound(payload(notice, (place + notice) % each.max(1))), kept: None },
    };
    report(&chain, &mut statements, count, tell);
    Case { initial: chain[0], senders: vec![0; NOTICES], statements }
}

/// A record of `reports` or `prepares` with all reports but the first on the second view. One of its two members signs them, which is no quorum, so that a
/// turn of the one who waits reads and judges every report.
pub fn short_of_quorum(mut case: Case) -> Case {
    let reports = case.statements.iter_mut().filter_map(|said| match &mut said.body {
        Body::Report(report) => Some(report),
        _ => None,
    });
    reports.skip(1).for_each(|report| report.at = rising(2));
    case
}

/// 64 notices, each acknowledged and stored by three of four members, as many as there is room for, and then the lies of a fourth.
pub fn votes(count: usize) -> Case {
    let at = rising(4);
    let mut statements = Vec::new();
    for notice in 0..NOTICES as u8 {
        let payload = u64::from(notice) << 32;
        put(&mut statements, Statement::new(notice % 3, Body::Prepare { notice, payload }));
        for origin in 0..3 {
            put(&mut statements, Statement::new(origin, Body::Ack { at, notice, payload }));
            put(&mut statements, Statement::new(origin, Body::Store { at, notice, payload }));
        }
    }
    for payload in 0..count as u64 {
        put(&mut statements, Statement::new(3, Body::Ack { at, notice: (payload % NOTICES as u64) as u8, payload }));
    }
    statements.truncate(count);
    Case { initial: at, senders: (0..NOTICES).map(|notice| notice as u8 % 3).collect(), statements }
}

/// Fifteen views below the top, and reports of the first member on each, which are a quorum of the first view alone: who is a member of the last view alone
/// waits for reports on fourteen views. All its notices are acknowledged and stored at the first view.
pub fn unreported(count: usize, notices: usize) -> Case {
    let (chain, mut statements) = sealed(&[(0..16).collect()]);
    for notice in 0..notices as u8 {
        let (at, payload) = (chain[0], u64::MAX - u64::from(notice));
        liar(&mut statements, Body::Prepare { notice, payload });
        liar(&mut statements, Body::Ack { at, notice, payload });
        liar(&mut statements, Body::Store { at, notice, payload });
    }
    // Each time round the reports have another history or another wished view, so that no two are alike.
    let histories: Vec<History> = (0..16).rev().filter_map(|last| History::new(&chain[..=last])).collect();
    for (&view, &history) in chain.iter().rev().flat_map(|view| histories.iter().map(move |history| (view, history))) {
        for &at in &chain[..15] {
            let told = vec![Told::default(); notices].into();
            liar(&mut statements, Body::Report(Report { at, view, told, history }));
        }
    }
    statements.truncate(count);
    Case { initial: chain[0], senders: vec![0; notices], statements }
}

/// Sealed tops that are not comparable, acknowledged and stored at by all their members: which one is the least is a matter of how they are written.
pub fn tops_apart(rng: &mut Rng, tops: usize) -> Case {
    let initial = rising(1);
    let mut statements = wishes();
    (1..16).for_each(|origin| put(&mut statements, Statement::new(origin, Body::Leave)));
    [0, 1].into_iter().for_each(|notice| liar(&mut statements, Body::Prepare { notice, payload: 7 }));
    for _ in 0..tops {
        let joined = rng.draw() as Set & rng.draw() as Set | 1;
        let view = View::new(joined, joined & rng.draw() as Set & !1);
        liar(&mut statements, Body::AgreeView { at: initial, view });
        let Some(history) = History::new(&[initial, view]) else { continue };
        liar(&mut statements, Body::AgreeHistory { at: initial, history });
        for origin in 0..16 {
            // Most sign of notice 0, some of notice 1, which another than its sender prepared, and strangers too.
            let notice = u8::from(rng.chance(12));
            put(&mut statements, Statement::new(origin, Body::Ack { at: view, notice, payload: 7 }));
            put(&mut statements, Statement::new(origin, Body::Store { at: view, notice, payload: 7 }));
        }
    }
    Case { initial, senders: vec![0, 1], statements }
}

/// Who enters past the views of `skipped` and `gaps`: a member of the last view alone, so that it owes no reports.
pub const NEWCOMER: u8 = 15;

/// Sixteen views that the liar of the first one chose, and the histories of them, by their places, that it sealed.
fn sealed(histories: &[Vec<usize>]) -> (Vec<View>, Vec<Statement>) {
    let chain: Vec<View> = (1..=16).map(rising).collect();
    let at = chain[0];
    let mut statements = wishes();
    chain[1..].iter().for_each(|&view| liar(&mut statements, Body::AgreeView { at, view }));
    for places in histories {
        let views: Vec<View> = places.iter().map(|&place| chain[place]).collect();
        if let Some(history) = History::new(&views) {
            liar(&mut statements, Body::AgreeHistory { at, history });
        }
    }
    (chain, statements)
}

/// Those histories, and reports of every member on every view below the last, again and again until there are `count` statements. The reports on the
/// views that `skips` names by place are bound to one payload of each notice, the others to another; the sender prepared both.
fn told_apart(histories: &[Vec<usize>], count: usize, notices: usize, skips: impl Fn(usize) -> bool) -> Case {
    let (chain, mut statements) = sealed(histories);
    for notice in 0..notices as u8 {
        [1, 2].into_iter().for_each(|payload| liar(&mut statements, Body::Prepare { notice, payload }));
    }
    let members = |place: usize| (0..=place as u8).map(move |origin| (place, origin));
    let reporters: Vec<(usize, u8)> = (0..15).flat_map(members).collect();
    // Each time round the reports have another history, so that no two are alike.
    for history in (0..16).filter_map(|last| History::new(&chain[..=last])) {
        for &(place, origin) in &reporters {
            let binding = Binding::Bound(if skips(place) { 2 } else { 1 });
            let told = vec![Told { binding, kept: None }; notices].into();
            put(&mut statements, Statement::new(origin, Body::Report(Report { at: chain[place], view: chain[15], told, history })));
        }
    }
    statements.truncate(count);
    Case { initial: chain[0], senders: vec![0; notices], statements }
}

/// A history of sixteen views, and one of its first and last alone: fourteen views are skipped.
pub fn skipped(count: usize, notices: usize) -> Case {
    told_apart(&[vec![0, 15], (0..16).collect()], count, notices, |place| place > 0)
}

/// Sixteen sealed histories, each with one view more than the one before: first those of every second view and the last, then one by one those between.
/// Eight views are topped and seven are skipped.
pub fn gaps(count: usize, notices: usize) -> Case {
    let topped: Vec<usize> = (0..15).step_by(2).chain([15]).collect();
    let rising = (1..topped.len()).map(|length| topped[..=length].to_vec());
    let filled = (1..=13).step_by(2).map(|least| (0..16).filter(|place| place % 2 == 0 || *place == 15 || *place >= 14 - least).collect());
    let histories: Vec<Vec<usize>> = rising.chain(filled).collect();
    told_apart(&histories, count, notices, |place| place % 2 == 1)
}
