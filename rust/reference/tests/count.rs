//! The count that ends with the signer who completes a quorum.

use reference::{count_reports, Binding, Body, Count, Evidence, History, Question, Report, Statement, Told, View};

/// Four members, of which three are a quorum.
const FOUR: View = View::new(0x000f, 0);
/// In which 0 is alone, and so a quorum by itself.
const ONE: View = View::new(0x0001, 0);
/// Which everybody has left.
const NOBODY: View = View::new(0x0003, 0x0003);

fn ack(origin: u8) -> Statement {
    Statement::new(origin, Body::Ack { at: FOUR, notice: 0, payload: 7 })
}

/// A statement that is no ack for 7 of notice 0 at `FOUR`, whatever the number.
fn other(number: u8) -> Statement {
    let body = match number % 5 {
        0 => Body::Ack { at: FOUR, notice: 0, payload: 8 },
        1 => Body::Ack { at: FOUR, notice: 1, payload: 7 },
        2 => Body::Store { at: FOUR, notice: 0, payload: 7 },
        3 => Body::Ack { at: ONE, notice: 0, payload: 7 },
        _ => Body::Prepare { notice: 0, payload: 7 },
    };
    Statement::new(number % 4, body)
}

/// A record in which these sign the ack, in this order, and nobody else does in the other places.
fn signed(length: usize, signers: &[(usize, u8)]) -> Vec<Statement> {
    let mut record: Vec<Statement> = (0..length).map(|number| other(number as u8)).collect();
    signers.iter().for_each(|&(place, origin)| record[place] = ack(origin));
    record
}

fn count(record: &[Statement]) -> Count {
    Question::Ack { at: FOUR, notice: 0, payload: 7 }.count(record)
}

const fn reached(read: usize) -> Count {
    Count { reached: true, read }
}

const fn missed(read: usize) -> Count {
    Count { reached: false, read }
}

#[test]
fn it_ends_with_the_signer_who_completes_the_quorum() {
    assert_eq!(count(&signed(20, &[(0, 0), (1, 1), (2, 2)])), reached(3), "as early as can be");
    assert_eq!(count(&signed(20, &[(3, 2), (8, 0), (11, 3)])), reached(12), "in the middle");
    assert_eq!(count(&signed(20, &[(3, 2), (8, 0), (11, 3), (12, 1)])), reached(12), "the fourth is not read");
    assert_eq!(count(&signed(20, &[(0, 3), (1, 2), (19, 1)])), reached(20), "the last one");
    assert_eq!(count(&signed(512, &[(0, 0), (1, 1), (511, 2)])), reached(512));
}

#[test]
fn it_reads_all_without_a_quorum() {
    assert_eq!(count(&[]), missed(0));
    assert_eq!(count(&signed(20, &[])), missed(20));
    assert_eq!(count(&signed(20, &[(0, 0), (19, 1)])), missed(20), "two of four");
}

#[test]
fn who_is_no_member_does_not_count() {
    assert_eq!(count(&signed(20, &[(0, 0), (1, 1), (2, 4), (3, 15)])), missed(20));
    assert_eq!(count(&signed(20, &[(0, 4), (1, 0), (2, 1), (3, 15), (9, 2)])), reached(10));
    let left = View::new(0x000f, 0x0001);
    let signed = [0, 1, 2, 3].map(|origin| Statement::new(origin, Body::Ack { at: left, notice: 0, payload: 7 }));
    assert_eq!(Question::Ack { at: left, notice: 0, payload: 7 }.count(&signed), reached(4), "0 has left");
    assert_eq!(Question::Ack { at: left, notice: 0, payload: 7 }.count(&signed[..3]), missed(3), "three of three are a quorum");
}

#[test]
fn a_member_counts_once() {
    assert_eq!(count(&signed(20, &[(0, 0), (1, 1), (2, 1), (3, 0)])), missed(20));
    assert_eq!(count(&signed(20, &[(0, 0), (1, 1), (2, 1), (3, 0), (15, 3)])), reached(16));
}

#[test]
fn one_member_is_a_quorum_of_its_view() {
    let said = |origin| Statement::new(origin, Body::Store { at: ONE, notice: 0, payload: 7 });
    let question = Question::Store { at: ONE, notice: 0, payload: 7 };
    assert_eq!(question.count(&[said(0), other(0)]), reached(1));
    assert_eq!(question.count(&[said(1), other(2), said(0)]), reached(3));
    assert_eq!(question.count(&[said(1), other(2)]), missed(2));
}

#[test]
fn a_view_without_members_has_no_quorum() {
    // No statement that keeps the field rules is signed at such a view; the count does not rest on that.
    let said: Vec<Statement> = (0..16).map(|origin| Statement::new(origin, Body::Ack { at: NOBODY, notice: 0, payload: 7 })).collect();
    assert_eq!(Question::Ack { at: NOBODY, notice: 0, payload: 7 }.count(&said), missed(16));
    assert_eq!(Count::of(&said, View::EMPTY, |_| true), missed(16));
    assert_eq!(Count::of(&said, FOUR, |_| true), reached(3));
    assert_eq!(Count::of(&[], NOBODY, |_| true), missed(0));
}

/// A body of each kind that is asked for, and bodies that differ from it in one field each.
fn asked() -> Vec<(Body, Vec<Body>)> {
    let larger = View::new(0x001f, 0);
    let history = |views: &[View]| History::new(views).expect("a history");
    let (short, long, skipping) = (history(&[ONE, FOUR]), history(&[ONE, FOUR, larger]), history(&[ONE, larger]));
    let ack = |at, notice, payload| Body::Ack { at, notice, payload };
    let store = |at, notice, payload| Body::Store { at, notice, payload };
    vec![
        (
            Body::AgreeView { at: FOUR, view: larger },
            vec![Body::AgreeView { at: larger, view: larger }, Body::AgreeView { at: FOUR, view: View::new(0x001f, 1) }],
        ),
        (Body::AgreeHistory { at: FOUR, history: long }, [short, skipping].map(|history| Body::AgreeHistory { at: FOUR, history }).into()),
        (Body::AgreeHistory { at: FOUR, history: short }, vec![Body::AgreeHistory { at: ONE, history: short }]),
        (ack(FOUR, 3, 7), vec![ack(larger, 3, 7), ack(FOUR, 2, 7), ack(FOUR, 3, 6), store(FOUR, 3, 7)]),
        (store(FOUR, 3, 7), vec![store(larger, 3, 7), store(FOUR, 2, 7), store(FOUR, 3, 6), ack(FOUR, 3, 7)]),
    ]
}

#[test]
fn each_question_is_answered_by_its_own_statements_alone() {
    for (body, others) in asked() {
        let question = Question::of(&body).expect("a question");
        assert_eq!(question.at(), FOUR);
        let mut record: Vec<Statement> =
            (0..4).flat_map(|origin| others.iter().map(move |body| Statement::new(origin, body.clone()))).collect();
        assert_eq!(question.count(&record), missed(record.len()), "{question:?}");
        for origin in [3, 9, 0, 2] {
            record.push(Statement::new(origin, body.clone()));
        }
        let read = record.len();
        record.push(Statement::new(1, body));
        assert_eq!(question.count(&record), reached(read), "{question:?}");
    }
    assert!([Body::Join, Body::Leave, Body::Prepare { notice: 0, payload: 7 }].iter().all(|body| Question::of(body).is_none()));
}

#[test]
fn nobody_signs_for_views_that_are_no_history() {
    let said: Vec<Statement> = asked().into_iter().map(|(body, _)| Statement::new(0, body)).collect();
    for views in [vec![], vec![FOUR, ONE], vec![ONE; 17]] {
        assert_eq!(Question::AgreeHistory { at: FOUR, views }.count(&said), missed(said.len()));
    }
}

fn report(origin: u8, at: View, binding: Binding, view: View) -> Statement {
    let told = [Told { binding, kept: None }].into();
    Statement::new(origin, Body::Report(Report { at, view, told, history: History::new(&[FOUR]).expect("a history") }))
}

/// A report that counts; two with different joined sets are two statements.
fn proper(origin: u8, joined: u16) -> Statement {
    report(origin, FOUR, Binding::Unbound, View::new(joined, 0))
}

#[test]
fn only_counted_reports_on_the_view_count() {
    let mut record = vec![
        proper(0, 0x000f),
        proper(0, 0x0007),                                     // a second one
        proper(5, 0x000f),                                     // no member
        report(1, ONE, Binding::Unbound, FOUR),                // on another view, of which 1 is no member
        report(1, FOUR, Binding::Bound(7), FOUR),              // nobody prepared 7
        report(2, FOUR, Binding::Barred, FOUR),                // nor twice
        report(3, FOUR, Binding::Unbound, View::new(0x1f, 0)), // not within wished
        proper(1, 0x000f),
        proper(2, 0x000f),
        proper(3, 0x000f),
    ];
    assert_eq!(count_reports(FOUR, &[0], &record, FOUR), Some(reached(9)));
    assert_eq!(count_reports(FOUR, &[0], &record[..8], FOUR), Some(missed(8)));
    assert_eq!(count_reports(FOUR, &[0], &record, ONE), Some(missed(10)), "0 did not report on it");
    assert_eq!(count_reports(FOUR, &[0], &record, NOBODY), Some(missed(10)));
    assert_eq!(count_reports(FOUR, &[0], &[], FOUR), Some(missed(0)));
    // A report is judged by the whole record: what comes after it may be its grounds.
    record[7] = other(1);
    assert_eq!(count_reports(FOUR, &[0], &record, FOUR), Some(reached(10)), "0, 2 and 3");
    record.push(Statement::new(0, Body::Prepare { notice: 0, payload: 7 }));
    assert_eq!(count_reports(FOUR, &[0], &record, FOUR), Some(reached(9)), "0, 1 and 2");
    record.push(Statement::new(0, Body::Prepare { notice: 0, payload: 8 }));
    assert_eq!(count_reports(FOUR, &[0], &record, FOUR), Some(reached(6)), "0, 1 and 2, who is barred with grounds now");
}

/// All sixteen ask to join a ring of 0 alone, which chose these views.
fn chosen(views: &[View]) -> Vec<Statement> {
    let joins = (1..16).map(|origin| Statement::new(origin, Body::Join));
    joins.chain(views.iter().map(|&view| Statement::new(0, Body::AgreeView { at: ONE, view }))).collect()
}

#[test]
fn no_report_is_judged_where_a_turn_is_refused_with_6_or_7() {
    let rising = |count: u32| View::new(((1u32 << count) - 1) as u16, 0);
    let chain: Vec<View> = (2..=16).map(rising).collect();
    let mut record = chosen(&chain);
    assert_eq!(count_reports(ONE, &[0], &record, ONE), Some(missed(30)), "sixteen candidates");
    record.extend([Statement::new(1, Body::Leave), Statement::new(0, Body::AgreeView { at: ONE, view: View::new(0xffff, 2) })]);
    assert_eq!(count_reports(ONE, &[0], &record, ONE), None, "seventeen");
    assert_eq!(count_reports(ONE, &[0], &chosen(&[rising(2), View::new(5, 0)]), ONE), None, "two that are not comparable");
}

#[test]
fn a_certificate_is_complete_at_the_top_that_comes_first() {
    let two = View::new(0x0003, 0);
    let ack = |origin, at, payload| Statement::new(origin, Body::Ack { at, notice: 0, payload });
    let mut record = chosen(&[two]);
    record.extend([ack(0, two, 7), ack(2, two, 7), ack(1, two, 7)]);
    record.push(Statement::new(0, Body::Prepare { notice: 0, payload: 7 }));
    let complete = |record: &[Statement], payload| Evidence::of(ONE, &[0], record).acked_after(record, 0, payload);
    assert_eq!(complete(&record, 7), None, "the second view is no sealed top");
    record.push(ack(0, ONE, 7));
    assert_eq!(complete(&record, 7), Some(21));
    let history = History::new(&[ONE, two]).expect("a history");
    record.push(Statement::new(0, Body::AgreeHistory { at: ONE, history }));
    assert_eq!(complete(&record, 7), Some(19), "a later seal brings up the earlier acks");
    assert_eq!(complete(&record, 8), None);
}
