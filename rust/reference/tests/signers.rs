//! Who signed: the set of all members that did, that behind a certificate, and that behind a store quorum.

use reference::{
    who, who_reported, Answer, Binding, Body, Controller, Count, Document, Evidence, History, Question, Report, Statement, Told, View,
};

/// Four members, of which three are a quorum.
const FOUR: View = View::new(0x000f, 0);
/// In which 0 is alone, and so a quorum by itself.
const ONE: View = View::new(0x0001, 0);

fn ack(origin: u8, at: View) -> Statement {
    Statement::new(origin, Body::Ack { at, notice: 0, payload: 7 })
}

fn store(origin: u8, at: View) -> Statement {
    Statement::new(origin, Body::Store { at, notice: 0, payload: 7 })
}

fn prepare(origin: u8) -> Statement {
    Statement::new(origin, Body::Prepare { notice: 0, payload: 7 })
}

fn acked(record: &[Statement], at: View) -> u32 {
    Question::Ack { at, notice: 0, payload: 7 }.who(record)
}

#[test]
fn all_members_that_signed_are_in_the_set_also_after_the_quorum_is_complete() {
    let record = [2, 0, 1, 3].map(|origin| ack(origin, FOUR));
    let sets = [0x0, 0x4, 0x5, 0x7, 0xf];
    for (length, set) in sets.into_iter().enumerate() {
        assert_eq!(acked(&record[..length], FOUR), set);
    }
    let count = Question::Ack { at: FOUR, notice: 0, payload: 7 }.count(&record);
    assert_eq!(count, Count { reached: true, read: 3 }, "the count ends with the third, the set does not");
}

#[test]
fn who_is_no_member_is_in_no_set() {
    let record: Vec<Statement> = (0..16).map(|origin| ack(origin, FOUR)).collect();
    assert_eq!(acked(&record, FOUR), 0x000f);
    let left = View::new(0x800f, 0x0005);
    let record: Vec<Statement> = (0..16).map(|origin| ack(origin, left)).collect();
    assert_eq!(acked(&record, left), 0x800a, "who has left is none either");
    // No statement that keeps the field rules is signed at such a view; the set does not rest on that.
    assert_eq!(who(&record, View::new(3, 3), |_| true), 0);
    assert_eq!(who(&record, View::EMPTY, |_| true), 0);
}

#[test]
fn the_count_says_yes_exactly_where_the_set_makes_a_quorum() {
    let views = [ONE, FOUR, View::new(0x000f, 0x0002), View::new(0x001f, 0x0010), View::new(3, 3)];
    for (view, signers) in views.into_iter().flat_map(|view| (0..64u32).map(move |signers| (view, signers))) {
        let record: Vec<Statement> = (0..6).filter(|k| signers >> k & 1 == 1).map(|origin| ack(origin, view)).collect();
        let set = acked(&record, view);
        assert_eq!(set, signers & u32::from(view.members()), "{view} {signers:x}");
        let count = Question::Ack { at: view, notice: 0, payload: 7 }.count(&record);
        assert_eq!(count.reached, view.quorum().is_some_and(|quorum| set.count_ones() >= quorum), "{view} {signers:x}");
    }
}

/// A body of each kind that is asked for, and bodies that differ from it in one field each.
fn asked() -> Vec<(Body, Vec<Body>)> {
    let larger = View::new(0x001f, 0);
    let history = |views: &[View]| History::new(views).expect("a history");
    let (long, short) = (history(&[ONE, FOUR, larger]), history(&[ONE, larger]));
    let ack = |at, notice, payload| Body::Ack { at, notice, payload };
    let store = |at, notice, payload| Body::Store { at, notice, payload };
    vec![
        (Body::AgreeView { at: FOUR, view: larger }, vec![Body::AgreeView { at: larger, view: larger }]),
        (Body::AgreeHistory { at: FOUR, history: long }, vec![Body::AgreeHistory { at: FOUR, history: short }]),
        (Body::AgreeHistory { at: FOUR, history: long }, vec![Body::AgreeHistory { at: larger, history: long }]),
        (ack(FOUR, 3, 7), vec![ack(larger, 3, 7), ack(FOUR, 2, 7), ack(FOUR, 3, 6), store(FOUR, 3, 7)]),
        (store(FOUR, 3, 7), vec![store(larger, 3, 7), store(FOUR, 2, 7), store(FOUR, 3, 6), ack(FOUR, 3, 7)]),
    ]
}

#[test]
fn each_question_has_those_that_signed_its_own_statements_alone() {
    for (body, others) in asked() {
        let question = Question::of(&body).expect("a question");
        let mut record: Vec<Statement> =
            (0..4).flat_map(|origin| others.iter().map(move |body| Statement::new(origin, body.clone()))).collect();
        assert_eq!(question.who(&record), 0, "{question:?}");
        record.extend([3, 9, 0].map(|origin| Statement::new(origin, body.clone())));
        assert_eq!(question.who(&record), 0x9, "{question:?}");
    }
    for views in [vec![], vec![FOUR, ONE], vec![ONE; 17]] {
        let said: Vec<Statement> = asked().into_iter().map(|(body, _)| Statement::new(0, body)).collect();
        assert_eq!(Question::AgreeHistory { at: FOUR, views }.who(&said), 0);
    }
}

fn report(origin: u8, at: View, binding: Binding, view: View) -> Statement {
    let told = [Told { binding, kept: None }].into();
    Statement::new(origin, Body::Report(Report { at, view, told, history: History::new(&[FOUR]).expect("a history") }))
}

#[test]
fn only_who_has_a_counted_report_is_among_the_reporters() {
    let mut record = vec![
        report(0, FOUR, Binding::Unbound, FOUR),
        report(0, FOUR, Binding::Unbound, ONE),
        report(5, FOUR, Binding::Unbound, FOUR),               // no member
        report(1, FOUR, Binding::Bound(7), FOUR),              // nobody prepared 7
        report(2, FOUR, Binding::Barred, FOUR),                // nor twice
        report(3, FOUR, Binding::Unbound, View::new(0x1f, 0)), // not within wished
    ];
    let reporters = |record: &[Statement], at| who_reported(FOUR, &[0], record, at);
    assert_eq!(reporters(&record, FOUR), Some(0x1));
    assert_eq!(reporters(&record, ONE), Some(0));
    assert_eq!(reporters(&[], FOUR), Some(0));
    record.push(prepare(0));
    assert_eq!(reporters(&record, FOUR), Some(0x3), "its grounds may come later");
    record.push(report(2, FOUR, Binding::Unbound, FOUR));
    record.push(report(3, FOUR, Binding::Unbound, FOUR));
    assert_eq!(reporters(&record, FOUR), Some(0xf), "also after the quorum is complete");
}

/// Joins and leaves of these, and each view chosen and sealed at the initial one by its members.
fn sealed(initial: View, wished: View, tops: &[View]) -> Vec<Statement> {
    let each = |set: u16| (0..16u8).filter(move |k| set >> k & 1 == 1);
    let joins = each(wished.joined() & !initial.joined()).map(|k| Statement::new(k, Body::Join));
    let mut record: Vec<Statement> = joins.chain(each(wished.left()).map(|k| Statement::new(k, Body::Leave))).collect();
    for &view in tops {
        let history = History::new(&[initial, view]).expect("a history");
        for k in each(initial.members()) {
            record.push(Statement::new(k, Body::AgreeView { at: initial, view }));
            record.push(Statement::new(k, Body::AgreeHistory { at: initial, history }));
        }
    }
    record
}

#[test]
fn no_report_is_judged_where_a_turn_is_refused_with_7_or_6() {
    let apart = sealed(ONE, View::new(0x0007, 0), &[View::new(3, 0), View::new(5, 0)]);
    assert_eq!(who_reported(ONE, &[0], &apart, ONE), None);
    let chain: Vec<View> = (1..16).map(|count| View::new(((2u32 << count) - 1) as u16, 0)).collect();
    let mut many = sealed(ONE, View::new(0xffff, 2), &chain);
    assert_eq!(who_reported(ONE, &[0], &many, ONE), None, "histories of which none holds the others");
    many.retain(|statement| !matches!(statement.body, Body::AgreeHistory { .. }));
    assert_eq!(who_reported(ONE, &[0], &many, ONE), Some(0), "sixteen candidates");
    many.push(Statement::new(0, Body::AgreeView { at: ONE, view: View::new(0xffff, 2) }));
    assert_eq!(who_reported(ONE, &[0], &many, ONE), None, "seventeen");
}

/// The ack set and the store set of payload 7 of notice 0, which 0 sends.
fn sets(initial: View, record: &[Statement]) -> (u32, u32) {
    let evidence = Evidence::of(initial, &[0], record);
    (evidence.ack_set(0, 7), evidence.store_set(0, 7))
}

#[test]
fn an_ack_set_needs_a_quorum_and_the_senders_prepare() {
    let mut record = vec![ack(3, FOUR), ack(1, FOUR), prepare(1)];
    record.push(ack(0, FOUR));
    assert_eq!(sets(FOUR, &record), (0, 0), "the sender prepared nothing");
    record.push(prepare(0));
    assert_eq!(sets(FOUR, &record), (0xb, 0));
    assert_eq!(sets(FOUR, &record[1..]), (0, 0), "two of four");
    record.push(ack(9, FOUR));
    record.push(ack(2, FOUR));
    assert_eq!(sets(FOUR, &record), (0xf, 0), "the fourth too, and not the ninth");
    let evidence = Evidence::of(FOUR, &[0], &record);
    assert_eq!([evidence.ack_set(0, 8), evidence.ack_set(1, 7), evidence.ack_set(64, 7), evidence.ack_set(255, 7)], [0; 4]);
    assert_eq!(Evidence::of(FOUR, &[1], &record).ack_set(0, 7), 0xf, "by the prepare of 1");
    assert_eq!(Evidence::of(FOUR, &[2], &record).ack_set(0, 7), 0);
}

#[test]
fn a_store_set_needs_a_quorum_alone() {
    let mut record = vec![store(2, FOUR), store(15, FOUR), store(3, FOUR)];
    assert_eq!(sets(FOUR, &record), (0, 0));
    record.push(store(0, FOUR));
    assert_eq!(sets(FOUR, &record), (0, 0xd));
    record.push(store(1, FOUR));
    assert_eq!(sets(FOUR, &record), (0, 0xf));
    let evidence = Evidence::of(FOUR, &[0], &record);
    assert_eq!([evidence.store_set(0, 8), evidence.store_set(1, 7), evidence.store_set(255, 7)], [0; 3]);
}

#[test]
fn notices_have_sets_of_their_own() {
    let signed = |origin, notice| {
        let (at, payload) = (FOUR, 7);
        [Body::Prepare { notice, payload }, Body::Ack { at, notice, payload }, Body::Store { at, notice, payload }]
            .map(|body| Statement::new(origin, body))
    };
    let all = [(0, 0), (1, 0), (2, 0), (1, 1), (2, 1), (3, 1), (2, 63), (3, 63)];
    let record: Vec<Statement> = all.into_iter().flat_map(|(origin, notice)| signed(origin, notice)).collect();
    let mut senders = [0; 64];
    senders[1] = 3;
    let evidence = Evidence::of(FOUR, &senders, &record);
    assert_eq!([0, 1, 2, 63].map(|notice| evidence.ack_set(notice, 7)), [0x7, 0xe, 0, 0]);
    assert_eq!([0, 1, 2, 63].map(|notice| evidence.store_set(notice, 7)), [0x7, 0xe, 0, 0]);
}

/// The prepare of 0, and acks and stores of all members of each of the views.
fn signed_at(views: &[View]) -> Vec<Statement> {
    let members = |view: View| (0..16u8).filter(move |&k| view.has_member(k));
    let both = |&view: &View| members(view).flat_map(move |k| [ack(k, view), store(k, view)]).collect::<Vec<_>>();
    std::iter::once(prepare(0)).chain(views.iter().flat_map(both)).collect()
}

/// The set at the first of the tops is told, in whichever order they were sealed and signed at.
fn least_of(initial: View, tops: [View; 2]) {
    let [least, other] = tops.map(|top| u32::from(top.members()));
    assert_ne!(least, other, "the sets tell which top it is");
    let wished = View::new(tops[0].joined() | tops[1].joined(), tops[0].left() | tops[1].left());
    let chosen: Vec<View> = tops.into_iter().filter(|top| *top != initial).collect();
    let record = [sealed(initial, wished, &chosen), signed_at(&tops)].concat();
    let turned: Vec<Statement> = record.iter().rev().cloned().collect();
    assert_eq!(sets(initial, &record), (least, least), "{tops:?}");
    assert_eq!(sets(initial, &turned), (least, least), "{tops:?}, from the last statement to the first");
    let later = [sealed(initial, wished, &chosen), signed_at(&tops[1..])].concat();
    assert_eq!(sets(initial, &later), (other, other), "{tops:?}, with a quorum at the second alone");
}

#[test]
fn the_least_sealed_top_as_written_tells_the_set() {
    let view = View::from_bits;
    // The greater one has the fewer members.
    least_of(view(0x0003_0000), [view(0x0003_0000), view(0x0007_0006)]);
    least_of(view(0x0003_0000), [view(0x0003_0000), view(0x000f_0000)]);
    // Tops that are not comparable: the joined set goes before the left set, whatever the sizes are.
    least_of(ONE, [view(0x0007_0006), view(0x0009_0000)]);
    least_of(ONE, [view(0x0003_0000), view(0x0005_0000)]);
    least_of(ONE, [view(0x0007_0002), view(0x0007_0004)]);
    least_of(ONE, [view(0x003f_0000), view(0x0041_0000)]);
    least_of(ONE, [view(0x0003_0002), view(0x8001_0000)]);
}

#[test]
fn a_view_that_is_no_sealed_top_tells_nothing() {
    let two = View::new(0x0003, 0);
    let record = [sealed(ONE, two, &[two]), signed_at(&[two])].concat();
    assert_eq!(sets(ONE, &record), (0x3, 0x3));
    let unsealed: Vec<Statement> = record.into_iter().filter(|said| !matches!(said.body, Body::AgreeHistory { .. })).collect();
    assert_eq!(sets(ONE, &unsealed), (0, 0));
}

/// Controller `k` in a ring of these members, with the record.
fn controller(k: u8, initial: View, record: &[Statement]) -> Controller {
    let mut controller = Controller::<Document>::new(k);
    controller.setup(initial.members(), &[0], &[]);
    record.iter().for_each(|statement| assert_eq!(controller.add(statement), Answer::Taken));
    controller
}

fn delivered(signers: u32) -> Answer {
    Answer::Delivered { notice: 0, payload: 7, signers }
}

/// What a controller delivers in the end.
fn delivery(mut controller: Controller) -> Option<Answer> {
    (0..20).map(|_| controller.turn(0)).find(|answer| matches!(answer, Answer::Delivered { .. }))
}

#[test]
fn the_example_of_the_scope_document_is_delivered_with_the_set_of_its_only_member() {
    let mut alone = Controller::<Document>::new(0);
    assert_eq!(alone.setup(1, &[0], &[]), Answer::Taken);
    assert_eq!(alone.send(0, 7), Answer::Taken);
    assert!((0..3).all(|_| matches!(alone.turn(0), Answer::Signed(_))));
    assert_eq!(alone.turn(0), delivered(1));
    assert_eq!(alone.turn(0), Answer::Quiet);
}

#[test]
fn a_delivery_has_all_that_stored_by_then() {
    let record = signed_at(&[FOUR]);
    let without = |origins: &[u8]| {
        let lacks = |said: &Statement| origins.iter().any(|&origin| *said == store(origin, FOUR));
        record.iter().filter(|said| !lacks(said)).cloned().collect::<Vec<_>>()
    };
    assert_eq!(delivery(controller(2, FOUR, &record)), Some(delivered(0xf)));
    assert_eq!(delivery(controller(2, FOUR, &without(&[3]))), Some(delivered(0x7)));
    assert_eq!(delivery(controller(2, FOUR, &without(&[2]))), Some(delivered(0xf)), "it signs its own first");
    assert_eq!(delivery(controller(2, FOUR, &without(&[1, 2, 3]))), None, "two of four");
}

#[test]
fn a_delivery_in_a_later_view_has_the_set_of_the_least_top() {
    let initial = View::new(0x0003, 0);
    let later = View::new(0x0007, 0);
    let told = [Told { binding: Binding::Bound(7), kept: Some(7) }];
    let history = History::new(&[initial, later]).expect("a history");
    let reports = [0, 1].map(|k| Statement::new(k, Body::Report(Report { at: initial, view: later, told: told.into(), history })));
    let entering = |stored: &[View]| [sealed(initial, later, &[later]), signed_at(stored), reports.to_vec()].concat();
    assert_eq!(delivery(controller(2, initial, &entering(&[initial, later]))), Some(delivered(0x3)));
    assert_eq!(delivery(controller(2, initial, &entering(&[later]))), Some(delivered(0x7)));
}
