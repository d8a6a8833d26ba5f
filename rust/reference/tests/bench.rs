//! The bench on schedules: the example, the refusal table row by row, and the orders of refusals.

use reference::bench::run;
use reference::{Answer, Bench, Document, Outcome, Refusal};

/// The rows of the lines, without the header and the line numbers.
fn rows(lines: &[&str]) -> Vec<String> {
    let schedule: String = lines.iter().map(|line| format!("{line}\n")).collect();
    let output = String::from_utf8(run(schedule.as_bytes())).unwrap();
    let rows = output.lines().skip(1).enumerate().map(|(place, row)| {
        let (number, rest) = row.split_once(',').unwrap();
        assert_eq!(number, (place + 1).to_string());
        rest.to_string()
    });
    rows.collect()
}

/// The row of the last line.
fn last(lines: &[&str]) -> String {
    rows(lines).pop().unwrap()
}

fn text(bytes: &[u8]) -> String {
    String::from_utf8(run(bytes)).unwrap()
}

const JOIN_1: &str = "lie,1,1,00000000,00000000,0,0,0,0,0,0";

fn join(origin: u8) -> String {
    format!("lie,1,{origin},00000000,00000000,0,0,0,0,0,0")
}

fn agree_view(origin: u8, at: &str, view: &str) -> String {
    format!("lie,3,{origin},{at},{view},0,0,0,0,0,0")
}

fn agree_history(origin: u8, at: &str, views: &[&str]) -> String {
    format!("lie,4,{origin},{at},00000000,0,0,0,0,0,{},{}", views.len(), views.join(","))
}

fn prepare(origin: u8, payload: u64) -> String {
    format!("lie,6,{origin},00000000,00000000,0,0,{payload},0,0,0")
}

fn ack(origin: u8, at: &str, payload: u64) -> String {
    format!("lie,7,{origin},{at},00000000,0,0,{payload},0,0,0")
}

fn last_of(lines: &[String]) -> String {
    last(&lines.iter().map(String::as_str).collect::<Vec<_>>())
}

#[test]
fn the_example_of_the_scope_document() {
    let schedule = b"setup,0001,1,0,0000,0\nsend,0,0,7\nturn,0,0\nturn,0,0\nturn,0,0\nturn,0,0\nturn,0,0\n";
    let expected =
        "line,who,answer,value\n1,0,taken,0\n2,0,taken,0\n3,0,signed,0\n4,0,signed,1\n5,0,signed,2\n6,0,delivered,7\n7,0,quiet,0\n";
    assert_eq!(text(schedule), expected);
}

#[test]
fn refusal_1_setup() {
    assert_eq!(last(&["setup,0000,1,0,0000,0"]), "0,refused,1");
    assert_eq!(last(&["setup,0001,1,16,0000,0"]), "16,refused,1");
    assert_eq!(last(&["setup,0001,1,255,0000,0"]), "16,refused,1");
    assert_eq!(last(&["setup,0001,1,15,ffff,0"]), "15,taken,0");
    assert_eq!(last(&["setup,0001,1,0,0000,0", "setup,0001,1,3,0000,0"]), "3,refused,1");
    assert_eq!(last(&["setup,0001,1,0,0000,0", "setup,0001,1,16,0000,0"]), "16,refused,1");
    // A refused setup leaves the ring without setup, so a later one may be taken.
    assert_eq!(
        rows(&["setup,0000,1,0,0000,0", "turn,0,0", "setup,0001,1,0,0000,0", "turn,0,0"])[1..],
        ["0,refused,8", "0,taken,0", "0,quiet,0"]
    );
    // A second setup neither restarts nor changes who may lie.
    assert_eq!(
        rows(&["setup,0001,1,0,0000,0", "send,0,0,1", "turn,0,0", "setup,0002,1,1,ffff,0", "turn,0,0", JOIN_1])[3..],
        ["1,refused,1", "0,signed,1", "1,refused,8"]
    );
}

fn setup_of(count: usize, sender: &str) -> String {
    format!("setup,0001,{count},{}0000,0", format!("{sender},").repeat(count))
}

#[test]
fn refusal_1_the_number_of_notices_and_their_senders() {
    assert_eq!(last(&["setup,0001,0,0000,0"]), "16,refused,1");
    for count in [1, 2, 5, 63, 64] {
        assert_eq!(last(&[&setup_of(count, "3")]), "3,taken,0", "{count}");
        assert_eq!(last(&[&setup_of(count, "16")]), "16,refused,1", "{count}");
    }
    for count in [65, 66, 128, 255] {
        assert_eq!(last(&[&setup_of(count, "3")]), "3,refused,1", "{count}");
        assert_eq!(last(&[&setup_of(count, "200")]), "16,refused,1", "{count}");
    }
    // Its row shows notice 0's sender, whatever the others are.
    assert_eq!(last(&["setup,0001,3,2,1,0,0000,0"]), "2,taken,0");
    assert_eq!(last(&["setup,0001,3,2,1,16,0000,0"]), "2,refused,1");
    assert_eq!(last(&["setup,0001,3,2,255,0,0000,0"]), "2,refused,1");
    assert_eq!(last(&["setup,0001,2,16,1,0000,0"]), "16,refused,1");
    assert_eq!(last(&["setup,0001,1,0,0000,0", "setup,0001,0,0000,0"]), "16,refused,1");
    assert_eq!(last(&["setup,0001,1,0,0000,0", "setup,0001,2,9,1,0000,0"]), "9,refused,1");
    // A refused one leaves reports with one group.
    let report = "lie,5,1,00010000,00010000,0,0,0,0,0,1,00010000";
    assert_eq!(last(&["setup,0000,2,0,0,0000,0", report]), "1,refused,8");
}

#[test]
fn refusal_2_no_statement() {
    let setup = "setup,0001,1,0,ffff,0";
    assert_eq!(last(&[setup, "lie,"]), "16,refused,2");
    assert_eq!(last(&[setup, "lie,what,ever"]), "16,refused,2");
    assert_eq!(last(&[setup, "lie,1,0,00010000,00000000,0,0,0,0,0,0"]), "16,refused,2");
    assert_eq!(last(&[setup, "lie,1,16,00000000,00000000,0,0,0,0,0,0"]), "16,refused,2");
    assert_eq!(last(&[setup, "lie,1,0,00000000,00000000,0,0,0,0,0,0\r"]), "16,refused,2");
    assert_eq!(last(&[setup, "lie,1,0,00000000,00000000,0,0,0,0,0,0"]), "0,taken,0");
    // Without its comma a lie has no text and the line is unreadable.
    assert_eq!(last(&[setup, "lie"]), "16,refused,8");
}

#[test]
fn refusal_3_present() {
    assert_eq!(last(&["setup,0001,1,0,0002,0", JOIN_1, JOIN_1]), "1,refused,3");
    assert_eq!(last(&["setup,0001,1,0,0002,0", JOIN_1, "give,5,0", "give,5,0"]), "5,refused,3");
    // A statement that the signer's own turn put into its record is there too.
    assert_eq!(last(&["setup,0001,1,0,0000,0", "send,0,0,1", "turn,0,0", "give,0,0"]), "0,refused,3");
}

/// A schedule that fills the pool with prepares of a controller that is not the sender.
fn full_pool(statements: u64, setup: &str) -> Vec<String> {
    let mut lines = vec![setup.to_string()];
    lines.extend((0..statements).map(|payload| prepare(9, payload)));
    lines
}

#[test]
fn refusal_2_a_report_with_other_groups() {
    let report = |groups: usize| format!("lie,5,1,00010000,00010000,0,{}1,00010000", "0,0,0,0,".repeat(groups));
    for count in [1, 2, 5, 64] {
        let setup = setup_of(count, "0").replace("0000", "0002").replace("setup,0002", "setup,0001");
        for groups in 1..=65 {
            let expected = if groups == count { "1,taken,0" } else { "16,refused,2" };
            assert_eq!(last(&[&setup, &report(groups)]), expected, "{groups} groups for {count}");
        }
        let ack = "lie,7,1,00010000,00000000,0,0,7,0,0,0";
        assert_eq!(last(&[&setup, ack]), "1,taken,0");
    }
    // Before a setup a report has one group: then its origin is shown.
    assert_eq!(last(&[&report(1)]), "1,refused,8");
    assert_eq!(last(&[&report(2)]), "16,refused,8");
}

#[test]
fn refusal_9_unknown_notice() {
    let setup = "setup,0003,2,0,1,0002,0";
    let about = |kind: u8, origin: u8, notice: u16| {
        let at = if kind == 6 { "00000000" } else { "00030000" };
        format!("lie,{kind},{origin},{at},00000000,{notice},0,7,0,0,0")
    };
    for kind in 6..=8 {
        assert_eq!(last(&[setup, &about(kind, 1, 1)]), "1,taken,0");
        assert_eq!(last(&[setup, &about(kind, 1, 2)]), "1,refused,9");
        assert_eq!(last(&[setup, &about(kind, 1, 255)]), "1,refused,9");
        assert_eq!(last(&[setup, &about(kind, 1, 256)]), "16,refused,2");
        // 2 and a lie's 8 come first.
        assert_eq!(last(&[setup, &about(kind, 0, 2)]), "0,refused,8");
        assert_eq!(last(&[setup, &about(kind, 16, 2)]), "16,refused,2");
        assert_eq!(last(&[&about(kind, 1, 2)]), "1,refused,8");
    }
    // A send: 8, then 9, then 5.
    assert_eq!(last(&["send,0,2,7"]), "0,refused,8");
    assert_eq!(last(&[setup, "send,0,2,7"]), "0,refused,9");
    assert_eq!(last(&[setup, "send,5,255,7"]), "5,refused,9");
    assert_eq!(last(&[setup, "send,0,1,7"]), "0,refused,5");
    assert_eq!(last(&[setup, "send,1,1,7"]), "1,taken,0");
    assert_eq!(last(&[setup, "send,1,1,7", "send,1,1,7"]), "1,refused,5");
    assert_eq!(last(&["setup,0001,2,0,0,0000,0", "send,0,0,7", "send,0,1,7"]), "0,taken,0");
}

#[test]
fn refusal_9_comes_before_four_for_a_lie() {
    let mut lines = full_pool(512, "setup,0001,1,0,0200,0");
    lines.push("lie,6,9,00000000,00000000,1,0,7,0,0,0".into());
    assert_eq!(last_of(&lines), "9,refused,9");
}

#[test]
fn a_controller_takes_no_notice_that_its_setup_lacks() {
    let mut controller = reference::Controller::<Document>::new(0);
    let prepare = |notice| reference::Statement::new(1, reference::Body::Prepare { notice, payload: 7 });
    assert_eq!(controller.add(&prepare(1)), Answer::Refused(Refusal::Unreadable));
    assert_eq!(controller.setup(3, &[0, 1], &[]), Answer::Taken);
    assert_eq!(controller.add(&prepare(1)), Answer::Taken);
    assert_eq!(controller.add(&prepare(1)), Answer::Refused(Refusal::Present));
    assert_eq!(controller.add(&prepare(2)), Answer::Refused(Refusal::Notice));
    assert_eq!(controller.add_text(b"6,16,00000000,00000000,2,0,7,0,0,0"), Answer::Refused(Refusal::Statement));
}

#[test]
fn the_least_notice_goes_first() {
    let mut lines = vec!["setup,0001,3,0,0,0,0000,0", "send,0,2,12", "send,0,0,10", "send,0,1,11"];
    lines.extend(["turn,0,0"; 13]);
    let rows = rows(&lines);
    // Each prepare is acked, stored and delivered before the next is signed, since rules 5 to 7 come before 10.
    let one = ["signed", "signed", "signed", "delivered"];
    let answers: Vec<&str> = rows[4..16].iter().map(|row| row.split(',').nth(1).unwrap()).collect();
    assert_eq!(answers, one.repeat(3));
    assert_eq!([&rows[7], &rows[11], &rows[15]], ["0,delivered,10", "0,delivered,11", "0,delivered,12"]);
    assert_eq!(rows[16], "0,quiet,0");
}

#[test]
fn within_a_rule_the_least_notice_goes_first() {
    let mut lines = vec!["setup,0001,2,0,0,0001,0".to_string()];
    lines.push("lie,6,0,00000000,00000000,1,0,8,0,0,0".into());
    lines.push("lie,6,0,00000000,00000000,0,0,7,0,0,0".into());
    lines.push("all,0".into());
    lines.extend(vec!["turn,0,0".to_string(); 6]);
    let mut bench = Bench::<Document>::new();
    let outcomes: Vec<Outcome> = lines.iter().map(|line| bench.step(line.as_bytes()).outcome).collect();
    let delivered = |notice, payload| Outcome::Delivered { notice, payload, signers: 1 };
    assert_eq!(outcomes[8..], [delivered(0, 7), delivered(1, 8)]);
    let signed: Vec<(u8, u8)> = bench.pool().statements().iter().map(|statement| (statement.kind(), statement.notice())).collect();
    assert_eq!(signed[2..], [(7, 0), (7, 1), (8, 0), (8, 1)]);
}

#[test]
fn certificates_of_two_notices_are_no_conflict() {
    let mut lines = vec!["setup,0001,2,0,0,ffff,0".to_string()];
    for (notice, payload) in [(0, 1), (1, 2)] {
        lines.push(format!("lie,6,0,00000000,00000000,{notice},0,{payload},0,0,0"));
        lines.push(format!("lie,7,0,00010000,00000000,{notice},0,{payload},0,0,0"));
    }
    lines.extend(["all,3".into(), "turn,3,0".into()]);
    assert_eq!(last_of(&lines), "3,quiet,0");
    lines.push("lie,6,0,00000000,00000000,1,0,1,0,0,0".into());
    lines.push("lie,7,0,00010000,00000000,1,0,1,0,0,0".into());
    lines.extend(["all,3".into(), "turn,3,0".into()]);
    assert_eq!(last_of(&lines), "3,refused,7");
}

#[test]
fn a_prepare_of_another_notice_makes_no_certificate() {
    // Notice 1 is acked with the payload that was prepared for notice 0, and by the sender of notice 0.
    let lines = [
        "setup,0001,2,0,1,0003,0",
        "lie,6,0,00000000,00000000,0,0,5,0,0,0",
        "lie,6,0,00000000,00000000,1,0,5,0,0,0",
        "lie,7,0,00010000,00000000,1,0,5,0,0,0",
        "lie,8,0,00010000,00000000,1,0,5,0,0,0",
        "all,0",
        "turn,0,0",
        "turn,0,0",
        "turn,0,0",
        "turn,0,0",
    ];
    let rows = rows(&lines);
    assert_eq!(rows[8..], ["0,delivered,5", "0,quiet,0"], "{rows:?}");
}

#[test]
fn a_leave_waits_for_every_kept_notice() {
    let asked = ["setup,0001,2,0,1,0000,0", "send,0,0,7", "leave,0", "turn,0,0"];
    assert_eq!(last(&asked), "0,signed,0", "it keeps nothing yet, so it signs its leave at once");
    let mut lines = vec!["setup,0001,2,0,0,0000,0", "send,0,0,7", "send,0,1,8"];
    lines.extend(["turn,0,0"; 7]);
    lines.push("leave,0");
    lines.extend(["turn,0,0"; 3]);
    let rows = rows(&lines);
    assert_eq!(rows[6], "0,delivered,7");
    assert_eq!(rows[7..10], ["0,signed,3", "0,signed,4", "0,signed,5"], "prepare, ack and store of notice 1");
    assert_eq!(rows[11..], ["0,delivered,8", "0,signed,6", "0,quiet,0"], "the leave comes after the second delivery");
}

#[test]
fn refusal_4_full() {
    let mut lines = full_pool(511, "setup,0001,1,0,0200,0");
    assert_eq!(last_of(&lines), "9,taken,510");
    lines.push("send,0,0,7".into());
    lines.push("turn,0,0".into());
    assert_eq!(last_of(&lines), "0,signed,511");
    lines.push("turn,0,0".into());
    assert_eq!(last_of(&lines), "0,refused,4");
    lines.push(prepare(9, 600));
    assert_eq!(last_of(&lines), "9,refused,4");
    // 3 comes before 4 for a lie.
    lines.push(prepare(9, 5));
    assert_eq!(last_of(&lines), "9,refused,3");
    lines.push("all,0".into());
    assert_eq!(last_of(&lines), "0,taken,511");
    lines.push("give,0,511".into());
    assert_eq!(last_of(&lines), "0,refused,3");
    lines.push("give,0,512".into());
    assert_eq!(last_of(&lines), "0,refused,8");
    lines.push("turn,0,0".into());
    assert_eq!(last_of(&lines), "0,refused,4");
    lines.push("turn,3,0".into());
    assert_eq!(last_of(&lines), "3,quiet,0");
}

#[test]
fn refusal_4_leaves_the_binding() {
    let mut bench = Bench::<Document>::new();
    let mut lines = full_pool(511, "setup,0001,1,0,0201,0");
    lines.push(prepare(0, 3));
    lines.push("give,0,511".into());
    lines.push("turn,0,0".into());
    let outcomes: Vec<Outcome> = lines.iter().map(|line| bench.step(line.as_bytes()).outcome).collect();
    assert_eq!(outcomes.last(), Some(&Outcome::Refused(Refusal::Full)));
    let controller = bench.controller(0).unwrap();
    assert_eq!(controller.notices()[0].binding, reference::Binding::Unbound);
    assert_eq!(controller.record().len(), 1);
}

#[test]
fn a_full_pool_that_holds_the_statement_has_room_for_its_signature() {
    let mut lines = full_pool(510, "setup,0001,1,0,0201,0");
    lines.push(prepare(0, 3));
    lines.push(ack(0, "00010000", 3));
    lines.push("give,0,510".into());
    lines.push("turn,0,0".into());
    assert_eq!(last_of(&lines), "0,signed,511");
}

#[test]
fn refusal_5_requests() {
    let setup = "setup,0003,1,0,0000,0";
    assert_eq!(last(&[setup, "join,0"]), "0,refused,5");
    assert_eq!(last(&[setup, "join,2"]), "2,taken,0");
    assert_eq!(last(&[setup, "join,2", "join,2"]), "2,refused,5");
    assert_eq!(last(&[setup, "leave,2"]), "2,refused,5");
    assert_eq!(last(&[setup, "leave,1"]), "1,taken,0");
    assert_eq!(last(&[setup, "leave,1", "leave,1"]), "1,refused,5");
    assert_eq!(last(&[setup, "send,1,0,5"]), "1,refused,5");
    assert_eq!(last(&[setup, "send,0,0,18446744073709551615"]), "0,taken,0");
    assert_eq!(last(&[setup, "send,0,0,5", "send,0,0,5"]), "0,refused,5");
    assert_eq!(last(&[setup, "send,0,0,5", "send,0,0,6"]), "0,refused,5");
}

/// A lone faulty member 0 has everybody join, and some of them leave, then agrees on a chain of views.
fn chain(candidates: usize) -> Vec<String> {
    let mut lines = vec!["setup,0001,1,0,ffff,0".to_string()];
    lines.extend((1..16).map(join));
    lines.extend((1..8).map(|origin| format!("lie,2,{origin},00000000,00000000,0,0,0,0,0,0")));
    let rising = (2..=16).map(|n| format!("{:04x}0000", (1u32 << n) - 1));
    let leaving = (1..8).map(|n| format!("ffff{:04x}", ((1u32 << n) - 1) << 1));
    for view in rising.chain(leaving).take(candidates - 1) {
        lines.push(agree_view(0, "00010000", &view));
    }
    lines.push("all,0".into());
    lines.push("turn,0,0".into());
    lines
}

#[test]
fn refusal_6_candidates() {
    assert!(last_of(&chain(15)).starts_with("0,signed,"));
    assert!(last_of(&chain(16)).starts_with("0,signed,"));
    assert_eq!(last_of(&chain(17)), "0,refused,6");
    assert_eq!(last_of(&chain(20)), "0,refused,6");
}

#[test]
fn refusal_7_incomparable_candidates() {
    let mut lines = vec!["setup,0001,1,0,ffff,0".into(), join(1), join(2)];
    lines.push(agree_view(0, "00010000", "00030000"));
    lines.push(agree_view(0, "00010000", "00050000"));
    lines.push("all,0".into());
    lines.push("turn,0,0".into());
    assert_eq!(last_of(&lines), "0,refused,7");
    // Another controller without these statements goes on.
    lines.push("turn,5,0".into());
    assert_eq!(last_of(&lines), "5,quiet,0");
}

#[test]
fn refusal_7_two_sealed_histories() {
    let mut lines = vec!["setup,0001,1,0,ffff,0".into(), join(1), join(2), join(3)];
    for view in ["00030000", "00070000", "000f0000"] {
        lines.push(agree_view(0, "00010000", view));
    }
    lines.push(agree_history(0, "00010000", &["00010000", "00030000", "000f0000"]));
    lines.push("all,0".into());
    lines.push("turn,0,0".into());
    assert!(last_of(&lines).starts_with("0,signed,"));
    lines.push(agree_history(0, "00010000", &["00010000", "00070000", "000f0000"]));
    lines.push("all,0".into());
    lines.push("turn,0,0".into());
    assert_eq!(last_of(&lines), "0,refused,7");
}

#[test]
fn refusal_7_two_certificates() {
    let mut lines = vec!["setup,0001,1,0,ffff,0".into(), prepare(0, 1), prepare(0, 2)];
    lines.push(ack(0, "00010000", 1));
    lines.push("all,3".into());
    lines.push("turn,3,0".into());
    assert_eq!(last_of(&lines), "3,quiet,0");
    lines.push(ack(0, "00010000", 2));
    lines.push("all,3".into());
    lines.push("turn,3,0".into());
    assert_eq!(last_of(&lines), "3,refused,7");
}

#[test]
fn seven_comes_before_six_and_both_before_four() {
    let mut lines = chain(20);
    lines.push(agree_view(0, "00010000", "00050000"));
    lines.push("all,0".into());
    lines.push("turn,0,0".into());
    assert_eq!(last_of(&lines), "0,refused,7");

    let mut lines = chain(17);
    let present = lines.iter().filter(|line| line.starts_with("lie")).count() as u64;
    lines.extend((0..512 - present).map(|payload| prepare(9, payload)));
    lines.push("all,0".into());
    lines.push("turn,0,0".into());
    assert_eq!(last_of(&lines), "0,refused,6");
}

#[test]
fn refusal_8_unreadable_lines() {
    let strays = [
        "",
        " ",
        "turn",
        "turn,",
        "turn,1",
        "turn,1,",
        "turn,16,0",
        "turn,00,0",
        "turn,1,00",
        "turn,1,0,",
        "turn,1,2,0",
        "turn,-1,0",
        "turn,1,-1",
        "turn,1,65536",
        "turn,1,99999999999999999999",
        "turn,1,0\r",
        "Turn,1,0",
        " turn,1,0",
        "join,16",
        "leave,x",
        "leave,1,0",
        "all,",
        "all,99999999999999999999",
        "give,0",
        "give,0,",
        "give,0,01",
        "give,0,18446744073709551616",
        "give,16,0",
        "send,0",
        "send,0,7",
        "send,0,256,7",
        "send,0,00,7",
        "send,0,,7",
        "send,16,0,7",
        "send,0,0,18446744073709551616",
        "send,0,0,00",
        "send,0,0,1,1",
        "setup",
        "setup,0001",
        "setup,0001,0",
        "setup,0001,0,0,0000,0",
        "setup,0001,1,0",
        "setup,0001,1,0000,0",
        "setup,0001,1,0,0000",
        "setup,0001,01,0,0000,0",
        "setup,0001,2,0,0000,0",
        "setup,0001,2,0,0,0,0000,0",
        "setup,0001,256,0,0000,0",
        "setup,0001,65,0,0000,0",
        "setup,001,1,0,0000,0",
        "setup,0001,1,256,0000,0",
        "setup,0001,1,00,0000,0",
        "setup,000A,1,0,0000,0",
        "setup,0001,1,0,0000,",
        "setup,0001,1,0,0000,0,",
        "setup,0001,1,0,0000,00",
        "setup,0001,1,0,0000,1",
        "setup,0001,1,0,0000,1,0,0",
        "setup,0001,1,0,0000,1,0,0,1,",
        "setup,0001,1,0,0000,1,0,0,1,0",
        "setup,0001,1,0,0000,0,0,0,1",
        "setup,0001,1,0,0000,2,0,0,1",
        "setup,0001,1,0,0000,1,00,0,1",
        "setup,0001,1,0,0000,1,0,0,65536",
        "setup,0001,1,0,0000,1,0,65536,1",
        "setup,0001,1,0,0000,1,65536,0,1",
        "setup,0001,1,0,0000,65535,0,0,1",
        "setup,0001,1,0,0000,65536,0,0,1",
        "setup,0001,1,0,0000,9,0,0,1",
        "setup,00001,1,0,0000,0",
        "lie",
        "give,0,\0",
        "turn;0,0",
    ];
    for stray in strays {
        assert_eq!(last(&[stray]), "16,refused,8", "{stray:?} before setup");
        assert_eq!(last(&["setup,0001,1,0,0000,0", stray]), "16,refused,8", "{stray:?} after setup");
    }
}

#[test]
fn refusal_8_before_setup() {
    for (line, who) in [("join,2", 2), ("leave,3", 3), ("send,4,0,1", 4), ("give,5,0", 5), ("all,6", 6), ("turn,15,0", 15)] {
        assert_eq!(last(&[line]), format!("{who},refused,8"));
    }
    assert_eq!(last(&[JOIN_1]), "1,refused,8");
    assert_eq!(last(&["lie,nothing"]), "16,refused,8");
    assert_eq!(last(&["lie,"]), "16,refused,8");
    assert_eq!(last(&["lie,1,1,00010000,00000000,0,0,0,0,0,0"]), "16,refused,8");
}

#[test]
fn refusal_8_unknown_numbers_and_origins() {
    assert_eq!(last(&["setup,0001,1,0,0000,0", "give,0,0"]), "0,refused,8");
    assert_eq!(last(&["setup,0001,1,0,0000,0", "give,4,18446744073709551615"]), "4,refused,8");
    assert_eq!(last(&["setup,0001,1,0,fffd,0", JOIN_1]), "1,refused,8");
    // For a lie 2 comes before 8, and 8 before 3.
    assert_eq!(last(&["setup,0001,1,0,0000,0", "lie,1,1,00010000,00000000,0,0,0,0,0,0"]), "16,refused,2");
    assert_eq!(last(&["setup,0001,1,0,0000,0", "join,1", "turn,1,0", JOIN_1]), "1,refused,8");
}

#[test]
fn refusal_8_comes_before_four_for_a_lie() {
    let mut lines = full_pool(512, "setup,0001,1,0,0200,0");
    lines.push(prepare(8, 1));
    assert_eq!(last_of(&lines), "8,refused,8");
}

#[test]
fn refusal_8_schedules() {
    let alone = "line,who,answer,value\n0,16,refused,8\n";
    assert_eq!(text(b""), alone);
    assert_eq!(text(&vec![b'\n'; 65_537]), alone);
    assert_eq!(text(&vec![b'\n'; 65_536]).lines().count(), 65_537);
    let mut long = b"setup,0001,1,0,0000,0\n".to_vec();
    long.resize(65_536, b'x');
    assert_eq!(text(&long), "line,who,answer,value\n1,0,taken,0\n2,16,refused,8\n");
}

#[test]
fn a_last_line_without_newline_is_unreadable() {
    assert_eq!(text(b"setup,0001,1,0,0000,0"), "line,who,answer,value\n1,16,refused,8\n");
    assert_eq!(text(b"setup,0001,1,0,0000,0\nturn,0"), "line,who,answer,value\n1,0,taken,0\n2,16,refused,8\n");
    assert_eq!(text(b"\n\n"), "line,who,answer,value\n1,16,refused,8\n2,16,refused,8\n");
}

#[test]
fn a_joined_controller_enters_and_the_row_shows_the_view() {
    let lines = [
        "setup,0001,1,0,0000,0", "send,0,0,5", "join,1", "turn,1,0", "all,0", "turn,0,0", "turn,0,0", "turn,0,0", "all,1", "turn,1,0",
        "turn,0,0", "turn,0,0", "turn,0,0", "all,1", "turn,1,0", "turn,0,0", "all,1", "turn,1,0",
    ];
    let rows = rows(&lines);
    assert_eq!(rows[3], "1,signed,0");
    assert_eq!(rows[5], "0,signed,1", "agree-view");
    assert_eq!(rows[6], "0,signed,2", "agree-history");
    assert_eq!(rows[7], "0,signed,3", "report");
    assert_eq!(rows[8], "1,taken,3");
    assert_eq!(rows[9], "1,entered,00030000");
    assert_eq!(rows[10], "0,entered,00030000");
    assert_eq!(rows[11], "0,signed,4", "prepare");
    assert_eq!(rows[12], "0,signed,5", "ack");
    assert_eq!(rows[14], "1,signed,6", "ack");
}

#[test]
fn who_has_left_answers_left() {
    let lines = [
        "setup,0003,1,0,0000,0", "leave,1", "turn,1,0", "all,0", "turn,1,0", "turn,0,0", "all,0", "all,1", "turn,0,0", "turn,1,0", "all,0",
        "all,1", "turn,0,0", "turn,1,0", "turn,1,0",
    ];
    let rows = rows(&lines);
    assert_eq!(rows[2], "1,signed,0");
    assert_eq!(rows[13], "1,signed,6", "{rows:?}");
    assert_eq!(rows[14], "1,left,0");
}

#[test]
fn any_bytes_give_rows() {
    let mut state = 1u64;
    let mut next = || {
        state = state.wrapping_mul(6_364_136_223_846_793_005).wrapping_add(1_442_695_040_888_963_407);
        (state >> 33) as usize
    };
    let words: [&[u8]; 14] = [
        b"setup,000f,1,0,0008,0\n",
        b"turn,0,0\n",
        b"all,1\n",
        b"give,2,",
        b"lie,",
        b"join,",
        b"\n",
        b"3,3,000f0000,001f0000,0,0,0,0,0,0\n",
        b"send,0,0,9\n",
        b"leave,2\n",
        b"\r\n",
        b"\0",
        b",",
        b"4",
    ];
    for _ in 0..2_000 {
        let mut schedule = Vec::new();
        for _ in 0..next() % 60 {
            match next() % 4 {
                0 => schedule.push(next() as u8),
                _ => schedule.extend_from_slice(words[next() % words.len()]),
            }
        }
        let rows = run(&schedule);
        let lines = schedule.split_inclusive(|&byte| byte == b'\n').count().max(1);
        assert_eq!(rows.iter().filter(|&&byte| byte == b'\n').count(), lines + 1);
    }
}
