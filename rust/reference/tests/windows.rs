//! Service windows: which setups and minutes are refused and in which order, and when a leave is signed.

use reference::bench::run;
use reference::{Answer, Controller, Document, Refusal, Window};

/// The rows of the lines, without the header and the line numbers.
fn rows(lines: &[&str]) -> Vec<String> {
    let schedule: String = lines.iter().map(|line| format!("{line}\n")).collect();
    let output = String::from_utf8(run(schedule.as_bytes())).unwrap();
    output.lines().skip(1).map(|row| row.split_once(',').unwrap().1.to_string()).collect()
}

/// The row of the last line.
fn last(lines: &[&str]) -> String {
    rows(lines).pop().unwrap()
}

/// A setup of controller 0 alone with these windows, as they are written.
fn setup(count: usize, windows: &str) -> String {
    format!("setup,0001,1,0,0000,{count}{windows}")
}

#[test]
fn refusal_10_a_window_that_is_out_of_range() {
    for window in ["0,0,1", "6,0,1440", "3,1439,1440", "0,479,480"] {
        assert_eq!(last(&[&setup(1, &format!(",{window}"))]), "0,taken,0", "{window}");
    }
    let strays = [
        "7,0,1", "65535,0,1", "0,0,0", "0,480,480", "0,481,480", "0,1440,1440", "0,1440,1441", "0,0,1441", "0,65535,1", "0,0,65535",
        "7,5,5",
    ];
    for window in strays {
        assert_eq!(last(&[&setup(1, &format!(",{window}"))]), "0,refused,10", "{window}");
        // A single one among others is enough, whichever it is.
        for place in 0..8 {
            let all: String = (0..8).map(|other| format!(",{}", if other == place { window } else { "2,60,120" })).collect();
            assert_eq!(last(&[&setup(8, &all)]), "0,refused,10", "{window} at {place}");
        }
    }
}

#[test]
fn refusal_10_more_than_eight_windows() {
    for count in 0..=8 {
        assert_eq!(last(&[&setup(count, &",5,0,1440".repeat(count))]), "0,taken,0", "{count}");
    }
    for count in [9, 10, 255, 256, 264, 5_000] {
        assert_eq!(last(&[&setup(count, &",5,0,1440".repeat(count))]), "0,refused,10", "{count}");
    }
    // Every written one is read, also where only eight could be kept.
    assert_eq!(last(&[&setup(9, &",5,0,1440".repeat(8))]), "16,refused,8");
    assert_eq!(last(&[&setup(9, &format!("{},5,0,65536", ",5,0,1440".repeat(8)))]), "16,refused,8");
    assert_eq!(last(&[&setup(9, &format!("{},5,0,65535", ",5,0,1440".repeat(8)))]), "0,refused,10");
}

#[test]
fn refusal_1_comes_before_10() {
    assert_eq!(last(&["setup,0000,1,0,0000,1,7,0,1"]), "0,refused,1");
    let nine = ",0,0,1".repeat(9);
    assert_eq!(last(&[&format!("setup,0000,1,3,0000,9{nine}")]), "3,refused,1");
    assert_eq!(last(&[&format!("setup,0001,0,0000,9{nine}")]), "16,refused,1");
    assert_eq!(last(&[&format!("setup,0001,1,16,0000,9{nine}")]), "16,refused,1");
    assert_eq!(last(&[&format!("setup,0001,2,3,16,0000,9{nine}")]), "3,refused,1");
    // A second setup gets 1 whatever its windows; one refused with 10 is no setup, and shows the sender as for 1.
    let good = setup(0, "");
    assert_eq!(last(&[&good, &setup(1, ",7,0,1")]), "0,refused,1");
    assert_eq!(last(&[&good, &setup(1, ",0,0,1")]), "0,refused,1");
    assert_eq!(
        rows(&["setup,0001,1,5,0000,1,7,0,1", "turn,0,0", &good, "turn,0,0"]),
        ["5,refused,10", "0,refused,8", "0,taken,0", "0,quiet,0"]
    );
}

#[test]
fn refusal_11_comes_first_of_all_but_8() {
    // Also where no window is set, and where the turn would do something.
    for windows in ["0", "1,0,0,1440"] {
        let setup = format!("setup,0001,1,0,0000,{windows}");
        for minute in ["10080", "10081", "20160", "65535"] {
            let turn = format!("turn,0,{minute}");
            assert_eq!(last(&[&turn]), "0,refused,8", "before setup");
            assert_eq!(rows(&[&setup, "send,0,0,7", &turn, "turn,0,10079"])[2..], ["0,refused,11", "0,signed,0"], "{minute}");
        }
        assert_eq!(last(&[&setup, "turn,0,65536"]), "16,refused,8");
    }
    // Before 7: two certificates of one notice.
    let mut lines = vec!["setup,0001,1,0,0001,0".to_string()];
    for payload in [1, 2] {
        lines.push(format!("lie,6,0,00000000,00000000,0,0,{payload},0,0,0"));
        lines.push(format!("lie,7,0,00010000,00000000,0,0,{payload},0,0,0"));
    }
    lines.extend(["all,3", "turn,3,10080", "turn,3,10079"].map(String::from));
    let lines: Vec<&str> = lines.iter().map(String::as_str).collect();
    assert_eq!(rows(&lines)[6..], ["3,refused,11", "3,refused,7"]);
}

#[test]
fn refusal_11_comes_before_6_and_4() {
    // Sixteen views above the initial one, which the lone faulty member agrees to: seventeen candidates.
    let mut lines = vec!["setup,0001,1,0,ffff,0".to_string()];
    lines.extend((1..16).map(|origin| format!("lie,1,{origin},00000000,00000000,0,0,0,0,0,0")));
    lines.push("lie,2,1,00000000,00000000,0,0,0,0,0,0".into());
    let views = (2..=16).map(|n| format!("{:04x}0000", (1u32 << n) - 1)).chain(["ffff0002".to_string()]);
    lines.extend(views.map(|view| format!("lie,3,0,00010000,{view},0,0,0,0,0,0")));
    lines.extend(["all,0", "turn,0,10080", "turn,0,0"].map(String::from));
    let listed: Vec<&str> = lines.iter().map(String::as_str).collect();
    assert_eq!(rows(&listed)[lines.len() - 2..], ["0,refused,11", "0,refused,6"]);

    let mut lines = vec!["setup,0001,1,0,0200,0".to_string()];
    lines.extend((0..512).map(|payload| format!("lie,6,9,00000000,00000000,0,0,{payload},0,0,0")));
    lines.extend(["send,0,0,7", "turn,0,10080", "turn,0,0"].map(String::from));
    let listed: Vec<&str> = lines.iter().map(String::as_str).collect();
    assert_eq!(rows(&listed)[lines.len() - 2..], ["0,refused,11", "0,refused,4"]);
}

/// Whether controller 0, alone in its ring and asked to leave, signs that in this minute.
fn leaves(windows: &[Window], minute: u16) -> bool {
    let mut controller = Controller::<Document>::new(0);
    assert_eq!(controller.setup(1, &[0], windows), Answer::Taken);
    assert_eq!(controller.leave(), Answer::Taken);
    let answer = controller.turn(minute);
    assert!(matches!(answer, Answer::Signed(_) | Answer::Quiet));
    answer != Answer::Quiet
}

#[test]
fn a_leave_is_signed_exactly_inside_a_window() {
    let overlapping = [Window::new(1, 480, 540), Window::new(1, 510, 600), Window::new(6, 1439, 1440)];
    let week = (0..7).map(|weekday| Window::new(weekday, 0, 1440)).collect::<Vec<_>>();
    for minute in 0..10_080 {
        let (weekday, in_day) = (minute / 1440, minute % 1440);
        assert!(leaves(&[], minute) && leaves(&week, minute), "{minute}");
        let expected = (weekday == 1 && (480..600).contains(&in_day)) || minute == 10_079;
        assert_eq!(leaves(&overlapping, minute), expected, "{minute}");
    }
}

#[test]
fn every_one_of_eight_windows_counts() {
    let windows: Vec<Window> = (0..8).map(|place| Window::new(place % 7, 100 * place, 100 * place + 10)).collect();
    for window in &windows {
        let first = 1440 * window.weekday + window.first;
        assert_eq!([first, first + 9, first + 10].map(|minute| leaves(&windows, minute)), [true, true, false]);
    }
}

#[test]
fn a_leave_waits_for_its_window_and_other_rules_do_not() {
    let lines = [
        "setup,0003,1,0,0000,1,2,480,540",
        "leave,1",
        "turn,1,0",
        "turn,1,3359",
        "send,0,0,7",
        "turn,0,5",
        "turn,0,10079",
        "all,1",
        "turn,1,1",
        "turn,1,3420",
        "all,0",
        "turn,0,9",
        "turn,0,9",
        "all,1",
        "turn,1,3500",
        "turn,1,3359",
        "turn,1,3420",
        "turn,1,3360",
        "turn,1,3360",
    ];
    let rows = rows(&lines);
    assert_eq!(rows[2..4], ["1,quiet,0", "1,quiet,0"], "outside");
    assert_eq!(rows[5..7], ["0,signed,0", "0,signed,1"], "prepare and ack");
    assert_eq!(rows[8..10], ["1,signed,2", "1,signed,3"], "ack and store");
    assert_eq!(rows[11..13], ["0,signed,4", "0,delivered,7"]);
    assert_eq!(rows[14], "1,delivered,7");
    assert_eq!(rows[15..18], ["1,quiet,0", "1,quiet,0", "1,signed,5"], "the minute before, the end, the first");
}

#[test]
fn inside_its_window_a_leave_still_waits_for_its_delivery() {
    let lines =
        ["setup,0001,1,0,0000,1,0,0,10", "send,0,0,7", "turn,0,0", "turn,0,0", "leave,0", "turn,0,5", "turn,0,10", "turn,0,10", "turn,0,9"];
    assert_eq!(rows(&lines)[5..], ["0,signed,2", "0,delivered,7", "0,quiet,0", "0,signed,3"]);
    // It prepares while it waits, and no more once its leave is signed.
    let lines = ["setup,0001,1,0,0000,1,0,0,10", "leave,0", "send,0,0,7", "turn,0,10", "turn,0,9"];
    assert_eq!(rows(&lines)[3..], ["0,signed,0", "0,signed,1"], "prepare and ack, since rule 5 comes before 9");
    let lines = ["setup,0001,1,0,0000,1,0,0,10", "leave,0", "send,0,0,7", "turn,0,9", "turn,0,9"];
    assert_eq!(rows(&lines)[3..], ["0,signed,0", "0,quiet,0"], "the leave, and no prepare after it");
}

#[test]
fn a_refused_setup_or_minute_leaves_everything() {
    let mut controller = Controller::<Document>::new(0);
    assert_eq!(controller.turn(10_080), Answer::Refused(Refusal::Unreadable));
    assert_eq!(controller.setup(1, &[0], &[Window::new(7, 0, 1)]), Answer::Refused(Refusal::Window));
    assert!(controller.ring().is_none() && controller.notices().is_empty() && controller.entered().is_empty());
    let windows = [Window::new(0, 0, 1), Window::new(0, 0, 1)];
    assert_eq!(controller.setup(1, &[0], &windows), Answer::Taken);
    assert_eq!(controller.setup(1, &[0], &[Window::new(7, 0, 1)]), Answer::Refused(Refusal::Setup));
    assert_eq!(controller.ring().unwrap().windows, windows);
    assert_eq!(controller.send(0, 7), Answer::Taken);
    assert_eq!(controller.turn(10_080), Answer::Refused(Refusal::Minute));
    assert!(controller.record().is_empty());
    assert!(matches!(controller.turn(10_079), Answer::Signed(_)));
}
