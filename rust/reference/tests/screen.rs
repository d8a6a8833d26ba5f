//! The service screen of a controller, line by line.

use reference::bench::{screen_after, SCHEDULE_LIMIT};
use reference::screen::SCREEN_LIMIT;

/// The screen of `k` after these lines, without its last newline.
fn screen(lines: &[&str], k: u8) -> String {
    let schedule: String = lines.iter().map(|line| format!("{line}\n")).collect();
    let text = screen_after(schedule.as_bytes(), k);
    text.strip_suffix('\n').expect("each line ends with a newline").to_string()
}

/// The lines that say what it waits for.
fn waits(lines: &[&str], k: u8) -> Vec<String> {
    screen(lines, k).lines().filter(|line| line.starts_with("waits") || line.starts_with("turns")).map(str::to_string).collect()
}

/// The line of a notice, without its number.
fn notice(lines: &[&str], k: u8, notice: u8) -> String {
    let head = format!("notice {notice}: ");
    screen(lines, k).lines().find_map(|line| line.strip_prefix(&head).map(str::to_string)).expect("a line of the notice")
}

/// The place of a controller: the line after its number.
fn place(lines: &[&str], k: u8) -> String {
    screen(lines, k).lines().nth(1).expect("a place").to_string()
}

/// A lie of the origin: a statement of the kind, with the fields after the origin.
fn lie(kind: u8, origin: u8, rest: &str) -> String {
    format!("lie,{kind},{origin},{rest}")
}

fn join(origin: u8) -> String {
    lie(1, origin, "00000000,00000000,0,0,0,0,0,0")
}

fn leave(origin: u8) -> String {
    lie(2, origin, "00000000,00000000,0,0,0,0,0,0")
}

fn agree_view(origin: u8, at: &str, view: &str) -> String {
    lie(3, origin, &format!("{at},{view},0,0,0,0,0,0"))
}

fn agree_history(origin: u8, at: &str, views: &[&str]) -> String {
    lie(4, origin, &format!("{at},00000000,0,0,0,0,0,{},{}", views.len(), views.join(",")))
}

/// Statements of a notice and a payload: 6 prepare, 7 ack, 8 store.
fn said(kind: u8, origin: u8, at: &str, notice: u8, payload: u64) -> String {
    lie(kind, origin, &format!("{at},00000000,{notice},0,{payload},0,0,0"))
}

fn run<'a>(setup: &'a str, lies: &'a [String], rest: &[&'a str]) -> Vec<&'a str> {
    [setup].into_iter().chain(lies.iter().map(String::as_str)).chain(rest.iter().copied()).collect()
}

#[test]
fn before_setup_there_is_one_line() {
    for lines in [&["join,0"][..], &["setup,0000,1,0,0000,0"], &["setup,0001,1,0,0000,1,7,0,1", "turn,0,0"], &["x"]] {
        assert_eq!(screen(lines, 0), "not set up", "{lines:?}");
    }
    assert_eq!(screen_after(b"", 3), "not set up\n");
    assert_eq!(screen_after(b"setup,0001,1,0,0000,0", 0), "not set up\n", "a last line without newline is not run");
    assert_eq!(screen_after(b"setup,0001,1,0,0000,0\n", 16), "", "there is no such controller");
}

#[test]
fn a_schedule_that_is_too_long_runs_nothing() {
    let mut schedule = b"setup,0001,1,0,0000,0\n".to_vec();
    schedule.resize(SCHEDULE_LIMIT, b'\n');
    assert!(screen_after(&schedule, 0).starts_with("controller 0\n"));
    schedule.push(b'\n');
    assert_eq!(screen_after(&schedule, 0), "not set up\n");
}

/// The example of the scope document, after each of its lines.
#[test]
fn the_example_of_the_scope_document() {
    let lines = ["setup,0001,1,0,0000,0", "send,0,0,7", "turn,0,0", "turn,0,0", "turn,0,0", "turn,0,0", "turn,0,0"];
    let notices = [
        "unbound; no certificate; not stored; not delivered",
        "unbound; no certificate; not stored; not delivered",
        "unbound; no certificate; not stored; not delivered",
        "bound to 7; certificate for 7 acked by 0001: 0; not stored; not delivered",
        "bound to 7; certificate for 7 acked by 0001: 0; stored by 0001: 0; not delivered",
        "bound to 7; certificate for 7 acked by 0001: 0; stored by 0001: 0; delivered",
        "bound to 7; certificate for 7 acked by 0001: 0; stored by 0001: 0; delivered",
    ];
    for (place, notice) in notices.into_iter().enumerate() {
        let head = "controller 0\nstands in 00010000: 0\nwished 00010000: 0\ncandidates 00010000\n";
        assert_eq!(screen(&lines[..=place], 0), format!("{head}notice 0: {notice}\nwaits for nothing"), "after line {}", place + 1);
    }
    let other = "controller 5\nentered nothing\nwished 00010000: 0\ncandidates 00010000\nnotice 0: unbound; no certificate; not stored; not delivered\nwaits for nothing";
    assert_eq!(screen(&lines, 5), other);
}

/// Four members, 1 of them faulty; 4 asks to join, and its view is chosen but not sealed.
#[test]
fn one_of_most_lines() {
    let four = "000f0000";
    let mut lies: Vec<String> = [6, 7, 8].map(|kind| said(kind, 0, if kind == 6 { "00000000" } else { four }, 0, 7)).into();
    lies.extend([said(7, 3, four, 0, 7), said(8, 1, four, 0, 7), join(4)]);
    lies.extend([0, 1, 3].map(|origin| agree_view(origin, four, "001f0000")));
    let lines = run("setup,000f,2,0,1,fffb,0", &lies, &["all,2", "turn,2,0", "turn,2,0", "turn,2,0", "turn,2,0", "turn,2,0"]);
    let expected = "controller 2
stands in 000f0000: 0 1 2 3
wished 001f0000: 0 1 2 3 4
candidates 000f0000 001f0000
notice 0: bound to 7; certificate for 7 acked by 000d: 0 2 3; stored by 0007: 0 1 2; delivered
notice 1: unbound; no certificate; not stored; not delivered
waits for nothing";
    assert_eq!(screen(&lines, 2), expected);
}

#[test]
fn notices_are_listed_from_the_least_on() {
    let senders = ["0"; 64].join(",");
    let setup = format!("setup,0001,64,{senders},0000,0");
    let shown = screen(&[&setup, "send,0,63,18446744073709551615", "send,0,9,0"], 0);
    let numbers: Vec<&str> = shown.lines().filter_map(|line| line.strip_prefix("notice ")?.split(':').next()).collect();
    let expected: Vec<String> = (0..64).map(|number| number.to_string()).collect();
    assert_eq!(numbers, expected);
    let lines = [&setup, "send,0,63,18446744073709551615", "send,0,9,0", "turn,0,0", "turn,0,0", "turn,0,0", "turn,0,0", "turn,0,0"];
    assert!(notice(&lines, 0, 9).starts_with("bound to 0; certificate for 0 acked by 0001: 0; stored by"));
    let lines = [&lines[..], &["turn,0,0", "turn,0,0"]].concat();
    assert!(notice(&lines, 0, 63).starts_with("bound to 18446744073709551615; certificate for 18446744073709551615 acked"));
}

/// Two members, of whom 1 leaves: 0 is alone in the second view.
fn shrunk() -> Vec<String> {
    let (at, then) = ("00030000", "00030002");
    let mut lies = vec![leave(1)];
    lies.extend([0, 1].map(|origin| agree_view(origin, at, then)));
    lies.extend([0, 1].map(|origin| agree_history(origin, at, &[at, then])));
    lies
}

#[test]
fn where_it_is() {
    let lies = shrunk();
    let lines = run("setup,0003,1,0,ffff,0", &lies, &["all,1", "all,0", "all,7"]);
    assert_eq!(place(&lines, 1), "left");
    assert_eq!(place(&lines, 0), "entered 00030000: 0 1", "not the new top yet");
    assert_eq!(place(&lines, 7), "entered nothing");
    let lines = [&lines[..], &["turn,0,0", "turn,1,0", "all,0", "turn,0,0"]].concat();
    assert_eq!(place(&lines, 0), "stands in 00030002: 0");
    assert_eq!(place(&lines, 1), "left");
    assert!(screen(&lines, 0).contains("\nwished 00030002: 0\ncandidates 00030000 00030002\n"));
    let (at, then) = ("00030002", "00070002");
    let more = [join(2), agree_view(0, at, then), agree_history(0, at, &["00030000", at, then])];
    let lines = [&lines[..], &more.iter().map(String::as_str).collect::<Vec<_>>(), &["all,0"]].concat();
    assert_eq!(place(&lines, 0), "entered 00030002: 0", "the last that it entered");
}

#[test]
fn a_wished_view_without_members_has_no_numbers() {
    let shown = screen(&["setup,0001,1,0,0000,0", "leave,0", "turn,0,0"], 0);
    assert!(shown.contains("\nstands in 00010000: 0\nwished 00010001:\ncandidates 00010000\n"), "{shown}");
}

/// The acks and stores of a certificate may be at different tops, each the least that has a quorum.
#[test]
fn the_sets_are_those_at_the_least_top_as_written() {
    let (at, then) = ("00030000", "00030002");
    let mut lies = shrunk();
    lies.extend([said(6, 0, "00000000", 0, 9), said(7, 0, then, 0, 9), said(8, 0, then, 0, 9)]);
    let later = "unbound; certificate for 9 acked by 0001: 0; stored by 0001: 0; not delivered";
    assert_eq!(notice(&run("setup,0003,1,0,ffff,0", &lies, &["all,7"]), 7, 0), later);
    lies.extend([0, 1].map(|origin| said(7, origin, at, 0, 9)));
    let mixed = "unbound; certificate for 9 acked by 0003: 0 1; stored by 0001: 0; not delivered";
    assert_eq!(notice(&run("setup,0003,1,0,ffff,0", &lies, &["all,7"]), 7, 0), mixed);
    lies.extend([0, 1].map(|origin| said(8, origin, at, 0, 9)));
    let first = "unbound; certificate for 9 acked by 0003: 0 1; stored by 0003: 0 1; not delivered";
    assert_eq!(notice(&run("setup,0003,1,0,ffff,0", &lies, &["all,7"]), 7, 0), first);
}

#[test]
fn only_stores_of_the_certificates_payload_are_told() {
    let at = "00010000";
    let mut lies = vec![said(8, 0, at, 0, 8)];
    let setup = "setup,0001,1,0,ffff,0";
    assert_eq!(notice(&run(setup, &lies, &["all,7"]), 7, 0), "unbound; no certificate; not stored; not delivered");
    lies.extend([said(6, 0, "00000000", 0, 9), said(7, 0, at, 0, 9)]);
    let kept = "unbound; certificate for 9 acked by 0001: 0; not stored; not delivered";
    assert_eq!(notice(&run(setup, &lies, &["all,7"]), 7, 0), kept);
}

#[test]
fn two_certificates_are_a_conflict() {
    let at = "00010000";
    let lies: Vec<String> = [8, 9]
        .into_iter()
        .flat_map(|payload| [6, 7].map(|kind| (kind, payload)))
        .map(|(kind, payload)| said(kind, 0, if kind == 6 { "00000000" } else { at }, 1, payload))
        .collect();
    let lines = run("setup,0001,2,0,0,ffff,0", &lies, &["send,0,0,5", "turn,0,0", "turn,0,0", "turn,0,0", "turn,0,0", "all,0", "turn,0,0"]);
    let expected = "controller 0
entered 00010000: 0
wished 00010000: 0
conflict
notice 0: bound to 5; delivered
notice 1: unbound; not delivered
turns are refused with 7";
    assert_eq!(screen(&lines, 0), expected);
    let lines = run("setup,0001,2,0,0,ffff,0", &lies, &["all,3"]);
    assert_eq!(place(&lines, 3), "entered nothing");
}

#[test]
fn views_that_are_not_comparable_are_a_conflict() {
    let lies = [join(1), join(2), agree_view(0, "00010000", "00030000"), agree_view(0, "00010000", "00050000"), leave(0)];
    let expected = "controller 1
entered nothing
wished 00070001: 1 2
conflict
notice 0: unbound; not delivered
turns are refused with 7";
    assert_eq!(screen(&run("setup,0001,1,0,ffff,0", &lies, &["all,1"]), 1), expected);
}

/// More than sixteen candidates, of which the second is sealed: the top is known.
#[test]
fn more_than_sixteen_candidates() {
    let view = |count: u32| format!("{:04x}0000", (1u32 << count) - 1);
    let mut lies: Vec<String> = (1..16).map(join).collect();
    lies.extend((2..=16).map(|count| agree_view(0, "00010000", &view(count))));
    lies.push(agree_history(0, "00010000", &["00010000", "00030000"]));
    lies.extend([said(6, 0, "00000000", 0, 9), said(7, 0, "00010000", 0, 9)]);
    let setup = "setup,0001,1,0,ffff,1,2,480,540";
    let sixteen: Vec<String> = (1..=16).map(view).collect();
    let shown = screen(&run(setup, &lies, &["all,3"]), 3);
    assert!(shown.contains(&format!("\ncandidates {}\n", sixteen.join(" "))), "{shown}");
    lies.extend([leave(9), agree_view(0, "00010000", "ffff0200")]);
    let expected = |k: u8, place: &str| {
        format!(
            "controller {k}
{place}
wished ffff0200: 0 1 2 3 4 5 6 7 8 10 11 12 13 14 15
candidates: more than 16
notice 0: unbound; certificate for 9 acked by 0001: 0; not stored; not delivered
turns are refused with 6"
        )
    };
    let lines = run(setup, &lies, &["leave,0", "all,0", "all,1"]);
    assert_eq!(screen(&lines, 0), expected(0, "entered 00010000: 0"));
    assert_eq!(screen(&lines, 1), expected(1, "entered nothing"));
    lies.remove(30);
    assert_eq!(place(&run(setup, &lies, &["all,0"]), 0), "stands in 00010000: 0", "without the history the initial view is the top");
}

/// Four members take 4 in, whom the reports of three on their view let enter.
fn grown(reporters: &[u8]) -> Vec<String> {
    let (at, then) = ("000f0000", "001f0000");
    let mut lies = vec![join(4)];
    lies.extend([0, 1, 2].map(|origin| agree_view(origin, at, then)));
    lies.extend([0, 1, 2].map(|origin| agree_history(origin, at, &[at, then])));
    lies.extend(reporters.iter().map(|&origin| lie(5, origin, &format!("{at},{then},0,0,0,0,0,1,{at}"))));
    lies
}

#[test]
fn waiting_for_reports() {
    let waiting = |reporters: &[u8], k: u8| {
        let lies = grown(reporters);
        waits(&run("setup,000f,1,0,ffff,0", &lies, &["all,4", "all,0", "all,9"]), k)
    };
    let from = |silent: &str| vec![format!("waits to enter 001f0000 for reports on 000f0000 from {silent}")];
    assert_eq!(waiting(&[], 4), from("000f: 0 1 2 3"));
    assert_eq!(waiting(&[2], 4), from("000b: 0 1 3"));
    assert_eq!(waiting(&[2, 9], 4), from("000b: 0 1 3"), "9 is no member");
    assert_eq!(waiting(&[2, 0], 4), from("000a: 1 3"));
    assert_eq!(waiting(&[2, 0], 0), from("000a: 1 3"), "its own report is there");
    assert_eq!(waiting(&[2, 0, 3], 4), ["waits for nothing"], "it may enter");
    assert_eq!(waiting(&[], 9), ["waits for nothing"], "it is no member");
    let lies = grown(&[2, 0, 3]);
    let lines = run("setup,000f,1,0,ffff,0", &lies, &["all,4", "turn,4,0"]);
    assert_eq!((place(&lines, 4), waits(&lines, 4)), ("stands in 001f0000: 0 1 2 3 4".into(), vec!["waits for nothing".into()]));
}

#[test]
fn a_report_that_does_not_count_is_waited_for() {
    let mut lies = grown(&[2]);
    // Bound to what nobody prepared.
    lies.push(lie(5, 3, "000f0000,001f0000,0,1,7,0,0,1,000f0000"));
    let silent = |lies: &[String]| waits(&run("setup,000f,1,0,ffff,0", lies, &["all,4"]), 4).concat();
    assert!(silent(&lies).ends_with("from 000b: 0 1 3"));
    lies.push(said(6, 0, "00000000", 0, 7));
    assert!(silent(&lies).ends_with("from 0003: 0 1"));
}

/// Three views below the top: one has its reports, one is skipped by a history that lacks it, two wait.
#[test]
fn each_view_that_lacks_reports_has_a_line() {
    let views = ["00010000", "00030000", "00070000", "000f0000", "001f0000"];
    let mut lies: Vec<String> = (1..5).map(join).collect();
    lies.extend(views[1..].iter().map(|view| agree_view(0, views[0], view)));
    lies.push(agree_history(0, views[0], &[views[0], views[1], views[3], views[4]]));
    let line = |view: &str, silent: &str| format!("waits to enter 001f0000 for reports on {view} from {silent}");
    let waiting = |lies: &[String]| waits(&run("setup,0001,1,0,ffff,0", lies, &["all,4"]), 4);
    assert_eq!(waiting(&lies), [line(views[0], "0001: 0"), line(views[1], "0003: 0 1"), line(views[3], "000f: 0 1 2 3")]);
    lies.push(agree_history(0, views[0], &views));
    // The history before lacks the third view and has a greater top, so that it needs no reports.
    assert_eq!(waiting(&lies), [line(views[0], "0001: 0"), line(views[1], "0003: 0 1"), line(views[3], "000f: 0 1 2 3")]);
    lies.push(lie(5, 0, &format!("{0},{0},0,0,0,0,0,1,{0}", views[0])));
    lies.push(lie(5, 1, &format!("{1},{1},0,0,0,0,0,1,{0}", views[0], views[1])));
    assert_eq!(waiting(&lies), [line(views[1], "0001: 0"), line(views[3], "000f: 0 1 2 3")]);
}

#[test]
fn waiting_for_a_window() {
    let setup = "setup,0003,1,1,ffff,1,2,480,540";
    let window = ["waits for a window to leave"];
    let nothing = ["waits for nothing"];
    assert_eq!(waits(&[setup], 0), nothing);
    assert_eq!(waits(&[setup, "leave,0"], 0), window);
    assert_eq!(waits(&[setup, "leave,0", "turn,0,0"], 0), window);
    assert_eq!(waits(&[setup, "leave,0", "turn,0,3360"], 0), nothing, "its leave is signed");
    assert_eq!(waits(&["setup,0003,1,1,0000,0", "leave,0"], 0), nothing, "without windows it may leave at once");
    assert_eq!(waits(&[setup, "leave,0"], 1), nothing, "nobody asked 1 to leave");
    assert_eq!(waits(&[setup, "join,5", "leave,5"], 5), nothing, "a leave before entering is refused");
    // A leave waits for what is kept, and not for a window.
    assert_eq!(waits(&[setup, "send,1,0,4", "turn,1,0", "leave,1"], 1), nothing);
    assert_eq!(waits(&[setup, "send,1,0,4", "leave,1"], 1), window, "only asked to send");
    let mut lies = vec![said(6, 1, "00000000", 0, 4)];
    lies.extend([0, 1].map(|origin| said(7, origin, "00030000", 0, 4)));
    assert_eq!(waits(&run(setup, &lies, &["leave,0", "all,0"]), 0), nothing, "it has a certificate");
    lies.extend([0, 1].map(|origin| said(8, origin, "00030000", 0, 4)));
    let lines = run(setup, &lies, &["leave,0", "all,0", "turn,0,0"]);
    assert_eq!((notice(&lines, 0, 0).ends_with("; delivered"), waits(&lines, 0)), (true, vec![window[0].to_string()]));
}

#[test]
fn waiting_for_reports_and_for_a_window() {
    let lies = grown(&[]);
    let lines = run("setup,000f,1,0,fff0,1,2,480,540", &lies[..1], &["leave,0"]);
    assert_eq!(waits(&lines, 0), ["waits for a window to leave"]);
    let lines = run("setup,000f,1,0,ffff,1,2,480,540", &lies, &["leave,0", "all,0"]);
    let both = ["waits to enter 001f0000 for reports on 000f0000 from 000f: 0 1 2 3", "waits for a window to leave"];
    assert_eq!(waits(&lines, 0), both);
}

#[test]
fn who_is_barred() {
    let mut lies = grown(&[0, 1]);
    lies.extend([7, 8].map(|payload| said(6, 0, "00000000", 0, payload)));
    lies.push(lie(5, 2, "000f0000,001f0000,0,2,0,0,0,1,000f0000"));
    let lines = run("setup,000f,1,0,ffff,0", &lies, &["all,4", "turn,4,0"]);
    assert_eq!(notice(&lines, 4, 0), "barred; no certificate; not stored; not delivered");
}

/// Sixteen members with 64 notices, each with the longest payloads and sets, and a controller that waits for reports on as many views as there may be.
#[test]
fn no_text_is_longer_than_its_limit() {
    let senders = ["0"; 64].join(",");
    let setup = format!("setup,ffff,64,{senders},ffff,0");
    let mut lies = Vec::new();
    for notice in 0..64 {
        let payload = u64::MAX - u64::from(notice);
        lies.push(said(6, 0, "00000000", notice, payload));
        lies.extend((0..11).map(|origin| said(7, origin, "ffff0000", notice, payload)));
    }
    let text = screen(&run(&setup, &lies[..500], &["all,0"]), 0);
    assert!(text.len() > 5_000 && text.len() < SCREEN_LIMIT / 2, "{}", text.len());
    // By the longest parts: 64 lines of notices, 15 views to wait for.
    let numbers: String = (0..16).map(|k| format!(" {k}")).collect();
    let payload = u64::MAX;
    let notice = format!(
        "notice 63: bound to {payload}; certificate for {payload} acked by ffff:{numbers}; stored by ffff:{numbers}; not delivered\n"
    );
    let wait = format!("waits to enter ffff0000 for reports on ffff0000 from ffff:{numbers}\n");
    let view = format!("stands in ffff0000:{numbers}\n");
    assert!(64 * notice.len() + 15 * wait.len() + 4 * view.len() + 16 * 9 + 60 < SCREEN_LIMIT);
}
