//! The kinds of lines that service screens have, to count which ones schedules lead to.

/// How the lines begin; of two that fit the first counts.
const LINES: [&str; 15] = [
    "not set up",
    "controller ",
    "left",
    "stands in ",
    "entered nothing",
    "entered ",
    "wished ",
    "candidates: more than 16",
    "candidates ",
    "conflict",
    "turns are refused with 7",
    "turns are refused with 6",
    "waits to enter ",
    "waits for a window to leave",
    "waits for nothing",
];

/// How the parts of a notice's line begin.
const PARTS: [&str; 9] =
    ["unbound", "bound to ", "barred", "no certificate", "certificate for ", "not stored", "stored by ", "not delivered", "delivered"];

const NOTICE: &str = "notice ";
const NOBODY: &str = "wished by nobody";
const CUT: &str = "notice after a conflict";
const SEVERAL: &str = "waits for reports on several views";
const BOTH: &str = "waits for reports and for a window";

/// What a line or a part is counted as that is of no kind.
pub const STRANGE: &str = "strange";

/// Every kind but the strange one.
pub fn all_kinds() -> impl Iterator<Item = &'static str> {
    LINES.into_iter().chain([NOTICE]).chain(PARTS).chain([NOBODY, CUT, SEVERAL, BOTH])
}

fn first_of(beginnings: &[&'static str], text: &str) -> &'static str {
    beginnings.iter().find(|beginning| text.starts_with(*beginning)).unwrap_or(&STRANGE)
}

/// The kinds of a screen's lines and parts, one for each, and what its lines come to together.
pub fn kinds(screen: &str) -> Vec<&'static str> {
    let mut kinds = Vec::new();
    for line in screen.lines() {
        match line.strip_prefix(NOTICE).and_then(|rest| rest.split_once(": ")) {
            Some((_, parts)) => {
                let parts: Vec<&str> = parts.split("; ").collect();
                kinds.push(NOTICE);
                kinds.extend((parts.len() == 2).then_some(CUT));
                kinds.extend(parts.iter().map(|part| first_of(&PARTS, part)));
            }
            None => kinds.push(first_of(&LINES, line)),
        }
        kinds.extend((line.starts_with("wished ") && line.ends_with(':')).then_some(NOBODY));
    }
    let reports = kinds.iter().filter(|kind| **kind == "waits to enter ").count();
    let window = kinds.contains(&"waits for a window to leave");
    kinds.extend((reports > 1).then_some(SEVERAL));
    kinds.extend((reports > 0 && window).then_some(BOTH));
    kinds
}
