//! Service screens, compared byte for byte.

use std::collections::BTreeMap;

use generate::{all_kinds, kinds, STRANGE};
use pekdrav::schedule;
use reference::bench::{run_watched, screen_after};
use reference::{Bench, Document};

use crate::rows::shrink;

/// The kinds of lines that the compared screens had.
#[derive(Default)]
pub struct Tally {
    pub screens: u64,
    pub longest: usize,
    pub kinds: BTreeMap<&'static str, u64>,
}

impl Tally {
    fn add(&mut self, screen: &str) {
        self.screens += 1;
        self.longest = self.longest.max(screen.len());
        kinds(screen).into_iter().for_each(|kind| *self.kinds.entry(kind).or_default() += 1);
    }

    pub fn count(&self, kind: &str) -> u64 {
        self.kinds.get(kind).copied().unwrap_or(0)
    }

    /// A kind of which there were fewer than `least`, or one that no line should have.
    pub fn lacks(&self, least: u64) -> Option<&'static str> {
        all_kinds().find(|kind| self.count(kind) < least).or((self.count(STRANGE) > 0).then_some(STRANGE))
    }
}

impl std::fmt::Display for Tally {
    fn fmt(&self, f: &mut std::fmt::Formatter<'_>) -> std::fmt::Result {
        write!(f, "{} screens of up to {} bytes: ", self.screens, self.longest)?;
        let kinds: Vec<String> = self.kinds.iter().map(|(kind, count)| format!("{} {count}", kind.trim_end())).collect();
        write!(f, "{}", kinds.join(", "))
    }
}

/// Compares two texts of one screen.
pub fn compare(mine: &str, theirs: &str, tally: &mut Tally) -> Result<(), String> {
    if mine == theirs {
        tally.add(theirs);
        return Ok(());
    }
    let mut both = mine.split('\n').zip(theirs.split('\n'));
    let (one, other) = both.find(|(one, other)| one != other).unwrap_or(("all of a shorter text", "all of a longer text"));
    Err(format!("the screens differ\nproved: {one}\nreference: {other}\nproved, whole:\n{mine}reference, whole:\n{theirs}"))
}

/// The reference's screens after a schedule.
fn theirs(schedule: &[u8]) -> Vec<String> {
    let mut bench = Bench::<Document>::new();
    run_watched(&mut bench, schedule, |_, _, _| {});
    bench.controllers().map(|controller| controller.screen()).collect()
}

/// Compares the screens that some controllers have after a schedule.
pub fn compare_after(schedule: &[u8], numbers: impl Iterator<Item = u8>, tally: &mut Tally) -> Result<(), String> {
    let theirs = theirs(schedule);
    for k in numbers {
        let other = theirs.get(usize::from(k)).map_or("", String::as_str);
        if let Err(difference) = compare(&schedule::screen(schedule, k), other, tally) {
            let least = shrink(schedule, |schedule| schedule::screen(schedule, k) != screen_after(schedule, k));
            return Err(format!("controller {k}: {difference}schedule:\n{}", String::from_utf8_lossy(&least)));
        }
    }
    Ok(())
}
