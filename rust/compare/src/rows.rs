//! The rows of a schedule, compared byte for byte.

use std::collections::BTreeMap;

/// A schedule to its rows.
pub type Run = fn(&[u8]) -> Vec<u8>;

/// The bench that is compared with the reference.
pub const PROVED: Run = pekdrav::schedule::rows;

/// What the rows of the compared schedules answered.
#[derive(Default)]
pub struct Tally {
    pub schedules: u64,
    pub rows: u64,
    /// By answer; a refusal with its number.
    pub answers: BTreeMap<String, u64>,
}

impl Tally {
    fn add(&mut self, rows: &[u8]) {
        self.schedules += 1;
        for row in rows.split(|&byte| byte == b'\n').skip(1).filter(|row| !row.is_empty()) {
            self.rows += 1;
            let mut fields = row.split(|&byte| byte == b',').skip(2);
            let word = String::from_utf8_lossy(fields.next().unwrap_or_default());
            let value = String::from_utf8_lossy(fields.next().unwrap_or_default());
            let answer = if word == "refused" { format!("refused {value}") } else { word.into_owned() };
            *self.answers.entry(answer).or_default() += 1;
        }
    }
}

impl std::fmt::Display for Tally {
    fn fmt(&self, f: &mut std::fmt::Formatter<'_>) -> std::fmt::Result {
        write!(f, "{} schedules, {} rows: ", self.schedules, self.rows)?;
        let answers: Vec<String> = self.answers.iter().map(|(answer, count)| format!("{answer} {count}")).collect();
        write!(f, "{}", answers.join(", "))
    }
}

/// Leaves lines out for as long as `differs` says that the two still differ.
pub fn shrink(schedule: &[u8], differs: impl Fn(&[u8]) -> bool) -> Vec<u8> {
    let mut lines: Vec<&[u8]> = schedule.split_inclusive(|&byte| byte == b'\n').collect();
    let mut step = lines.len() / 2;
    while step > 0 {
        let mut at = 0;
        while at + step <= lines.len() {
            let fewer = [&lines[..at], &lines[at + step..]].concat();
            if differs(&fewer.concat()) {
                lines = fewer;
            } else {
                at += step;
            }
        }
        step /= 2;
    }
    lines.concat()
}

/// The first row in which they differ, with the smallest schedule found that shows it.
fn difference(mine: Run, theirs: Run, schedule: &[u8]) -> String {
    let least = shrink(schedule, |schedule| mine(schedule) != theirs(schedule));
    let (our, their) = (mine(&least), theirs(&least));
    let rows = |text: &[u8]| String::from_utf8_lossy(text).lines().map(str::to_string).collect::<Vec<_>>();
    let (our, their) = (rows(&our), rows(&their));
    let at = our.iter().zip(&their).position(|(one, other)| one != other).unwrap_or(our.len().min(their.len()));
    let row = |rows: &[String]| rows.get(at).cloned().unwrap_or("no row".to_string());
    format!("proved: {}\nreference: {}\nschedule:\n{}", row(&our), row(&their), String::from_utf8_lossy(&least))
}

/// Compares the rows of one schedule.
pub fn compare(mine: Run, theirs: Run, schedule: &[u8], tally: &mut Tally) -> Result<(), String> {
    let rows = theirs(schedule);
    if mine(schedule) != rows {
        return Err(difference(mine, theirs, schedule));
    }
    tally.add(&rows);
    Ok(())
}

/// Compares the rows of many.
pub fn compare_all(mine: Run, theirs: Run, schedules: impl Iterator<Item = Vec<u8>>) -> Result<Tally, String> {
    let mut tally = Tally::default();
    for schedule in schedules {
        compare(mine, theirs, &schedule, &mut tally)?;
    }
    Ok(tally)
}

#[cfg(test)]
mod tests {
    use super::*;

    /// A bench that calls a delivery quiet.
    fn wrong(schedule: &[u8]) -> Vec<u8> {
        String::from_utf8_lossy(&reference::bench::run(schedule)).replace("delivered,7", "quiet,0").into_bytes()
    }

    #[test]
    fn a_difference_is_found_and_shown_by_few_lines() {
        let schedule = b"setup,0001,1,0,0000,0\njoin,1\nturn,1,0\nsend,0,0,7\nturn,0,0\nturn,0,0\nall,1\nturn,0,0\nturn,0,0\nturn,0,0\n";
        let found = compare(wrong, reference::bench::run, schedule, &mut Tally::default()).unwrap_err();
        let least = "setup,0001,1,0,0000,0\nsend,0,0,7\nturn,0,0\nturn,0,0\nturn,0,0\nturn,0,0\n";
        assert_eq!(found, format!("proved: 6,0,quiet,0\nreference: 6,0,delivered,7\nschedule:\n{least}"));
    }
}
