//! Schedules that differ in their minutes alone.

use reference::bench::{Line, SCHEDULE_LIMIT};
use reference::WEEK;

use crate::rng::Rng;

/// The most by which a line grows that is given another minute.
const DIGITS: usize = 4;

/// The schedule without its leave lines, twice: the turn lines of each have minutes of their own, all in range. It is cut where one would be too long,
/// since minutes have one digit or more.
pub fn alike(schedule: &[u8], seed: u64) -> [Vec<u8>; 2] {
    let mut rng = Rng::new(seed);
    let mut both = [Vec::new(), Vec::new()];
    for line in schedule.split_inclusive(|&byte| byte == b'\n') {
        if both.iter().any(|one| one.len() + line.len() + DIGITS > SCHEDULE_LIMIT) {
            break;
        }
        // The number of groups matters to no line that is looked at here.
        match line.strip_suffix(b"\n").and_then(|line| Line::read(line, 1)) {
            Some(Line::Leave(_)) => {}
            Some(Line::Turn { k, .. }) => {
                let minutes = pair(&mut rng);
                both.iter_mut().zip(minutes).for_each(|(one, minute)| one.extend(format!("turn,{k},{minute}\n").into_bytes()));
            }
            _ => both.iter_mut().for_each(|one| one.extend_from_slice(line)),
        }
    }
    both
}

/// Two minutes of a week: any, the first and the last, or the same.
fn pair(rng: &mut Rng) -> [u16; 2] {
    let mut any = || rng.below(usize::from(WEEK)) as u16;
    let [one, other] = [any(), any()];
    match rng.below(10) {
        0 => [0, WEEK - 1],
        1 => [one, one],
        _ => [one, other],
    }
}
