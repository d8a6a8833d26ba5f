//! Seeded schedules for the bench.

mod attack;
mod clock;
mod drive;
mod kinds;
mod lies;
mod limits;
mod maker;
mod minutes;
mod notices;
mod rng;
mod signers;
mod skips;
mod styles;
mod windows;

pub use kinds::{all_kinds, kinds, STRANGE};
pub use limits::LIMITS;
pub use maker::Maker;
pub use minutes::alike;
pub use rng::Rng;

use clock::Clock;
use reference::{Document, Rules, NOTICES};

/// The styles that are made at random; the limits are styles too.
pub const RANDOM: &[&str] = &["honest", "liars", "attack", "skips", "leavers", "overrun", "damaged"];

/// A schedule of the style, or `None` if there is no such style.
///
/// The random styles have at most `lines` lines; a limit has as many as it needs. A random style has 1, 2, 5 or 64 notices as the seed has it, or
/// the number that follows its name, as in `honest-64`.
pub fn schedule(style: &str, seed: u64, lines: usize) -> Option<Vec<u8>> {
    schedule_for::<Document>(style, seed, lines)
}

/// The same without windows and with minute 0 in all turns, but for `leavers`, which is about windows.
pub fn still(style: &str, seed: u64, lines: usize) -> Option<Vec<u8>> {
    made::<Document>(style, seed, lines, Clock::still())
}

/// A schedule made while an engine that follows `R` runs it.
pub fn schedule_for<R: Rules>(style: &str, seed: u64, lines: usize) -> Option<Vec<u8>> {
    made::<R>(style, seed, lines, Clock::new(seed))
}

fn made<R: Rules>(style: &str, seed: u64, lines: usize, clock: Clock) -> Option<Vec<u8>> {
    let (name, notices) = of_notices(style);
    let maker = Maker::<R>::new(seed, lines, notices, clock);
    match name {
        "honest" => Some(styles::honest(maker)),
        "liars" => Some(styles::liars(maker)),
        "attack" => Some(attack::attack(maker)),
        "skips" => Some(skips::skips(maker)),
        "leavers" => Some(styles::leavers(maker)),
        "overrun" => Some(styles::overrun(maker)),
        "damaged" => Some(styles::damaged(maker)),
        name => limits::limit(name, seed),
    }
}

/// A style's name and the number of notices that follows it.
fn of_notices(style: &str) -> (&str, Option<usize>) {
    let split = style.rsplit_once('-').filter(|(name, _)| RANDOM.contains(name));
    let counted = split.and_then(|(name, count)| Some((name, count.parse().ok()?)));
    match counted {
        Some((name, count)) if (1..=NOTICES).contains(&count) => (name, Some(count)),
        _ => (style, None),
    }
}
