//! Times of two ways to do the same work, taken in turns.

use std::time::Instant;

const ROUNDS: usize = 2_000;

/// Medians over the rounds, in nanoseconds for one piece of work.
pub struct Times {
    pub mine: f64,
    pub theirs: f64,
    pub ratio: f64,
}

impl Times {
    /// The times of one of the `count` parts of a piece.
    pub fn of(self, count: usize) -> Times {
        Times { mine: self.mine / count as f64, theirs: self.theirs / count as f64, ..self }
    }
}

fn time<T>(work: &mut impl FnMut(&[T]), pieces: &[T]) -> f64 {
    let from = Instant::now();
    work(pieces);
    from.elapsed().as_nanos() as f64 / pieces.len() as f64
}

pub fn median(mut values: Vec<f64>) -> f64 {
    values.sort_by(f64::total_cmp);
    values[values.len() / 2]
}

/// Does the work on `share` pieces a round, going through all of them again and again.
///
/// A round times the one and then the other, so that both meet the same noise, and is short, so that few are interrupted. There are
/// many more pieces than a round takes, so that the processor learns none of them.
pub fn measure<T>(all: &[T], share: usize, mine: impl FnMut(&[T]), theirs: impl FnMut(&[T])) -> Times {
    measure_in(ROUNDS, all, share, mine, theirs)
}

/// The same in that many rounds, for work that takes long.
pub fn measure_in<T>(rounds: usize, all: &[T], share: usize, mut mine: impl FnMut(&[T]), mut theirs: impl FnMut(&[T])) -> Times {
    let shares = all.chunks_exact(share).cycle().take(rounds);
    medians(shares.map(|pieces| (time(&mut mine, pieces), time(&mut theirs, pieces))))
}

/// The medians of rounds that took the one and the other so many nanoseconds.
pub fn medians(rounds: impl Iterator<Item = (f64, f64)>) -> Times {
    let rounds: Vec<(f64, f64)> = rounds.collect();
    Times {
        mine: median(rounds.iter().map(|round| round.0).collect()),
        theirs: median(rounds.iter().map(|round| round.1).collect()),
        ratio: median(rounds.iter().map(|round| round.0 / round.1).collect()),
    }
}

/// Does the work of one side on all pieces again and again, for a tool that counts its instructions.
pub fn repeat<T>(rounds: usize, side: &str, all: &[T], mut mine: impl FnMut(&[T]), mut theirs: impl FnMut(&[T])) {
    for _ in 0..rounds {
        if side == "mine" {
            mine(all);
        } else {
            theirs(all);
        }
    }
}

pub fn head(work: &str, piece: &str) {
    println!("| {work} | Rattle, ns a {piece} | reference, ns a {piece} | ratio |");
    println!("|---|---|---|---|");
}

pub fn row(name: &str, times: &Times) {
    println!("| {name} | {:.1} | {:.1} | {:.2} |", times.mine, times.theirs, times.ratio);
}
