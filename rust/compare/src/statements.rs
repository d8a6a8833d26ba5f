//! Reading and writing statement lines, compared.

use generate::Rng;
use reference::Statement;

use crate::lines::{line, Damage, DAMAGES};

/// What the memory holds before it is written.
const BLANK: u8 = 0xa5;

/// No statement's text is longer.
const ROOM: usize = pekdrav::statement::TEXT_MAX;

/// How many lines were accepted and refused.
#[derive(Default)]
pub struct Tally {
    /// By kind.
    pub accepted: [u64; 9],
    /// With 16 views.
    pub full: u64,
    /// Reports with more than one group.
    pub grouped: u64,
    /// Statements that had no room.
    pub cramped: u64,
    /// By damage, in the order of `DAMAGES`.
    pub refused: [u64; DAMAGES.len()],
}

impl Tally {
    pub fn accepted(&self) -> u64 {
        self.accepted.iter().sum()
    }

    pub fn refused(&self) -> u64 {
        self.refused.iter().sum()
    }
}

impl std::fmt::Display for Tally {
    fn fmt(&self, f: &mut std::fmt::Formatter<'_>) -> std::fmt::Result {
        writeln!(f, "{} accepted, {} refused", self.accepted(), self.refused())?;
        writeln!(f, "accepted by kind from 1 on {:?}", &self.accepted[1..])?;
        writeln!(f, "{} with 16 views, {} with more than one group, {} without room", self.full, self.grouped, self.cramped)?;
        let refused: Vec<String> = DAMAGES.iter().zip(self.refused).map(|(damage, count)| format!("{damage:?} {count}")).collect();
        write!(f, "refused: {}", refused.join(", "))
    }
}

/// One line by both, into memory that is long enough, of just the length, or too short.
fn compare_line(rng: &mut Rng, damage: usize, line: &[u8], notices: usize, tally: &mut Tally) -> Result<(), String> {
    let theirs = Statement::read(line, notices);
    let length = match rng.below(8) {
        0 => line.len().min(ROOM),
        1 => line.len().saturating_sub(1).min(ROOM),
        2 => rng.below(line.len().min(ROOM) + 1),
        _ => ROOM,
    };
    let mut memory = [BLANK; ROOM];
    let count = pekdrav::statement::rewrite(line, notices, &mut memory[..length]).unwrap_or(0);
    let mut wanted = [BLANK; ROOM];
    let text = theirs.as_ref().map(|statement| statement.write()).unwrap_or_default();
    if text.len() <= length {
        wanted[..text.len()].copy_from_slice(&text);
    }
    let size = if text.len() <= length { text.len() } else { 0 };
    if count != size || memory != wanted {
        return Err(format!("{:?} for {notices} in {length} bytes: {count} for {size}", String::from_utf8_lossy(line)));
    }
    match theirs {
        None => tally.refused[damage] += 1,
        Some(statement) => {
            tally.accepted[usize::from(statement.kind())] += 1;
            let fields = statement.fields();
            tally.full += u64::from(fields.count == 16);
            tally.grouped += u64::from(!fields.others.is_empty());
            tally.cramped += u64::from(size == 0);
        }
    }
    Ok(())
}

/// Compares `count` lines from a seed; a long line comes once in two thousand.
pub fn compare(seed: u64, count: usize) -> Result<Tally, String> {
    let mut rng = Rng::new(seed);
    let mut tally = Tally::default();
    for _ in 0..count {
        let mut damage = if rng.chance(35) { 0 } else { rng.below(DAMAGES.len()) };
        if DAMAGES[damage] == Damage::Long && !rng.chance(1) {
            damage = 0;
        }
        let notices = [1, 1, 1, 1, 2, 5, rng.between(1, 64), 64][rng.below(8)];
        let line = line(&mut rng, DAMAGES[damage], notices);
        compare_line(&mut rng, damage, &line, notices, &mut tally)?;
    }
    Ok(tally)
}
