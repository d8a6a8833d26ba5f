//! Schedules to compare on: every short one, all styles of `generate`, and mutated ones.

use generate::{schedule, Rng, LIMITS, RANDOM};

/// The schedule of a known style.
fn made(style: &str, seed: u64, lines: usize) -> Vec<u8> {
    schedule(style, seed, lines).unwrap_or_default()
}

/// Every byte string of up to 2 bytes.
pub fn short() -> impl Iterator<Item = Vec<u8>> {
    let bytes = || 0..=u8::MAX;
    let two = bytes().flat_map(move |first| bytes().map(move |second| vec![first, second]));
    std::iter::once(Vec::new()).chain(bytes().map(|byte| vec![byte])).chain(two)
}

/// One schedule for each limit.
pub fn limits(seed: u64) -> impl Iterator<Item = Vec<u8>> {
    LIMITS.iter().map(move |style| made(style, seed, 0))
}

/// One schedule of each random style.
pub fn random(seed: u64, lines: usize) -> impl Iterator<Item = Vec<u8>> {
    RANDOM.iter().map(move |style| made(style, seed, lines))
}

const NUMBERS: [&str; 22] = [
    "0", "1", "6", "7", "8", "9", "15", "16", "255", "256", "511", "512", "1440", "1441", "10079", "10080", "65535", "65536", "01", "",
    "18446744073709551615", "18446744073709551616",
];

/// Puts another number in place of one field of a line.
fn renumber(rng: &mut Rng, line: &[u8]) -> Vec<u8> {
    let mut fields: Vec<&[u8]> = line.split(|&byte| byte == b',').collect();
    let place = rng.below(fields.len());
    fields[place] = NUMBERS[rng.below(NUMBERS.len())].as_bytes();
    fields.join(&b',')
}

/// A minute, seldom none of a week.
fn minute(rng: &mut Rng) -> usize {
    match rng.below(10) {
        0 => [0, 1_439, 1_440, 10_079, 10_080, 65_535, 65_536][rng.below(7)],
        _ => rng.below(10_080),
    }
}

/// A line that no schedule was made with: lines out of order, of another schedule, of another controller.
fn spoil(rng: &mut Rng, lines: &mut Vec<Vec<u8>>, other: &[Vec<u8>]) {
    let place = rng.below(lines.len());
    let from = rng.below(lines.len());
    match rng.below(9) {
        0 if lines.len() > 1 => drop(lines.remove(place)),
        1 => lines.swap(place, from),
        2 => lines.insert(place, lines[from].clone()),
        3 => lines[place] = renumber(rng, &lines[place]),
        4 => lines.insert(place, format!("turn,{},{}", rng.below(17), minute(rng)).into_bytes()),
        5 => lines.insert(place, format!("all,{}", rng.below(17)).into_bytes()),
        6 => lines.insert(place, format!("give,{},{}", rng.below(16), rng.below(40)).into_bytes()),
        7 => lines.insert(place, format!("{},{}", ["join", "leave"][rng.below(2)], rng.below(16)).into_bytes()),
        _ => lines.insert(place, other[rng.below(other.len())].clone()),
    }
}

/// The three numbers of a window, in range or at a limit.
fn window(rng: &mut Rng) -> [usize; 3] {
    let first = rng.below(1_440);
    let mut numbers = [rng.below(7), first, rng.between(first + 1, 1_440)];
    if rng.chance(15) {
        numbers[rng.below(3)] = [0, 6, 7, 1_439, 1_440, 1_441, 65_535, 65_536][rng.below(8)];
    }
    numbers
}

/// A setup line of controller 0 alone with windows, as a rule of as many as it says.
fn setup(rng: &mut Rng) -> Vec<u8> {
    let count = [0, 1, 1, 2, 3, 7, 8, 8, 9, 40][rng.below(10)];
    let numbers: Vec<String> = (0..count).flat_map(|_| window(rng)).map(|number| number.to_string()).collect();
    let told = if rng.chance(90) { count } else { [0, 8, 9, 255, 256, 65_535, 65_536][rng.below(7)] };
    let members = ["0001", "0001", "0001", "0001", "0000"][rng.below(5)];
    let sender = if rng.chance(80) { 0 } else { rng.below(17) };
    let head = format!("setup,{members},1,{sender},0000,{told}");
    let line = [vec![head], numbers].concat().join(",").into_bytes();
    if rng.chance(20) {
        renumber(rng, &line)
    } else {
        line
    }
}

/// A few setup lines, and turns of controller 0 in any minutes: it was asked to send and, after that, to leave.
pub fn setups_and_turns(seed: u64) -> Vec<u8> {
    let mut rng = Rng::new(seed ^ 0x7365_7475_7020_2620);
    let mut lines: Vec<Vec<u8>> = (0..rng.between(1, 4)).map(|_| setup(&mut rng)).collect();
    lines.push(format!("send,0,0,{seed}").into_bytes());
    for place in 0..rng.between(1, 40) {
        let line = format!("turn,0,{}", minute(&mut rng)).into_bytes();
        lines.push(if rng.chance(10) { renumber(&mut rng, &line) } else { line });
        if place == 4 {
            lines.push(b"leave,0".to_vec());
        }
    }
    lines.push(Vec::new());
    lines.join(&b'\n')
}

fn split(schedule: &[u8]) -> Vec<Vec<u8>> {
    schedule.split(|&byte| byte == b'\n').map(<[u8]>::to_vec).collect()
}

/// A schedule of one style, with a few of its lines changed; lines of a second schedule come in.
pub fn mutated(seed: u64, lines: usize) -> Vec<u8> {
    let mut rng = Rng::new(seed ^ 0x6d75_7461_7465_6421);
    let mut pick = || RANDOM[rng.below(RANDOM.len())];
    let (style, second) = (pick(), pick());
    let mut mine = split(&made(style, seed, lines));
    let other = split(&made(second, !seed, lines));
    for _ in 0..rng.between(1, 25) {
        spoil(&mut rng, &mut mine, &other);
    }
    mine.join(&b'\n')
}
