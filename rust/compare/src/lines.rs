//! Statement lines to compare on: proper ones, and ones with a named damage.

use generate::Rng;
use reference::{Fields, Group, View};

/// What is done to a line. `Proper` leaves it alone.
#[derive(Clone, Copy, PartialEq, Eq, Debug)]
pub enum Damage {
    Proper,
    /// A field holds something that its kind does not allow.
    Field,
    /// The views do not rise, or one has no members or is no view.
    Views,
    /// The count says another number than there are views.
    Count,
    /// 17 or more views.
    Seventeen,
    /// A group too few or too many.
    Groups,
    /// A notice where none is used, or one above 255.
    Notice,
    LeadingZero,
    UpperCase,
    Space,
    /// A number that needs more bits than its field has, often more than 64.
    Huge,
    Byte,
    Insert,
    Remove,
    Cut,
    Extend,
    /// Two fields change places.
    Swap,
    /// Up to 65,535 bytes long.
    Long,
    /// Bytes without any plan.
    Noise,
}

pub const DAMAGES: [Damage; 19] = [
    Damage::Proper,
    Damage::Field,
    Damage::Views,
    Damage::Count,
    Damage::Seventeen,
    Damage::Groups,
    Damage::Notice,
    Damage::LeadingZero,
    Damage::UpperCase,
    Damage::Space,
    Damage::Huge,
    Damage::Byte,
    Damage::Insert,
    Damage::Remove,
    Damage::Cut,
    Damage::Extend,
    Damage::Swap,
    Damage::Long,
    Damage::Noise,
];

pub const LONGEST: usize = 65_535;

/// A 64-bit number: often one at a limit, else of any length.
fn number(rng: &mut Rng) -> u64 {
    match rng.below(8) {
        0 => 0,
        1 => u64::MAX,
        2 => u64::MAX - rng.below(3) as u64,
        3 => 10u64.pow(rng.below(20) as u32) - rng.below(2) as u64,
        _ => rng.draw() >> rng.below(64),
    }
}

/// A view with members.
fn view(rng: &mut Rng) -> View {
    let joined = (rng.draw() as u16).max(1);
    let left = if rng.chance(50) { 0 } else { joined & rng.draw() as u16 };
    let left = if left == joined { left & (left - 1) } else { left };
    View::new(joined, left)
}

/// A strictly rising chain of up to `count` views with members; it may end early at the full set.
fn chain(rng: &mut Rng, count: usize) -> Vec<View> {
    let mut next = View::new(1 << rng.below(16), 0);
    let mut views = Vec::new();
    while views.len() < count {
        views.push(next);
        let free = !next.joined();
        let joined = next.joined() | rng.subset(free, 1);
        // One member is kept, so that members are left at the end of the chain too.
        let members = joined & !next.left();
        let left = if joined == next.joined() || rng.chance(10) { rng.subset(members & (members - 1), 1) } else { 0 };
        let grown = View::new(joined, next.left() | left);
        if grown == next {
            break;
        }
        next = grown;
    }
    views
}

/// What a report tells of a notice; most tell nothing of most of many.
fn group(rng: &mut Rng, notices: usize) -> Group {
    if notices > 1 && rng.chance(50) {
        return Group::default();
    }
    let binding = rng.below(3) as u8;
    let payload = if binding == 1 { number(rng) } else { 0 };
    let stored = rng.below(2) as u8;
    let kept = if stored == 1 { number(rng) } else { 0 };
    Group { binding, payload, stored, kept }
}

/// Fields that keep the field rules in a ring of that many notices; the notice may be any.
fn fields(rng: &mut Rng, notices: usize) -> Fields {
    let kind = rng.between(1, 8) as u8;
    let mut fields = Fields { kind, origin: rng.below(16) as u8, ..Fields::default() };
    if !matches!(kind, 1 | 2 | 6) {
        fields.at = view(rng);
    }
    if kind == 3 {
        fields.view = view(rng);
    }
    if matches!(kind, 6..=8) {
        fields.first.payload = number(rng);
        fields.notice = if rng.chance(20) { rng.draw() as u8 } else { rng.below(notices) as u8 };
    }
    if matches!(kind, 4 | 5) {
        let count = if rng.chance(20) { 16 } else { rng.between(1, 16) };
        fields.views = chain(rng, count);
        fields.count = fields.views.len() as u8;
    }
    if kind == 5 {
        fields.view = if rng.chance(20) { View::new(rng.draw() as u16, 0) } else { view(rng) };
        fields.first = group(rng, notices);
        fields.others = (1..notices).map(|_| group(rng, notices)).collect();
    }
    fields
}

fn spoil_field(rng: &mut Rng, fields: &mut Fields) {
    let place = rng.below(fields.others.len() + 1);
    let group = match place {
        0 => &mut fields.first,
        _ => &mut fields.others[place - 1],
    };
    match rng.below(8) {
        0 => fields.kind = [0, 9, 255][rng.below(3)],
        1 => fields.origin = rng.between(16, 255) as u8,
        2 => fields.at = View::from_bits(rng.draw() as u32),
        3 => fields.view = View::from_bits(rng.draw() as u32),
        4 => group.binding = rng.below(4) as u8,
        5 => group.payload = number(rng),
        6 => group.stored = rng.below(3) as u8,
        _ => group.kept = number(rng),
    }
}

/// A group too few or too many, of zeros or not; a kind other than a report has one too many then.
fn spoil_groups(rng: &mut Rng, fields: &mut Fields) {
    if rng.chance(50) && fields.others.pop().is_some() {
        return;
    }
    let more = if rng.chance(50) { Group::default() } else { group(rng, 1) };
    fields.others.push(more);
}

fn spoil_views(rng: &mut Rng, fields: &mut Fields) {
    let place = rng.below(fields.views.len());
    match rng.below(5) {
        0 => fields.views.reverse(),
        1 => fields.views.clear(),
        2 => fields.views.push(View::from_bits(rng.draw() as u32)),
        3 if !fields.views.is_empty() => fields.views[place] = View::from_bits(rng.draw() as u32),
        _ if !fields.views.is_empty() => fields.views.insert(place, fields.views[place]),
        _ => fields.views.push(view(rng)),
    }
    fields.count = fields.views.len() as u8;
}

/// Views that rise, but more than 16 of them, told as they are or as 16.
fn seventeen(rng: &mut Rng, fields: &mut Fields) {
    fields.kind = if fields.others.is_empty() { 4 + rng.below(2) as u8 } else { 5 };
    fields.at = view(rng);
    let more = rng.between(17, 24);
    fields.views = chain(rng, more);
    fields.count = if rng.chance(80) { fields.views.len() as u8 } else { 16 };
}

/// Where each field of a line starts.
fn starts(line: &[u8]) -> Vec<usize> {
    let after = line.iter().enumerate().filter(|(_, &byte)| byte == b',').map(|(at, _)| at + 1);
    std::iter::once(0).chain(after).collect()
}

fn field_at(line: &[u8], start: usize) -> std::ops::Range<usize> {
    let end = line[start..].iter().position(|&byte| byte == b',').map_or(line.len(), |at| start + at);
    start..end
}

const HUGE: [&str; 8] = [
    "256",
    "18446744073709551616",
    "18446744073709551615",
    "18446744073709551625",
    "99999999999999999999",
    "184467440737095516150",
    "340282366920938463463374607431768211456",
    "00000000000000000000",
];

const BYTES: &[u8] = b"0123456789abcdefABCDEFgGxX,,,,  +-._\t\r\n\0\x7f\x80\xff/:@`";

fn any_byte(rng: &mut Rng) -> u8 {
    if rng.chance(70) {
        BYTES[rng.below(BYTES.len())]
    } else {
        rng.draw() as u8
    }
}

fn swap(rng: &mut Rng, line: &mut Vec<u8>) {
    let mut parts: Vec<Vec<u8>> = line.split(|&byte| byte == b',').map(<[u8]>::to_vec).collect();
    let (one, other) = (rng.below(parts.len()), rng.below(parts.len()));
    parts.swap(one, other);
    *line = parts.join(&b',');
}

/// Makes the line long: its own bytes, views, zeros, digits or commas, many times.
fn lengthen(rng: &mut Rng, line: &mut Vec<u8>) {
    let unit: Vec<u8> = match rng.below(6) {
        0 => line.clone(),
        1 => b",00010000".to_vec(),
        2 => b"0".to_vec(),
        3 => vec![b'0' + rng.below(10) as u8],
        4 => b",".to_vec(),
        _ => vec![rng.draw() as u8],
    };
    let length = if rng.chance(40) { LONGEST } else { rng.between(300, LONGEST) };
    let place = starts(line)[rng.below(starts(line).len())];
    let mut middle: Vec<u8> = unit.iter().copied().cycle().take(length.saturating_sub(line.len())).collect();
    if rng.chance(50) {
        line.splice(place..place, middle);
    } else {
        line.append(&mut middle);
    }
}

/// Makes the letters of a field large, if any field has letters.
fn upper_case(rng: &mut Rng, line: &mut [u8]) {
    let fields = starts(line).into_iter().map(|start| field_at(line, start));
    let lettered: Vec<_> = fields.filter(|field| line[field.clone()].iter().any(u8::is_ascii_lowercase)).collect();
    if let Some(field) = lettered.get(rng.below(lettered.len())) {
        line[field.clone()].make_ascii_uppercase();
    }
}

fn spoil_text(rng: &mut Rng, damage: Damage, line: &mut Vec<u8>) {
    let place = rng.below(line.len());
    let all = starts(line);
    let field = field_at(line, all[rng.below(all.len())]);
    match damage {
        Damage::LeadingZero => drop(line.splice(field.start..field.start, b"0".iter().copied())),
        Damage::UpperCase => upper_case(rng, line),
        Damage::Space => line.insert(if rng.chance(50) { field.start } else { field.end }, b' '),
        Damage::Huge => drop(line.splice(field, HUGE[rng.below(HUGE.len())].bytes())),
        Damage::Byte => line[place] = any_byte(rng),
        Damage::Insert => line.insert(place, any_byte(rng)),
        Damage::Remove => drop(line.remove(place)),
        Damage::Cut => line.truncate(place),
        Damage::Extend => {
            let more = rng.between(1, 12);
            line.extend((0..more).map(|_| any_byte(rng)));
        }
        Damage::Swap => swap(rng, line),
        Damage::Long => lengthen(rng, line),
        _ => {}
    }
}

/// Another notice, in the fifth field: any where none is used, else one above 255.
fn spoil_notice(rng: &mut Rng, fields: &Fields, line: &mut Vec<u8>) {
    let field = field_at(line, starts(line)[4]);
    let about = matches!(fields.kind, 6..=8);
    let notice = if about { rng.between(256, 70_000) } else { rng.between(1, 255) };
    line.splice(field, notice.to_string().into_bytes());
}

/// A line with the damage, made for a ring of that many notices; it may happen to be the text of a statement all the same.
pub fn line(rng: &mut Rng, damage: Damage, notices: usize) -> Vec<u8> {
    if damage == Damage::Noise {
        let length = rng.below(64);
        return (0..length).map(|_| any_byte(rng)).collect();
    }
    let mut fields = fields(rng, notices);
    match damage {
        Damage::Field => spoil_field(rng, &mut fields),
        Damage::Views => spoil_views(rng, &mut fields),
        Damage::Count => fields.count = fields.count.wrapping_add([1, 2, 255, 16][rng.below(4)]),
        Damage::Seventeen => seventeen(rng, &mut fields),
        Damage::Groups => spoil_groups(rng, &mut fields),
        _ => {}
    }
    let mut line = Vec::new();
    fields.write_into(&mut line);
    if damage == Damage::Notice {
        spoil_notice(rng, &fields, &mut line);
    }
    spoil_text(rng, damage, &mut line);
    line
}
