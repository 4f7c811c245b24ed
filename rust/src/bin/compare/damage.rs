//! Damage to a good document: at a chosen line or field while it is a draft, or anywhere in its bytes.

use crate::draft::{
    BODY, CONTENT, Draft, ELEMENT_NAMES, Field, LEVELS, LIMIT, Line, NAMES, NUMBER, VALUES, element, line,
    time,
};
use crate::prng::Prng;

const WRONG_TIMES: [&str; 36] = [
    "",
    "0",
    "00:00:00",
    "00:00:00.00",
    "00:00:00.0000",
    "0:00:00.000",
    "000:00:00.000",
    " 00:00:00.000",
    "00:00:01.000 ",
    "00:00:01.00 ",
    "+0:00:01.000",
    "-0:00:01.000",
    "00:00:00:000",
    "00.00:00.000",
    "00:00.00.000",
    "00-00:00.000",
    "00:00:0x.000",
    "0a:00:00.000",
    "00:00:00.00/",
    "00:00:00.0:0",
    "00:60:00.000",
    "00:00:60.000",
    "00:99:00.000",
    "00:59:99.999",
    "98:60:00.000",
    "99:60:00.000",
    "99:00:60.000",
    "99:59:60.00x",
    "00:60:00.00x",
    "98:40:00.000",
    "98:40:00.001",
    "99:00:00.000",
    "99:59:59.999",
    "98:59:59.999",
    "99:99:99.999",
    "98:39:60.000",
];

const GOOD_TIMES: [&str; 6] =
    ["98:39:59.999", "98:39:59.998", "00:00:00.000", "00:59:59.999", "00:00:00.001", "98:00:00.000"];

/// Wrong for the sequence number; `0` is good for the content.
pub const WRONG_NUMBERS: [&str; 27] = [
    "",
    "00",
    "01",
    "07",
    "0",
    "+7",
    "-7",
    "7.0",
    " 7",
    "7 ",
    "7x",
    "x",
    "/",
    ":",
    "0x7",
    "1e3",
    "4294967296",
    "4294967297",
    "4294967300",
    "4300000000",
    "5000000000",
    "9999999999",
    "04294967295",
    "10000000000",
    "42949672950",
    "18446744073709551617",
    "00000000000000000007",
];

const GOOD_NUMBERS: [&str; 5] = ["1", "9", "4294967295", "4294967294", "1000000000"];

const WRONG_LEVELS: [&str; 20] = [
    "", "Body", "BODY", "bod", "bodyy", "boby", "br", "tt", "di", "divv", "dIv", "P", "pp", "q", "o", "spa",
    "spam", "spans", " p", "p ",
];

/// Bytes at the edges of what the format knows, and some that have no place in it at all.
const ODD_BYTES: [u8; 22] =
    [0, 9, 10, 11, 13, 32, 34, 43, 44, 45, 46, 47, 48, 57, 58, 59, 64, 96, 127, 128, 187, 255];

/// Damages a draft at one place, as a rule in a way that is refused.
pub fn damage(draft: &mut Draft, rng: &mut Prng) {
    let place = rng.weighted(&[
        (30, damage_field as fn(&mut Draft, &mut Prng)),
        (8, damage_two_fields),
        (10, damage_field_count),
        (8, damage_names),
        (9, damage_lines),
        (10, damage_level),
        (8, almost_a_level),
        (8, push_past_limit),
    ]);
    place(draft, rng);
}

/// Any field of the value line or of an element line.
fn damage_field(draft: &mut Draft, rng: &mut Prng) {
    let Some(at) = line_with_values(draft, rng) else { return };
    damage_field_of(&mut draft.lines[at], at, rng);
}

/// Two fields of one line, or one field twice: the first fault in order is the one to be answered.
fn damage_two_fields(draft: &mut Draft, rng: &mut Prng) {
    let Some(at) = line_with_values(draft, rng) else { return };
    damage_field_of(&mut draft.lines[at], at, rng);
    damage_field_of(&mut draft.lines[at], at, rng);
}

fn damage_field_of(fields: &mut Line, at: usize, rng: &mut Prng) {
    if fields.is_empty() {
        return;
    }
    let which = rng.below(fields.len());
    let is_number = at == VALUES && [NUMBER, CONTENT].contains(&which);
    let is_level = at >= BODY && which == 0;
    let field = &mut fields[which];
    match rng.below(10) {
        0 => odd_byte_in(field, rng),
        1 => field.clear(),
        2 => field.push(rng.pick(&ODD_BYTES)),
        3 if !field.is_empty() => drop(field.pop()),
        _ if is_level => *field = rng.pick(&WRONG_LEVELS).as_bytes().to_vec(),
        _ if is_number => *field = either(rng, &WRONG_NUMBERS, &GOOD_NUMBERS),
        _ => *field = either(rng, &WRONG_TIMES, &GOOD_TIMES),
    }
}

/// A wrong value as a rule, else a good one at a limit.
fn either(rng: &mut Prng, wrong: &[&str], good: &[&str]) -> Field {
    let choices = if rng.chance(85) { wrong } else { good };
    rng.pick(choices).as_bytes().to_vec()
}

pub fn odd_byte_in(field: &mut Field, rng: &mut Prng) {
    if field.is_empty() {
        field.push(rng.pick(&ODD_BYTES));
    } else {
        let at = rng.below(field.len());
        field[at] = rng.pick(&ODD_BYTES);
    }
}

fn damage_field_count(draft: &mut Draft, rng: &mut Prng) {
    let Some(at) = line_with_values(draft, rng) else { return };
    let fields = &mut draft.lines[at];
    match rng.below(5) {
        0 | 1 => drop(fields.pop()),
        2 | 3 => fields.push(Vec::new()),
        _ => {
            let place = rng.below(fields.len() + 1);
            fields.insert(place, b"00:00:01.000".to_vec());
        }
    }
}

/// The value line, or the first, the last or any other element line.
fn line_with_values(draft: &Draft, rng: &mut Prng) -> Option<usize> {
    let last = draft.lines.len().checked_sub(1).filter(|&last| last >= VALUES)?;
    let at = match rng.below(10) {
        0..4 => VALUES,
        4 => BODY.min(last),
        5 | 6 => last,
        _ => BODY.min(last) + rng.below(last - BODY.min(last) + 1),
    };
    Some(at)
}

fn damage_names(draft: &mut Draft, rng: &mut Prng) {
    let at = rng.pick(&[NAMES, ELEMENT_NAMES]);
    let other = NAMES + ELEMENT_NAMES - at;
    if draft.lines.len() <= ELEMENT_NAMES || draft.lines[at].is_empty() {
        return;
    }
    let which = rng.below(draft.lines[at].len());
    match rng.below(10) {
        0 | 1 => odd_byte_in(&mut draft.lines[at][which], rng),
        2 => drop(draft.lines[at].pop()),
        3 => draft.lines[at].push(Vec::new()),
        4 => draft.lines[at][which].make_ascii_uppercase(),
        5 => draft.lines[at].reverse(),
        6 => draft.lines[at] = draft.lines[other].clone(),
        7 => draft.lines[at][which].insert(0, b' '),
        8 => draft.lines[at].last_mut().into_iter().for_each(|field| field.push(b'\r')),
        _ => draft.lines[at][0].splice(0..0, *b"\xef\xbb\xbf").for_each(drop),
    }
}

/// Whole lines: missing, twice, in another order, strange, or cut off after some line.
fn damage_lines(draft: &mut Draft, rng: &mut Prng) {
    let count = draft.lines.len();
    if count == 0 {
        return;
    }
    let at = rng.below(count);
    match rng.below(8) {
        0 | 1 => drop(draft.lines.remove(at)),
        2 => draft.lines.insert(at, draft.lines[at].clone()),
        3 => draft.lines.swap(at, rng.below(count)),
        4 => draft.lines.truncate(1 + rng.below(count.min(BODY + 1))),
        5 => draft.lines.insert(at, strange_line(rng)),
        6 => draft.lines.push(strange_line(rng)),
        _ => draft.lines[at] = strange_line(rng),
    }
}

/// A line on its own; an empty one ends the piece.
fn strange_line(rng: &mut Prng) -> Line {
    line(rng.pick(&[
        "", " ", "\r", ",", ",,", ",,,", "x", "body,,", "br,,", "p,,", "span,,", "div,,", "\0", "level",
    ]))
}

/// Another level, known or unknown, good or out of place.
fn damage_level(draft: &mut Draft, rng: &mut Prng) {
    let choices = if rng.chance(50) { &LEVELS[..] } else { &WRONG_LEVELS[..] };
    let level = rng.pick(choices);
    let elements = draft.lines.len().saturating_sub(BODY);
    if rng.chance(40) || elements == 0 {
        draft.lines.push(element(level, None, None));
    } else if let Some(field) = draft.lines[BODY + rng.below(elements)].first_mut() {
        *field = level.as_bytes().to_vec();
    }
}

/// A nest of one element for each level, the last of which has a name that is almost right.
fn almost_a_level(draft: &mut Draft, rng: &mut Prng) {
    draft.lines.truncate(BODY);
    let depth = 1 + rng.below(LEVELS.len());
    draft.lines.extend(LEVELS[..depth].iter().map(|level| element(level, None, None)));
    if let Some(name) = draft.lines.last_mut().and_then(|fields| fields.first_mut()) {
        almost(name, rng);
    }
}

/// Changes a name by the least that makes it another.
pub fn almost(name: &mut Field, rng: &mut Prng) {
    if name.is_empty() {
        return;
    }
    let at = rng.below(name.len());
    match rng.below(6) {
        0 => name.make_ascii_uppercase(),
        1 => name[at] ^= b' ',
        2 => name[at] = name[at].wrapping_add(1),
        3 => name[at] = name[at].wrapping_sub(1),
        4 => name.insert(at, name[at]),
        _ => drop(name.remove(at)),
    }
}

/// New elements whose times add up to the entry limit, to one less or to one more.
fn push_past_limit(draft: &mut Draft, rng: &mut Prng) {
    draft.lines.truncate(BODY);
    draft.lines.extend(elements_at_limit(rng));
}

pub fn elements_at_limit(rng: &mut Prng) -> Vec<Line> {
    // The limit is parted into written times, one for each level; the last one takes what is left.
    let goal = rng.weighted(&[(3, LIMIT), (1, LIMIT - 1), (4, LIMIT + 1), (1, LIMIT + 1_000_000)]);
    let depths = 1 + rng.below(4);
    let mut base = 0;
    let mut elements = Vec::new();
    for (at, level) in LEVELS.iter().enumerate().take(depths) {
        if at + 1 < depths {
            let part = if rng.chance(70) { Some(rng.within(0..=LIMIT - base)) } else { None };
            let end = rng.chance(30).then(|| rng.within(0..=LIMIT - base));
            base += part.unwrap_or(0);
            elements.push(element(level, part, end));
        } else {
            let rest = goal - base;
            let small = rng.within(0..=(LIMIT - base).min(100));
            elements.push(match rng.below(5) {
                0 | 1 => element(level, Some(rest), None),
                2 => element(level, None, Some(rest)),
                3 => element(level, Some(small), Some(rest)),
                _ => element(level, Some(rest), Some(rest)),
            });
        }
    }
    if rng.chance(15) {
        // A fault right after it: it must not be looked at first. A bad end in the same line must.
        elements.push(strange_line(rng));
    } else if rng.chance(15)
        && let Some(end) = elements.last_mut().and_then(|fields| fields.last_mut())
    {
        *end = time(LIMIT + 1);
    }
    elements
}

/// Changes a few bytes anywhere.
pub fn damage_bytes(bytes: &mut Vec<u8>, rng: &mut Prng) {
    for _ in 0..rng.weighted(&[(6, 1), (2, 2), (1, 5)]) {
        if bytes.is_empty() {
            return;
        }
        let at = rng.below(bytes.len());
        match rng.below(7) {
            0 | 1 => bytes[at] ^= 1 << rng.below(8),
            2 => drop(bytes.remove(at)),
            3 => bytes.insert(at, rng.pick(&ODD_BYTES)),
            4 => bytes[at] = rng.pick(&ODD_BYTES),
            5 => bytes.insert(at, bytes[at]),
            _ => {
                let other = rng.below(bytes.len());
                bytes.swap(at, other);
            }
        }
    }
}
