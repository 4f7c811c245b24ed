//! Whole inputs: ordinary feeds, damaged ones, and those that lie at a limit of the program.

use yumdrast_check::showplan::{MAX_INPUT, RECORDS};
use yumdrast_check::text::MAX_TEXT;

use crate::damage::{damage, damage_bytes, elements_at_limit};
use crate::draft::{Draft, LIMIT, Writer, line, values};
use crate::prng::Prng;

type Shape = fn(&mut Prng) -> Vec<u8>;

const SHAPES: [(usize, Shape); 12] = [
    (200, good_feed),
    (440, damaged_feed),
    (90, feed_at_time_limits),
    (60, noisy_feed),
    (50, line_soup),
    (30, byte_soup),
    (30, small_oddity),
    (30, texts_at_length_limit),
    (20, carriage_returns),
    (20, tiny_pieces),
    (16, too_many_documents),
    (14, input_at_length_limit),
];

/// The input of one case.
pub fn input(rng: &mut Prng) -> Vec<u8> {
    rng.weighted(&SHAPES)(rng)
}

/// Pieces with blank lines between them, now and then more of them than needed.
fn joined(pieces: &[Vec<u8>], rng: &mut Prng) -> Vec<u8> {
    let odd = rng.chance(20);
    let mut blank_lines = |usual: usize| usual + if odd && rng.chance(40) { rng.below(4) } else { 0 };
    let mut input = vec![b'\n'; blank_lines(0)];
    for (at, piece) in pieces.iter().enumerate() {
        let between = if at == 0 { 0 } else { blank_lines(1) };
        input.extend(std::iter::repeat_n(b'\n', between));
        input.extend(piece);
    }
    input.extend(std::iter::repeat_n(b'\n', blank_lines(0)));
    input
}

fn count_of_documents(rng: &mut Prng) -> usize {
    rng.weighted(&[(2, 1), (4, 5), (6, 12), (3, 25), (1, 60)])
}

fn good_feed(rng: &mut Prng) -> Vec<u8> {
    let mut writer = Writer::new(rng);
    let pieces: Vec<_> = (0..count_of_documents(rng)).map(|_| writer.next(rng).to_bytes()).collect();
    joined(&pieces, rng)
}

/// Mostly good, with faults at any place and documents that come late.
fn damaged_feed(rng: &mut Prng) -> Vec<u8> {
    let mut writer = Writer::new(rng);
    let share = rng.pick(&[8, 20, 20, 50]);
    let mut pieces: Vec<_> = (0..count_of_documents(rng))
        .map(|_| if rng.chance(share) { faulty(&mut writer, rng) } else { writer.next(rng).to_bytes() })
        .collect();
    if rng.chance(6) {
        pieces.last_mut().and_then(Vec::pop);
    }
    joined(&pieces, rng)
}

fn faulty(writer: &mut Writer, rng: &mut Prng) -> Vec<u8> {
    if rng.chance(20) {
        return writer.late(rng).to_bytes();
    }
    // More than one fault in a text: only the first in order may be answered. A late document with a
    // fault is answered for the fault.
    let mut draft = if rng.chance(10) { writer.late(rng) } else { writer.next(rng) };
    for _ in 0..rng.weighted(&[(7, 1), (3, 2), (1, 3)]) {
        damage(&mut draft, rng);
    }
    draft.to_bytes()
}

/// Times at the entry limit: availables, durs, and sums of written times.
fn feed_at_time_limits(rng: &mut Prng) -> Vec<u8> {
    let mut available = LIMIT - rng.within(0..=10);
    let pieces: Vec<_> = (1..=1 + rng.within(0..=7))
        .map(|number| {
            available = available.saturating_add(rng.within(0..=3)).min(LIMIT + 1);
            // One past the limit is written too; it is refused as a time.
            let dur = rng.pick(&[None, None, Some(0), Some(1), Some(2), Some(LIMIT), Some(LIMIT + 1)]);
            let at = if rng.chance(50) { number } else { available };
            let draft = Draft::new(values(number, at, rng.pick(&[0, 1, u32::MAX]), dur));
            let elements = if rng.chance(70) { elements_at_limit(rng) } else { vec![line("body,,")] };
            draft.with(elements).to_bytes()
        })
        .collect();
    joined(&pieces, rng)
}

/// A good feed with some bytes changed, wherever they stand.
fn noisy_feed(rng: &mut Prng) -> Vec<u8> {
    let mut input = good_feed(rng);
    damage_bytes(&mut input, rng);
    input
}

/// Lines of the format in an order that nobody would write.
fn line_soup(rng: &mut Prng) -> Vec<u8> {
    const LINES: [&[u8]; 18] = [
        b"number,available,content,dur\n",
        b"level,begin,end\n",
        b"body,,\n",
        b"div,,\n",
        b"p,,\n",
        b"span,,\n",
        b"\n",
        b"1,00:00:00.000,1,\n",
        b"2,00:00:01.000,2,00:00:05.000\n",
        b"3,00:00:02.000,3,\n",
        b"0,00:00:00.000,1,\n",
        b"div,00:00:01.000,\n",
        b"p,00:00:02.000,00:00:01.000\n",
        b"body,98:39:59.999,\n",
        b"div,98:39:59.999,\n",
        b"span,00:00:00.001,\n",
        b",,\n",
        b"number,available,content,dur\n",
    ];
    let mut input = Vec::new();
    for _ in 0..rng.below(12) {
        // The lines that a text begins with mostly come in their order, or little else would be reached.
        let kept = rng.below(5);
        for good in [LINES[0], rng.pick(&LINES[7..10]), LINES[1], LINES[2]].iter().take(kept) {
            input.extend_from_slice(good);
        }
        for _ in 0..rng.below(6) {
            input.extend_from_slice(rng.pick(&LINES));
        }
        if rng.chance(60) {
            input.push(b'\n');
        }
    }
    input
}

fn byte_soup(rng: &mut Prng) -> Vec<u8> {
    const ALPHABET: &[u8] = b"\n\n\n\n,,,0127:.bodyivspan\r \0\x80\xff";
    let any = rng.chance(20);
    (0..rng.below(400)).map(|_| if any { rng.below(256) as u8 } else { rng.pick(ALPHABET) }).collect()
}

fn small_oddity(rng: &mut Prng) -> Vec<u8> {
    const ODDITIES: [&[u8]; 12] = [
        b"",
        b"\n",
        b"\n\n",
        b"x",
        b"x\n",
        b"\nx",
        b"\r\n",
        b"\0",
        b"\0\n",
        b" \n \n\n \n",
        b"\xef\xbb\xbf\n",
        b",",
    ];
    match rng.below(4) {
        0 => vec![b'\n'; rng.below(60)],
        1 => {
            // A good feed that ends at any of its bytes.
            let mut input = good_feed(rng);
            input.truncate(rng.below(input.len() + 1));
            input
        }
        2 => [rng.pick(&ODDITIES), &good_feed(rng)[..], rng.pick(&ODDITIES)].concat(),
        _ => rng.pick(&ODDITIES).to_vec(),
    }
}

fn carriage_returns(rng: &mut Prng) -> Vec<u8> {
    let whole = rng.chance(50);
    let mut input = Vec::new();
    for byte in good_feed(rng) {
        if byte == b'\n' && (whole || rng.chance(5)) {
            input.push(b'\r');
        }
        input.push(byte);
    }
    input
}

/// Texts of 4,096 bytes, a byte less and a byte more, some with a fault far down.
fn texts_at_length_limit(rng: &mut Prng) -> Vec<u8> {
    let mut writer = Writer::plain();
    let pieces: Vec<_> = (0..1 + rng.below(3))
        .map(|_| {
            let length =
                rng.weighted(&[(4, MAX_TEXT), (3, MAX_TEXT + 1), (1, MAX_TEXT - 1), (1, MAX_TEXT + 300)]);
            let mut bytes = padded(writer.next(rng), length, rng).to_bytes();
            match rng.below(8) {
                0 => {
                    let tail = bytes.len() - rng.below(60) - 1;
                    bytes[tail] = rng.pick(b"\nx,:0");
                }
                1 => drop(bytes.pop()),
                _ => (),
            }
            bytes
        })
        .collect();
    joined(&pieces, rng)
}

/// Adds elements until the text has exactly `length` bytes.
fn padded(mut draft: Draft, length: usize, rng: &mut Prng) -> Draft {
    const P: usize = 4;
    const SPAN: usize = 7;
    draft.lines.push(line("div,,"));
    draft.lines.extend(std::iter::repeat_n(line("div,00:00:01.000,"), rng.below(100)));
    let room = length - draft.to_bytes().len();
    // Up to three spans bring what is left to a whole number of p lines.
    let spans = (0..P).find(|spans| room >= spans * SPAN && (room - spans * SPAN).is_multiple_of(P));
    let spans = spans.expect("there is room for some lines");
    draft.lines.extend(std::iter::repeat_n(line("p,,"), (room - spans * SPAN) / P));
    draft.lines.extend(std::iter::repeat_n(line("span,,"), spans));
    draft
}

/// Many pieces of a byte or two, at times as many as there can be.
fn tiny_pieces(rng: &mut Prng) -> Vec<u8> {
    let count = rng.weighted(&[(12, 30), (5, 300), (2, 2_000), (1, MAX_INPUT / 3)]);
    let mut input: Vec<u8> = (0..count).flat_map(|_| [rng.pick(b"xxx,0 \r\0"), b'\n', b'\n']).collect();
    if rng.chance(50) {
        input.push(b'x');
    }
    input
}

/// Around 256 documents and more, with late and faulty ones before and after the last record is used.
fn too_many_documents(rng: &mut Prng) -> Vec<u8> {
    let mut writer = Writer::plain();
    let count = rng.weighted(&[
        (1, RECORDS - 1),
        (2, RECORDS),
        (3, RECORDS + 1),
        (3, RECORDS + 40),
        (1, RECORDS + 300),
    ]);
    let share = rng.pick(&[0, 0, 2, 5]);
    let mut pieces: Vec<_> = (0..count)
        .map(|_| if rng.chance(share) { faulty(&mut writer, rng) } else { writer.next(rng).to_bytes() })
        .collect();
    for _ in 0..rng.below(6) {
        pieces.push(faulty(&mut writer, rng));
        pieces.push(writer.next(rng).to_bytes());
    }
    joined(&pieces, rng)
}

/// Inputs of 65,536 bytes, a byte less and a byte more, and far too long ones.
fn input_at_length_limit(rng: &mut Prng) -> Vec<u8> {
    let length = rng.weighted(&[
        (5, MAX_INPUT),
        (5, MAX_INPUT + 1),
        (1, MAX_INPUT - 1),
        (1, MAX_INPUT + 2),
        (1, MAX_INPUT + 4_097),
        (1, 2 * MAX_INPUT),
        (1, 200_000),
    ]);
    let mut input = good_feed(rng);
    if rng.chance(30) {
        // Long pieces: few documents, each near its own limit.
        let mut writer = Writer::plain();
        while input.len() + 2 * MAX_TEXT < length {
            input.push(b'\n');
            input.extend(padded(writer.next(rng), MAX_TEXT - rng.below(2), rng).to_bytes());
        }
    }
    let filler: &[u8] = rng.pick(&[&b"\n"[..], b"x", b"\nx\n", b"\0", b"p,,\n"]);
    let room = length.saturating_sub(input.len());
    input.extend(filler.iter().cycle().take(room));
    input.truncate(length);
    if rng.chance(50) {
        input[length - 1] = b'\n';
    }
    input
}

#[cfg(test)]
mod tests {
    use super::*;
    use yumdrast_check::showplan::Plan;

    #[test]
    fn a_case_is_the_same_each_time() {
        let made = |seed, index| input(&mut Prng::of_case(seed, index));
        assert!((0..50).all(|index| made(1, index) == made(1, index)));
        assert!((0..50).any(|index| made(1, index) != made(2, index)));
    }

    #[test]
    fn padding_is_exact_and_good() {
        let rng = &mut Prng::of_case(3, 0);
        for length in MAX_TEXT - 5..=MAX_TEXT {
            let text = padded(Writer::plain().next(rng), length, rng).to_bytes();
            assert_eq!(text.len(), length);
            assert_eq!(Plan::of(&text).accepted, 1);
        }
    }

    #[test]
    fn plain_documents_are_all_good() {
        let rng = &mut Prng::of_case(4, 0);
        let mut writer = Writer::plain();
        let pieces: Vec<_> = (0..RECORDS).map(|_| writer.next(rng).to_bytes()).collect();
        assert_eq!(Plan::of(&joined(&pieces, rng)).accepted, RECORDS);
    }
}
