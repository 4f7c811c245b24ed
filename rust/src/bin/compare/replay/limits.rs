//! Scripts that lie at a limit: of times and delays, of a list, a table or a text, and of the script itself.

use yumdrast_check::node::MAX_ADJUSTMENT;
use yumdrast_check::replay::{MAX_INPUT, MAX_NODES};
use yumdrast_check::stream::MAX_DOCUMENTS;
use yumdrast_check::text::MAX_TEXT;

use super::faults::out_of_place;
use super::feed::Feed;
use super::shapes::{count_of_nodes, live, records, run};
use crate::draft::{LIMIT, Writer};
use crate::prng::Prng;

/// Times and delays up to the last of all.
pub fn run_at_time_limits(rng: &mut Prng) -> Vec<u8> {
    let pace = rng.pick(&[1, 2, 5]);
    let writer = Writer { available: LIMIT - rng.within(0..=40), pace, ..Writer::plain() };
    let mut feed = Feed::live(records(rng), writer);
    if rng.chance(60) {
        for _ in 0..MAX_NODES {
            feed.node(MAX_ADJUSTMENT, rng);
        }
    }
    run(feed, rng).into_script()
}

/// A list with one entry that is not as it must be, or one entry too many; or, as near as can be, good.
pub fn list_that_does_not_open(rng: &mut Prng) -> Vec<u8> {
    if rng.chance(15) {
        let count = rng.pick(&[MAX_DOCUMENTS - 1, MAX_DOCUMENTS, MAX_DOCUMENTS + 1, MAX_DOCUMENTS + 500]);
        let mut feed = Feed::prepared(count, rng);
        for _ in 0..rng.below(20) {
            feed.call(rng);
        }
        return feed.into_script();
    }
    let mut feed = Feed::prepared(rng.below(4), rng);
    let (begin, end) = rng.pick(&[
        (LIMIT - 1, LIMIT),
        (LIMIT - 1, LIMIT - 1),
        (LIMIT, LIMIT),
        (LIMIT, LIMIT + 1),
        (LIMIT - 1, LIMIT + 1),
        (LIMIT, LIMIT - 1),
        (0, 1),
        (LIMIT - 1, u32::MAX),
    ]);
    feed.entry(begin, end, 5);
    if rng.chance(30) {
        let begin = begin - rng.within(0..=1).min(begin);
        feed.entry(begin, LIMIT, 6);
    }
    if rng.chance(30) {
        out_of_place(&mut feed, false, rng);
    }
    run(feed, rng).into_script()
}

/// Texts of 4,096 bytes, a byte less and a byte more.
pub fn texts_at_length_limit(rng: &mut Prng) -> Vec<u8> {
    let mut feed = Feed::live(records(rng), Writer::plain());
    feed.nodes(count_of_nodes(rng), rng);
    for number in 1..=1 + rng.within(0..=3) {
        let length = rng.weighted(&[(4, MAX_TEXT), (3, MAX_TEXT + 1), (1, MAX_TEXT - 1), (1, 3 * MAX_TEXT)]);
        let mut text =
            format!("number,available,content,dur\n{number},00:00:00.00{number},5,\nlevel,begin,end\n");
        text.push_str("body,,\ndiv,,\n");
        while text.len() + 11 <= length {
            text.push_str("p,,\n");
        }
        // What is left is filled by a line of its own: eight to eleven bytes.
        text.push_str("p,");
        let room = length - text.len() - 1;
        text.push_str(if rng.chance(70) { &",,,,,,,,,"[..room.min(9)] } else { &"xxxxxxxxx"[..room.min(9)] });
        text.push('\n');
        feed.text_of(text.as_bytes());
        feed.question(rng);
    }
    feed.into_script()
}

/// As many documents as a table can hold, one less and some more.
pub fn table_at_its_limit(rng: &mut Prng) -> Vec<u8> {
    let records = rng.pick(&[MAX_DOCUMENTS - 1, MAX_DOCUMENTS, MAX_DOCUMENTS + 1, 65_536]);
    let mut feed = Feed::live(records, Writer::plain());
    feed.nodes(count_of_nodes(rng), rng);
    for _ in 0..rng.pick(&[MAX_DOCUMENTS - 1, MAX_DOCUMENTS + 1, MAX_DOCUMENTS + 60]) {
        feed.take(rng);
        if rng.chance(2) {
            feed.question(rng);
        }
    }
    for _ in 0..rng.below(60) {
        feed.call(rng);
    }
    feed.into_script()
}

/// Scripts of 1,048,576 bytes, a byte less and a byte more, and far too long ones.
pub fn script_at_length_limit(rng: &mut Prng) -> Vec<u8> {
    const FILLERS: [&[u8]; 12] = [
        b"\n",
        b"tick,0\n",
        b"text\n\n",
        b"text\nx\n\n",
        b"active,0,1,0\n",
        b"interval,0,359999999,1\n",
        b"holder,600001\n",
        b"entry,0,1,0\n",
        b"take,1,355199999,,,,1\n",
        b"x",
        b"text",
        b"body,,\n",
    ];
    let length = rng.weighted(&[
        (6, MAX_INPUT),
        (4, MAX_INPUT + 1),
        (2, MAX_INPUT - 1),
        (1, MAX_INPUT + 2),
        (1, MAX_INPUT + 65_536),
        (1, 2 * MAX_INPUT),
    ]);
    let filler = rng.pick(&FILLERS);
    let mut feed = if filler.starts_with(b"entry") { Feed::prepared(3, rng) } else { live(rng) };
    if !filler.starts_with(b"entry") && !filler.starts_with(b"holder") {
        feed.nodes(count_of_nodes(rng), rng);
        for _ in 0..rng.below(8) {
            feed.call(rng);
        }
    }
    if filler == b"body,,\n" {
        feed.line("text");
    }
    let room = length - feed.len();
    let mut script = feed.into_script();
    script.extend(filler.iter().cycle().take(room));
    if rng.chance(60) {
        script[length - 1] = b'\n';
    }
    script
}

#[cfg(test)]
mod tests {
    use super::*;

    #[test]
    fn texts_have_the_length_wanted() {
        let lengths: Vec<usize> = (0..40)
            .flat_map(|index| {
                let script = texts_at_length_limit(&mut Prng::of_case(6, index));
                let texts = script.split(|&byte| byte == b'\n').collect::<Vec<_>>();
                texts
                    .split(|line| line.is_empty())
                    .filter_map(|lines| {
                        let at = lines.iter().position(|line| line == b"text")?;
                        Some(lines[at + 1..].iter().map(|line| line.len() + 1).sum())
                    })
                    .collect::<Vec<_>>()
            })
            .collect();
        for length in [MAX_TEXT - 1, MAX_TEXT, MAX_TEXT + 1] {
            assert!(lengths.contains(&length), "{lengths:?}");
        }
    }
}
