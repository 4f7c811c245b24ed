//! Whole scripts: ordinary ones, damaged ones, and those that lie at a limit of the program.

use yumdrast_check::replay::MAX_NODES;
use yumdrast_check::stream::MAX_DOCUMENTS;

use super::faults::{damage_line, ninth_node, out_of_place};
use super::feed::Feed;
use super::limits::{
    list_that_does_not_open, run_at_time_limits, script_at_length_limit, table_at_its_limit,
    texts_at_length_limit,
};
use crate::damage::damage_bytes;
use crate::draft::Writer;
use crate::prng::Prng;

type Shape = fn(&mut Prng) -> Vec<u8>;

const SHAPES: [(usize, Shape); 16] = [
    (260, live_run),
    (90, prepared_run),
    (170, crowded_run),
    (110, run_at_time_limits),
    (130, damaged_run),
    (60, noisy_run),
    (40, line_soup),
    (20, byte_soup),
    (30, small_oddity),
    (50, list_that_does_not_open),
    (60, misplaced_line),
    (30, one_node_too_many),
    (20, ends_early),
    (12, texts_at_length_limit),
    (7, table_at_its_limit),
    (11, script_at_length_limit),
];

/// The input of one case.
pub fn input(rng: &mut Prng) -> Vec<u8> {
    rng.weighted(&SHAPES)(rng)
}

pub fn records(rng: &mut Prng) -> usize {
    rng.weighted(&[
        (1, 0),
        (1, 1),
        (3, 4),
        (6, 16),
        (9, 64),
        (1, MAX_DOCUMENTS - 1),
        (1, MAX_DOCUMENTS),
        (1, MAX_DOCUMENTS + 1),
        (1, 65_535),
        (1, 65_536),
    ])
}

pub fn count_of_nodes(rng: &mut Prng) -> usize {
    if rng.chance(30) { 0 } else { rng.below(MAX_NODES + 1) }
}

fn count_of_calls(rng: &mut Prng) -> usize {
    let bound = rng.weighted(&[(2, 4), (6, 30), (6, 60), (2, 150)]);
    rng.below(bound)
}

/// Nodes and calls over a stream.
pub fn run(mut feed: Feed, rng: &mut Prng) -> Feed {
    feed.nodes(count_of_nodes(rng), rng);
    for _ in 0..count_of_calls(rng) {
        feed.call(rng);
    }
    feed
}

pub fn live(rng: &mut Prng) -> Feed {
    Feed::live(records(rng), Writer::new(rng))
}

fn prepared(rng: &mut Prng) -> Feed {
    let most = rng.weighted(&[(1, 1), (4, 6), (4, 25), (1, 200)]);
    Feed::prepared(rng.below(most), rng)
}

/// A feed over either kind of stream, and whether it takes.
fn either(rng: &mut Prng) -> (Feed, bool) {
    let takes = rng.chance(65);
    (if takes { live(rng) } else { prepared(rng) }, takes)
}

fn live_run(rng: &mut Prng) -> Vec<u8> {
    run(live(rng), rng).into_script()
}

fn prepared_run(rng: &mut Prng) -> Vec<u8> {
    run(prepared(rng), rng).into_script()
}

fn crowded_run(rng: &mut Prng) -> Vec<u8> {
    let span = rng.pick(&[3, 8, 20, 60]);
    run(Feed::crowded(records(rng), span), rng).into_script()
}

/// A run with a line that cannot be read, or in another order.
fn damaged_run(rng: &mut Prng) -> Vec<u8> {
    let (feed, _) = either(rng);
    let mut script = run(feed, rng).into_script();
    for _ in 0..rng.weighted(&[(5, 1), (1, 2)]) {
        script = damage_line(&script, rng);
    }
    script
}

/// A run with some bytes changed, wherever they stand.
fn noisy_run(rng: &mut Prng) -> Vec<u8> {
    let (feed, _) = either(rng);
    let mut script = run(feed, rng).into_script();
    damage_bytes(&mut script, rng);
    script
}

/// Lines of the format in an order that nobody would write.
fn line_soup(rng: &mut Prng) -> Vec<u8> {
    const LINES: [&[u8]; 22] = [
        b"live,2\n",
        b"prepared\n",
        b"entry,0,5,7\n",
        b"entry,2,9,8\n",
        b"entry,1,9,8\n",
        b"holder,3\n",
        b"retimer,2\n",
        b"holder,600001\n",
        b"take,1,0,,,,5\n",
        b"take,2,3,,9,,6\n",
        b"take,3,3,5,,2,7\n",
        b"tick,4\n",
        b"tick,0\n",
        b"active,0,20,4\n",
        b"active,2,9,5\n",
        b"interval,0,20,2\n",
        b"interval,0,359999999,1\n",
        b"text\n",
        b"\n",
        b"number,available,content,dur\n",
        b"4,00:00:00.005,5,\nlevel,begin,end\nbody,,\n",
        b"text\nnumber,available,content,dur\n4,00:00:00.005,5,\nlevel,begin,end\nbody,,\n\n",
    ];
    // Mostly from a stream line on to a node or two, or nothing much would be run.
    let mut script = Vec::new();
    if rng.chance(85) {
        script.extend_from_slice(rng.pick(&LINES[..2]));
    }
    for _ in 0..rng.below(3) {
        script.extend_from_slice(rng.pick(&LINES[2..8]));
    }
    for _ in 0..rng.below(25) {
        let from = if rng.chance(90) { 8 } else { 0 };
        script.extend_from_slice(rng.pick(&LINES[from..]));
    }
    script
}

fn byte_soup(rng: &mut Prng) -> Vec<u8> {
    const ALPHABET: &[u8] = b"\n\n\n,,,0125takeivlh \r\0\x80\xff";
    let any = rng.chance(20);
    let mut script = if rng.chance(50) { b"live,4\n".to_vec() } else { Vec::new() };
    script.extend((0..rng.below(300)).map(|_| if any { rng.below(256) as u8 } else { rng.pick(ALPHABET) }));
    script
}

fn small_oddity(rng: &mut Prng) -> Vec<u8> {
    const ODDITIES: [&[u8]; 22] = [
        b"",
        b"\n",
        b"\n\n\n",
        b"live,4",
        b"\nlive,4\n",
        b"live,65537\n",
        b"live,\n",
        b"live\n",
        b"live,04\n",
        b"live,4\r\n",
        b"prepared",
        b"prepared\n\n",
        b"prepared,\n",
        b"Prepared\n",
        b" \n",
        b"\r\n",
        b"\0",
        b"text\n",
        b"tick,0\n",
        b"\n\nholder,0\n",
        b"\xef\xbb\xbflive,4\n",
        b"live,4\ntext\n",
    ];
    match rng.below(3) {
        0 => vec![b'\n'; rng.below(60)],
        1 => [rng.pick(&ODDITIES), &live_run(rng)[..]].concat(),
        _ => rng.pick(&ODDITIES).to_vec(),
    }
}

fn misplaced_line(rng: &mut Prng) -> Vec<u8> {
    let (mut feed, takes) = either(rng);
    if rng.chance(60) {
        feed = run(feed, rng);
    }
    out_of_place(&mut feed, takes, rng);
    feed.into_script()
}

fn one_node_too_many(rng: &mut Prng) -> Vec<u8> {
    let (mut feed, _) = either(rng);
    ninth_node(&mut feed, rng);
    feed.into_script()
}

/// A run that stops at any of its bytes.
fn ends_early(rng: &mut Prng) -> Vec<u8> {
    let (feed, _) = either(rng);
    let mut script = run(feed, rng).into_script();
    script.truncate(rng.below(script.len() + 1));
    script
}

#[cfg(test)]
mod tests {
    use super::*;
    use yumdrast_check::replay::{Replay, Run};

    /// The run of a script that has to be read to its end.
    fn read(script: &[u8]) -> Run {
        match Replay::of(script) {
            Replay::Run(run) if run.unreadable.is_none() => run,
            other => panic!("{}\n{other}", script.escape_ascii()),
        }
    }

    #[test]
    fn a_case_is_the_same_each_time() {
        let made = |seed, index| input(&mut Prng::of_case(seed, index));
        assert!((0..50).all(|index| made(1, index) == made(1, index)));
        assert!((0..50).any(|index| made(1, index) != made(2, index)));
    }

    #[test]
    fn ordinary_runs_are_readable() {
        let shapes: [Shape; 4] = [live_run, prepared_run, crowded_run, run_at_time_limits];
        for index in 0..200 {
            let rng = &mut Prng::of_case(5, index);
            for shape in shapes {
                read(&shape(rng));
            }
        }
        let full = read(&table_at_its_limit(&mut Prng::of_case(5, 0)));
        assert!(full.replies.len() >= MAX_DOCUMENTS - 1);
    }
}
