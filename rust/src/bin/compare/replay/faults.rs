//! Damage to a script: in a line or a field, or by a line that may not stand where it does.

use yumdrast_check::replay::MAX_NODES;

use crate::damage::{WRONG_NUMBERS, almost, odd_byte_in};
use crate::prng::Prng;
use crate::replay::feed::Feed;

/// Damages one line of a script, as a rule so that it cannot be read.
pub fn damage_line(script: &[u8], rng: &mut Prng) -> Vec<u8> {
    let mut lines: Vec<Vec<u8>> = script.split_inclusive(|&byte| byte == b'\n').map(<[u8]>::to_vec).collect();
    if lines.is_empty() {
        return Vec::new();
    }
    // The first line has rules of its own.
    let at = if rng.chance(10) { 0 } else { rng.below(lines.len()) };
    match rng.below(10) {
        0 => drop(lines.remove(at)),
        1 => lines.insert(at, lines[at].clone()),
        2 => {
            let other = rng.below(lines.len());
            lines.swap(at, other);
        }
        3 => lines.insert(at, strange_line(rng)),
        _ => lines[at] = with_fault(&lines[at], rng),
    }
    lines.concat()
}

/// The line with another word, another field, or more or fewer fields.
fn with_fault(line: &[u8], rng: &mut Prng) -> Vec<u8> {
    let bare = line.strip_suffix(b"\n").unwrap_or(line);
    let mut fields: Vec<Vec<u8>> = bare.split(|&byte| byte == b',').map(<[u8]>::to_vec).collect();
    let which = rng.below(fields.len());
    match rng.below(12) {
        0 => almost(&mut fields[0], rng),
        1 => drop(fields.pop()),
        2 => fields.push(rng.pick(&[&b""[..], b"0", b"5"]).to_vec()),
        3 => odd_byte_in(&mut fields[which], rng),
        4 => fields[which].clear(),
        5 => fields[which].push(rng.pick(b" \r\t0,")),
        _ if which > 0 => fields[which] = rng.pick(&WRONG_NUMBERS).as_bytes().to_vec(),
        _ => fields[which].extend_from_slice(b"s"),
    }
    let mut damaged = fields.join(&b',');
    damaged.push(b'\n');
    damaged
}

fn strange_line(rng: &mut Prng) -> Vec<u8> {
    const LINES: [&[u8]; 14] = [
        b"\n",
        b" \n",
        b"\r\n",
        b",\n",
        b"node,reply\n",
        b"text\n",
        b"text,\n",
        b"live\n",
        b"prepared,\n",
        b"holder,0\n",
        b"active,0,1,0\n",
        b"take,1,0,,,,0\n",
        b"tick,0\n",
        b"\0\n",
    ];
    rng.pick(&LINES).to_vec()
}

/// Ends a good feed with a line that may not stand there, and some more lines after it.
pub fn out_of_place(feed: &mut Feed, live: bool, rng: &mut Prng) {
    let line = match (rng.below(8), live) {
        (0, _) => rng.pick(&["live,64", "prepared", "live,0"]),
        (1 | 2, true) => rng.pick(&["entry,0,1,0", "entry,5,5,5"]),
        (1 | 2, false) => {
            // A refused node and a refused call count, too.
            feed.line(rng.pick(&["holder,600001", "holder,0", "active,0,0,0", "active,0,1,0"]));
            "entry,355199998,355199999,0"
        }
        (3 | 4, _) => {
            feed.line(rng.pick(&["active,0,0,0", "active,0,1,0", "interval,0,1,0"]));
            rng.pick(&["holder,0", "retimer,600000", "retimer,600001"])
        }
        (_, false) => rng.pick(&["take,1,0,,,,5", "tick,5", "tick,0", "text", "take,0,0,,,,0"]),
        (_, true) => {
            rng.pick(&["live,65537", "live,4294967295", "Tick,5", "text,", "tick,5,", "take,1,0,,,5"])
        }
    };
    feed.line(line);
    for _ in 0..rng.below(4) {
        feed.call(rng);
    }
}

/// Eight nodes and a line that would make nine.
pub fn ninth_node(feed: &mut Feed, rng: &mut Prng) {
    feed.nodes(MAX_NODES, rng);
    feed.line(rng.pick(&[
        "holder,0",
        "retimer,0",
        "holder,1",
        "holder,600000",
        "retimer,600001",
        "retimer,5",
    ]));
    for _ in 0..rng.below(6) {
        feed.call(rng);
    }
}
