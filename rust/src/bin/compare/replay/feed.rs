//! Good scripts, line by line: a feed knows what it has sent so far, so that it can ask about moments and
//! numbers that matter, and can send what is refused.

use yumdrast_check::clock::Moment;
use yumdrast_check::node::{MAX_ADJUSTMENT, MAX_TOTAL};
use yumdrast_check::replay::MAX_NODES;

use crate::damage::damage;
use crate::draft::{LIMIT, Writer};
use crate::prng::Prng;

pub const LAST: u32 = Moment::LAST.0;

/// A script that is being written. All of it is readable.
pub struct Feed {
    script: Vec<u8>,
    writer: Writer,
    takes: bool,
    /// Times are written anew within this span, or near the writer's available.
    span: Option<u32>,
    /// The sum of the adjustments that stand, and how many do.
    pub total: u32,
    pub standing: usize,
    /// Times that have been sent, not yet delayed.
    times: Vec<u32>,
}

impl Feed {
    fn new(writer: Writer, span: Option<u32>, takes: bool) -> Feed {
        Feed { script: Vec::new(), writer, takes, span, total: 0, standing: 0, times: vec![0] }
    }

    pub fn live(records: usize, writer: Writer) -> Feed {
        let mut feed = Feed::new(writer, None, true);
        feed.line(format!("live,{records}"));
        feed
    }

    /// All times lie so close together that most of them meet.
    pub fn crowded(records: usize, span: u32) -> Feed {
        let writer = Writer { pace: 1 + span / 8, ..Writer::plain() };
        let mut feed = Feed::new(writer, Some(span), true);
        feed.line(format!("live,{records}"));
        feed
    }

    /// A prepared list that opens.
    pub fn prepared(count: usize, rng: &mut Prng) -> Feed {
        let mut feed = Feed::new(Writer::new(rng), None, false);
        feed.line("prepared");
        let pace = feed.writer.pace;
        let mut begin = feed.writer.available.min(LIMIT - 1);
        for number in 1..=count {
            begin = (begin + rng.within(0..=pace)).min(LIMIT - 1);
            let any = 1 + rng.within(0..=2 * pace);
            let length = rng.weighted(&[(1, 1), (4, pace.max(1)), (1, LIMIT), (4, any)]);
            feed.entry(begin, begin.saturating_add(length).min(LIMIT), feed.writer.content(rng));
            feed.writer.number = number as u32;
        }
        feed
    }

    pub fn entry(&mut self, begin: u32, end: u32, content: u32) {
        self.times.extend([begin, end]);
        self.line(format!("entry,{begin},{end},{content}"));
    }

    pub fn line(&mut self, line: impl AsRef<[u8]>) {
        self.script.extend_from_slice(line.as_ref());
        self.script.push(b'\n');
    }

    pub fn into_script(self) -> Vec<u8> {
        self.script
    }

    pub fn len(&self) -> usize {
        self.script.len()
    }

    /// A node line; one that would be the ninth to stand is left out.
    pub fn node(&mut self, length: u32, rng: &mut Prng) {
        let good = length <= MAX_ADJUSTMENT && self.total + length <= MAX_TOTAL;
        if good && self.standing == MAX_NODES {
            return;
        }
        if good {
            self.total += length;
            self.standing += 1;
        }
        self.line(format!("{},{length}", rng.pick(&["holder", "retimer"])));
    }

    /// So many nodes that stand, and some that do not.
    pub fn nodes(&mut self, count: usize, rng: &mut Prng) {
        const REFUSED: [u32; 4] = [600_001, 1_000_000, 4_800_001, u32::MAX];
        let most = rng.pick(&[0, 1, 5, 3_000, 3_000, 60_000, 599_999, MAX_ADJUSTMENT]);
        let all_most = rng.chance(30);
        while self.standing < count {
            if rng.chance(4) {
                self.node(rng.pick(&REFUSED), rng);
            }
            let length = if all_most { most } else { rng.within(0..=most) };
            self.node(length, rng);
        }
        if self.standing == MAX_NODES {
            // Past the sum of all; where it is not, these would stand, and are left out.
            for length in [1, MAX_ADJUSTMENT, u32::MAX] {
                if rng.chance(40) {
                    self.node(length, rng);
                }
            }
        }
    }

    /// One call, good as a rule.
    pub fn call(&mut self, rng: &mut Prng) {
        if rng.chance(8) {
            self.line("");
        }
        if !self.takes {
            return self.question(rng);
        }
        match rng.below(100) {
            0..30 => self.take(rng),
            30..36 => self.odd_take(rng),
            36..44 => self.tick(rng),
            44..47 => self.odd_tick(rng),
            47..54 => self.text(rng),
            54..57 => self.odd_text(rng),
            _ => self.question(rng),
        }
    }

    pub fn take(&mut self, rng: &mut Prng) {
        self.writer.step(rng);
        let available = self.writer.available;
        let dur = if rng.chance(40) { self.length(rng) } else { None };
        let begin = rng.chance(40).then(|| self.near(available, rng));
        let end = rng.chance(40).then(|| self.near(available, rng));
        // Most ends lie after their begins, but they need not.
        let end = end.map(|end| if rng.chance(70) { end.max(begin.unwrap_or(available)) } else { end });
        let content = self.writer.content(rng);
        self.take_line([Some(self.writer.number), Some(available), begin, end, dur, Some(content)]);
    }

    /// Number, available, begin, end, dur, content.
    fn take_line(&mut self, values: [Option<u32>; 6]) {
        self.times.extend(values[1..4].iter().flatten());
        let fields = values.map(|value| value.map_or_else(String::new, |value| value.to_string()));
        self.line(format!("take,{}", fields.join(",")));
    }

    /// A take with one or two faults; the first in order is the one to be answered.
    fn odd_take(&mut self, rng: &mut Prng) {
        let before = self.writer.clone();
        self.writer.step(rng);
        let mut values =
            [Some(self.writer.number), Some(self.writer.available), None, None, self.length(rng), Some(0)];
        for _ in 0..rng.weighted(&[(3, 1), (2, 2)]) {
            match rng.below(10) {
                0 | 1 => values[0] = Some(0),
                2 | 3 => {
                    let past = rng.pick(&[LIMIT + 1, LIMIT + 1, LAST, LAST + 1, u32::MAX]);
                    values[rng.within(1..=4) as usize] = Some(past);
                }
                4..7 => values[1] = before.available.checked_sub(rng.within(1..=2)),
                _ => values[0] = before.number.checked_sub(rng.within(0..=2)),
            }
        }
        // Where there is nothing to go back to, it is a good take after all.
        values[0] = values[0].or(Some(self.writer.number));
        values[1] = values[1].or(Some(self.writer.available));
        self.take_line(values);
        self.writer = before;
    }

    pub fn tick(&mut self, rng: &mut Prng) {
        let to = self.writer.available.saturating_add(rng.within(0..=self.writer.pace)).min(LIMIT);
        self.writer.available = to;
        self.times.push(to);
        self.line(format!("tick,{to}"));
    }

    fn odd_tick(&mut self, rng: &mut Prng) {
        let entry = self.writer.available;
        match rng.below(10) {
            0..5 => self.line(format!("tick,{}", entry.saturating_sub(rng.within(1..=2)))),
            5..8 => self.line(format!("tick,{}", rng.pick(&[LIMIT + 1, LIMIT + 1, LAST, u32::MAX]))),
            8 => self.line(format!("tick,{entry}")),
            // The last tick that there can be.
            _ if rng.chance(20) => {
                self.writer.available = LIMIT;
                self.line(format!("tick,{LIMIT}"));
            }
            _ => self.line(format!("tick,{}", entry.saturating_sub(1))),
        }
    }

    pub fn text(&mut self, rng: &mut Prng) {
        let text = self.writer.next(rng).to_bytes();
        self.times.push(self.writer.available);
        self.text_of(&text);
    }

    /// A text that is late or faulty, or both.
    fn odd_text(&mut self, rng: &mut Prng) {
        let before = self.writer.clone();
        let mut draft = if rng.chance(35) { self.writer.late(rng) } else { self.writer.next(rng) };
        if rng.chance(75) {
            damage(&mut draft, rng);
        }
        let mut text = draft.to_bytes();
        if rng.chance(5) {
            text.clear();
        }
        // A blank line would end the text, and the lines after it would be read as calls.
        while let Some(at) = text.windows(2).position(|pair| pair == b"\n\n") {
            text.remove(at);
        }
        if text.first() == Some(&b'\n') {
            text.remove(0);
        }
        self.text_of(&text);
        self.writer = before;
    }

    pub fn text_of(&mut self, text: &[u8]) {
        self.line("text");
        self.script.extend_from_slice(text);
        self.line("");
    }

    pub fn question(&mut self, rng: &mut Prng) {
        let (begin, end) = if rng.chance(5) { self.no_window(rng) } else { self.window(rng) };
        if rng.chance(65) {
            let at = self.moment(rng);
            self.line(format!("active,{begin},{end},{at}"));
        } else {
            let number = self.number(rng);
            self.line(format!("interval,{begin},{end},{number}"));
        }
    }

    fn window(&self, rng: &mut Prng) -> (u32, u32) {
        let (one, other) = match rng.below(12) {
            0..3 => (0, LAST),
            3 => (0, LIMIT),
            4 => (self.total, LIMIT + self.total),
            5 => (self.moment(rng), LAST),
            6 => (0, self.moment(rng)),
            7 => {
                let at = self.moment(rng);
                (at.saturating_sub(1), at)
            }
            _ => (self.moment(rng), self.moment(rng)),
        };
        let end = one.max(other).clamp(1, LAST);
        (one.min(other).min(end - 1), end)
    }

    fn no_window(&self, rng: &mut Prng) -> (u32, u32) {
        let at = self.moment(rng);
        match rng.below(6) {
            0 => (at, at),
            1 => (at, at.saturating_sub(1)),
            2 => (0, LAST + 1),
            3 => (LAST, LAST),
            4 => (rng.pick(&[0, LAST]), u32::MAX),
            _ => (at, rng.within(0..=at)),
        }
    }

    /// A moment to ask about: at some limit or next to it, or at or next to a time of the stack.
    fn moment(&self, rng: &mut Prng) -> u32 {
        let settled = self.writer.available + self.total;
        let sent = |rng: &mut Prng| rng.pick(&self.times).saturating_add(self.total);
        let at = match rng.below(40) {
            0..18 => sent(rng),
            18..26 => settled,
            26..30 => sent(rng).saturating_add(self.length(rng).unwrap_or(0)),
            30 => 0,
            31 => self.total,
            32 => LIMIT,
            33 => LIMIT + self.total,
            34 => LAST,
            35 => rng.pick(&[LAST + 1, LAST + 1, 360_000_001, u32::MAX]),
            36 => rng.within(0..=LAST),
            37 => rng.pick(&self.times),
            _ => settled.saturating_add(rng.within(0..=self.writer.pace)),
        };
        match rng.below(6) {
            0 | 1 => at.saturating_sub(1),
            2 => at.saturating_add(1),
            _ => at,
        }
    }

    fn number(&self, rng: &mut Prng) -> u32 {
        let last = self.writer.number;
        match rng.below(20) {
            0 => 0,
            1 => last.saturating_add(1),
            2 => rng.pick(&[u32::MAX, 4_097]),
            3..9 => last,
            _ => last.saturating_sub(rng.within(0..=last.min(12))),
        }
    }

    /// A time that lies around a moment, or anywhere in the span.
    fn near(&self, moment: u32, rng: &mut Prng) -> u32 {
        let pace = self.writer.pace;
        match self.span {
            Some(span) => rng.within(0..=span),
            None if rng.chance(5) => rng.pick(&[0, LIMIT, LIMIT - 1]),
            None => (moment.saturating_sub(pace) + rng.within(0..=3 * pace)).min(LIMIT),
        }
    }

    fn length(&self, rng: &mut Prng) -> Option<u32> {
        match self.span {
            Some(span) => rng.chance(50).then(|| rng.within(0..=span)),
            None => self.writer.dur(rng),
        }
    }
}
