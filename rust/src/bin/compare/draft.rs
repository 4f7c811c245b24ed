//! Good documents: a draft of lines and fields that can still be damaged, and a writer that makes one
//! good draft after the other.

use yumdrast_check::clock::Moment;

use crate::prng::Prng;

pub const LIMIT: u32 = Moment::ENTRY_LIMIT.0;

pub const LEVELS: [&str; 4] = ["body", "div", "p", "span"];

pub type Field = Vec<u8>;
pub type Line = Vec<Field>;

/// Where the lines and fields of a good draft stand.
pub const NAMES: usize = 0;
pub const VALUES: usize = 1;
pub const ELEMENT_NAMES: usize = 2;
pub const BODY: usize = 3;
pub const NUMBER: usize = 0;
pub const AVAILABLE: usize = 1;
pub const CONTENT: usize = 2;

/// A document as lines of fields.
#[derive(Clone)]
pub struct Draft {
    pub lines: Vec<Line>,
}

impl Draft {
    pub fn new(values: Line) -> Draft {
        Draft { lines: vec![line("number,available,content,dur"), values, line("level,begin,end")] }
    }

    pub fn with(mut self, elements: impl IntoIterator<Item = Line>) -> Draft {
        self.lines.extend(elements);
        self
    }

    pub fn to_bytes(&self) -> Vec<u8> {
        self.lines
            .iter()
            .flat_map(|fields| {
                let mut bytes = fields.join(&b',');
                bytes.push(b'\n');
                bytes
            })
            .collect()
    }
}

/// The fields of a written line.
pub fn line(written: &str) -> Line {
    written.split(',').map(|field| field.as_bytes().to_vec()).collect()
}

pub fn values(number: u32, available: u32, content: u32, dur: Option<u32>) -> Line {
    vec![digits(number), time(available), digits(content), maybe_time(dur)]
}

pub fn element(level: &str, begin: Option<u32>, end: Option<u32>) -> Line {
    vec![level.as_bytes().to_vec(), maybe_time(begin), maybe_time(end)]
}

pub fn digits(number: u32) -> Field {
    number.to_string().into_bytes()
}

pub fn time(moment: u32) -> Field {
    Moment(moment).to_string().into_bytes()
}

fn maybe_time(moment: Option<u32>) -> Field {
    moment.map_or_else(Vec::new, time)
}

/// Writes the documents of one feed; each is good if all before it were.
#[derive(Clone)]
pub struct Writer {
    pub number: u32,
    pub available: u32,
    /// The usual step from one available to the next, at most.
    pub pace: u32,
    /// How many of a hundred documents have a timed nest.
    pub timed: usize,
}

impl Writer {
    pub fn new(rng: &mut Prng) -> Writer {
        let number = match rng.below(12) {
            0 => u32::MAX - rng.within(0..=30),
            1 => rng.within(0..=u32::MAX / 2),
            2 => 4_294_967,
            3 => rng.within(90..=110),
            _ => 0,
        };
        let available = match rng.below(12) {
            0 => LIMIT - rng.within(0..=20),
            1 => LIMIT - rng.within(0..=60_000),
            2 => 3_600_000 - rng.within(0..=10_000),
            3 => rng.within(0..=LIMIT),
            4 | 5 => 6 * 3_600_000,
            _ => 0,
        };
        let pace = rng.pick(&[0, 1, 40, 3_000, 5_000, 5_000, 60_000]);
        Writer { number, available, pace, timed: rng.pick(&[0, 30, 50, 100]) }
    }

    /// A writer of small untimed documents from number 1 on.
    pub fn plain() -> Writer {
        Writer { number: 0, available: 0, pace: 3, timed: 0 }
    }

    /// Goes on to the next number and available. Numbers stop at the greatest there is, and time at the
    /// entry limit.
    pub fn step(&mut self, rng: &mut Prng) {
        let gap = rng.weighted(&[(85, 1), (10, 2), (4, 10), (1, 1_000_000)]);
        self.number = self.number.saturating_add(gap);
        if !rng.chance(15) {
            self.available = (self.available + rng.within(0..=self.pace)).min(LIMIT);
        }
    }

    /// The next document.
    pub fn next(&mut self, rng: &mut Prng) -> Draft {
        self.step(rng);
        let dur = self.dur(rng);
        let content = self.content(rng);
        let draft = Draft::new(values(self.number, self.available, content, dur));
        if rng.chance(self.timed) { draft.with(self.nest(rng)) } else { draft.with([line("body,,")]) }
    }

    /// A document that is late: available before the last one, or with a number that was passed.
    pub fn late(&mut self, rng: &mut Prng) -> Draft {
        let mut draft = self.next(rng);
        let early = time(self.available.saturating_sub(rng.within(1..=self.pace.max(2) * 2)));
        let passed = digits(self.number.saturating_sub(rng.within(1..=3)).max(1));
        let fields = &mut draft.lines[VALUES];
        match rng.below(5) {
            0 | 1 => fields[AVAILABLE] = early,
            2 | 3 => fields[NUMBER] = passed,
            _ => (fields[NUMBER], fields[AVAILABLE]) = (passed, early),
        }
        draft
    }

    pub fn content(&self, rng: &mut Prng) -> u32 {
        let usual_content = self.number % 1_000 + 5_000;
        rng.weighted(&[(8, usual_content), (1, 0), (1, u32::MAX)])
    }

    pub fn dur(&self, rng: &mut Prng) -> Option<u32> {
        match rng.below(20) {
            0..10 => None,
            10 => Some(0),
            11 => Some(1),
            12 => Some(LIMIT),
            13 => Some(LIMIT - self.available),
            14 => Some((LIMIT - self.available).saturating_sub(1)),
            15 => Some(self.pace),
            _ => Some(rng.within(0..=10_000)),
        }
    }

    /// Elements of any shape the rules allow, with times that mostly lie around available.
    fn nest(&self, rng: &mut Prng) -> Vec<Line> {
        // The one element that carries the clock time; what is below it counts from there.
        let anchor_depth = rng.weighted(&[(3, 1), (5, 2), (1, 3), (1, 4), (2, 0)]);
        let count = rng.weighted(&[(2, 1), (6, 4), (6, 7), (2, 20), (1, 60)]);
        let mut depth = 1;
        let mut elements = vec![self.element(rng, depth, anchor_depth)];
        for _ in 1..1 + rng.below(count) {
            depth = rng.within(2..=(depth as u32 + 1).min(4)) as usize;
            elements.push(self.element(rng, depth, anchor_depth));
        }
        elements
    }

    fn element(&self, rng: &mut Prng, depth: usize, anchor_depth: usize) -> Line {
        let level = LEVELS[depth - 1];
        // Above the anchor, times would be added twice; below it they are small.
        if depth < anchor_depth && !rng.chance(8) {
            return element(level, None, None);
        }
        let base =
            if depth == anchor_depth { self.available.saturating_sub(rng.within(0..=3_000)) } else { 0 };
        let span = rng.pick(&[1, 1_000, 5_000, 5_000, 20_000]);
        let mut offset = |percent: usize| {
            rng.chance(percent).then(|| (base + rng.within(0..=span) * rng.within(0..=1)).min(LIMIT))
        };
        let (begin, end) = (offset(55), offset(55));
        // Most ends lie after their begins, but they need not.
        let end = end.map(|end| if rng.chance(70) { end.max(begin.unwrap_or(0)) } else { end });
        element(level, begin, end)
    }
}
