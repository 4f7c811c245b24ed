//! The text of one document of an EBU-TT Live sequence: its lines, fields and nest of elements.

use crate::clock::Moment;
use crate::refusal::{Record, Refusal};

pub const MAX_TEXT: usize = 4_096;

const VALUE_NAMES: &[u8] = b"number,available,content,dur";
const ELEMENT_NAMES: &[u8] = b"level,begin,end";

/// What a text says, and what a stream holds.
#[derive(Clone, Copy, Debug, Default, PartialEq, Eq)]
pub struct Document {
    pub number: u32,
    pub available: Moment,
    pub content: u32,
    pub dur: Option<Moment>,
    pub begin: Option<Moment>,
    pub end: Option<Moment>,
}

/// Reads a text. The first fault, line by line and field by field, is the one that is answered.
pub fn read(text: &[u8]) -> Result<Document, Record> {
    if text.is_empty() || text.len() > MAX_TEXT || text.last() != Some(&b'\n') {
        return Err(Refusal::Whole.into());
    }
    let mut lines = Lines::of(text);
    lines.expect(Refusal::Names)?.must_be(VALUE_NAMES)?;
    let values = Values::read(&lines.expect(Refusal::FieldCount)?)?;
    lines.expect(Refusal::Names)?.must_be(ELEMENT_NAMES)?;

    let mut nest = Nest::new();
    nest.add(&lines.expect(Refusal::Level)?)?;
    for line in lines {
        nest.add(&line)?;
    }
    Ok(Document {
        number: values.number,
        available: values.available,
        content: values.content,
        dur: values.dur,
        begin: nest.begin,
        end: nest.end,
    })
}

/// The lines of a text that ends in a line feed.
struct Lines<'a> {
    text: &'a [u8],
    /// The number of the next line.
    number: usize,
    /// Where the next line starts.
    start: usize,
}

impl<'a> Lines<'a> {
    fn of(text: &'a [u8]) -> Lines<'a> {
        Lines { text, number: 1, start: 0 }
    }

    /// The next line, or a refusal at the place where it would have stood.
    fn expect(&mut self, missing: Refusal) -> Result<Line<'a>, Record> {
        let number = self.number;
        self.next().ok_or(Record::at(missing, number, self.text.len()))
    }
}

impl<'a> Iterator for Lines<'a> {
    type Item = Line<'a>;

    fn next(&mut self) -> Option<Line<'a>> {
        let rest = &self.text[self.start..];
        let length = rest.iter().position(|&byte| byte == b'\n')?;
        let line = Line { number: self.number, start: self.start, bytes: &rest[..length] };
        self.number += 1;
        self.start += length + 1;
        Some(line)
    }
}

/// A line without its line feed.
struct Line<'a> {
    number: usize,
    start: usize,
    bytes: &'a [u8],
}

impl<'a> Line<'a> {
    fn must_be(&self, names: &[u8]) -> Result<(), Record> {
        if self.bytes == names { Ok(()) } else { Err(self.refuse(Refusal::Names)) }
    }

    /// The fields, if there are exactly `N` of them.
    fn fields<const N: usize>(&self) -> Result<[Field<'a>; N], Record> {
        let mut start = self.start;
        let fields: Vec<Field<'a>> = self
            .bytes
            .split(|&byte| byte == b',')
            .map(|bytes| {
                let field = Field { line: self.number, start, bytes };
                start += bytes.len() + 1;
                field
            })
            .collect();
        fields.try_into().map_err(|_| self.refuse(Refusal::FieldCount))
    }

    fn refuse(&self, refusal: Refusal) -> Record {
        Record::at(refusal, self.number, self.start)
    }
}

/// A part of a line between commas; it knows where in the text it stands.
struct Field<'a> {
    line: usize,
    start: usize,
    bytes: &'a [u8],
}

impl Field<'_> {
    fn number_from(&self, least: u32) -> Result<u32, Record> {
        number(self.bytes).filter(|&value| value >= least).ok_or_else(|| self.refuse(Refusal::NotANumber))
    }

    fn time(&self) -> Result<Moment, Record> {
        Moment::read(self.bytes)
            .map_err(|cause| Record { cause: Some(cause), ..self.refuse(Refusal::NotATime) })
    }

    /// Blank is absent; it is not the same as a time of 0.
    fn time_or_blank(&self) -> Result<Option<Moment>, Record> {
        if self.bytes.is_empty() { Ok(None) } else { self.time().map(Some) }
    }

    /// A written time counted from `base`, if it is written and the sum is within the entry limit.
    fn counted_from(&self, base: Moment, written: Option<Moment>) -> Result<Option<Moment>, Record> {
        written
            .map(|time| base.plus_within_entry(time).ok_or_else(|| self.refuse(Refusal::PastEntryLimit)))
            .transpose()
    }

    fn refuse(&self, refusal: Refusal) -> Record {
        Record::at(refusal, self.line, self.start)
    }
}

/// One to ten digits without a needless zero in front, up to the greatest `u32`.
pub fn number(bytes: &[u8]) -> Option<u32> {
    let all_digits = bytes.iter().all(u8::is_ascii_digit);
    let leading_zero = bytes.len() > 1 && bytes[0] == b'0';
    if !all_digits || leading_zero {
        return None;
    }
    // What is left are plain digits: the standard parser refuses blank and too great, and nothing more.
    std::str::from_utf8(bytes).ok()?.parse().ok()
}

/// The four fields of the value line.
struct Values {
    number: u32,
    available: Moment,
    content: u32,
    dur: Option<Moment>,
}

impl Values {
    fn read(line: &Line) -> Result<Values, Record> {
        let [number, available, content, dur] = line.fields()?;
        // A struct's fields are read in the order written here: left to right in the line.
        Ok(Values {
            number: number.number_from(1)?,
            available: available.time()?,
            content: content.number_from(0)?,
            dur: dur.time_or_blank()?,
        })
    }
}

#[derive(Clone, Copy, Debug, PartialEq, Eq)]
enum Level {
    Body = 1,
    Div = 2,
    P = 3,
    Span = 4,
}

impl Level {
    fn read(bytes: &[u8]) -> Option<Level> {
        match bytes {
            b"body" => Some(Level::Body),
            b"div" => Some(Level::Div),
            b"p" => Some(Level::P),
            b"span" => Some(Level::Span),
            _ => None,
        }
    }

    fn depth(self) -> usize {
        self as usize
    }
}

/// The computed times of an element.
#[derive(Clone, Copy)]
struct Computed {
    begin: Moment,
    end: Option<Moment>,
}

/// The elements read so far: those still open, and what they make of the document's own times.
struct Nest {
    /// `open[d]` is the latest element of depth `d`. At the front stands what the body counts from, so
    /// the list is never empty, and its length is the greatest depth that the next element may have.
    open: Vec<Computed>,
    begin: Option<Moment>,
    end: Option<Moment>,
}

impl Nest {
    fn new() -> Nest {
        Nest { open: vec![Computed { begin: Moment::ZERO, end: None }], begin: None, end: None }
    }

    fn add(&mut self, line: &Line) -> Result<(), Record> {
        let [level_field, begin_field, end_field] = line.fields()?;
        let depth = Level::read(level_field.bytes)
            .map(Level::depth)
            .filter(|&depth| self.has_place_at(depth))
            .ok_or_else(|| level_field.refuse(Refusal::Level))?;
        let written_begin = begin_field.time_or_blank()?;
        let written_end = end_field.time_or_blank()?;

        let parent = self.open[depth - 1];
        let begin = begin_field.counted_from(parent.begin, written_begin)?;
        // The sum is judged before it is cut.
        let end = end_field
            .counted_from(parent.begin, written_end)?
            .map(|sum| parent.end.map_or(sum, |cut| cut.min(sum)));

        self.open.truncate(depth);
        self.open.push(Computed { begin: begin.unwrap_or(parent.begin), end: end.or(parent.end) });
        // Only what an element writes itself counts for the document.
        self.begin = self.begin.into_iter().chain(begin).min();
        self.end = self.end.into_iter().chain(end).max();
        Ok(())
    }

    /// The first element is the body; no later one is, and none goes down more than one step.
    fn has_place_at(&self, depth: usize) -> bool {
        let first = self.open.len() == 1;
        depth <= self.open.len() && (depth == Level::Body.depth()) == first
    }
}

#[cfg(test)]
mod tests {
    use super::*;

    #[test]
    fn numbers() {
        assert_eq!(number(b"0"), Some(0));
        assert_eq!(number(b"7"), Some(7));
        assert_eq!(number(b"4294967295"), Some(4_294_967_295));
        let refused: [&[u8]; 13] = [
            b"",
            b"00",
            b"07",
            b"+7",
            b"-7",
            b"7.0",
            b" 7",
            b"7\r",
            b"/",
            b":",
            b"4294967296",
            b"9999999999",
            b"10000000000",
        ];
        for bytes in refused {
            assert_eq!(number(bytes), None, "{}", bytes.escape_ascii());
        }
    }

    #[test]
    fn levels_in_lower_case_only() {
        let depth = |bytes: &[u8]| Level::read(bytes).map(Level::depth);
        assert_eq!([&b"body"[..], b"div", b"p", b"span"].map(depth), [Some(1), Some(2), Some(3), Some(4)]);
        assert_eq!([&b""[..], b"Body", b"P", b"br", b"p ", b"spa", b"spans"].map(depth), [None; 7]);
    }
}
