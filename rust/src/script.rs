//! The lines of a script: what each one says, without a look at the lines around it.

use crate::clock::Moment;
use crate::node::Kind;
use crate::prepared::PreparedEntry;
use crate::stack::Call;
use crate::text::{self, Document};

pub const MAX_RECORDS: u32 = 65_536;

/// One line that is not blank; a `text` line comes with its text.
#[derive(Clone, Copy, Debug, PartialEq, Eq)]
pub enum Item<'a> {
    Live(usize),
    Prepared,
    Entry(PreparedEntry),
    Node(Kind, u32),
    Call(Call<'a>),
}

/// Why a script cannot be read on.
#[derive(Clone, Copy, Debug, PartialEq, Eq, PartialOrd, Ord, Hash)]
pub enum Why {
    /// The whole script has too many bytes.
    TooLong,
    NoStreamLine,
    OtherBeforeStreamLine,
    SecondStreamLine,
    Word,
    FieldCount,
    NotANumber,
    TooManyRecords,
    EntryOverLiveTable,
    EntryAfterNodeOrCall,
    NodeAfterCall,
    NinthNode,
    TakeOverPreparedList,
    TickOverPreparedList,
    TextOverPreparedList,
    NoLineFeed,
}

impl Why {
    pub const ALL: [Why; 16] = [
        Why::TooLong,
        Why::NoStreamLine,
        Why::OtherBeforeStreamLine,
        Why::SecondStreamLine,
        Why::Word,
        Why::FieldCount,
        Why::NotANumber,
        Why::TooManyRecords,
        Why::EntryOverLiveTable,
        Why::EntryAfterNodeOrCall,
        Why::NodeAfterCall,
        Why::NinthNode,
        Why::TakeOverPreparedList,
        Why::TickOverPreparedList,
        Why::TextOverPreparedList,
        Why::NoLineFeed,
    ];
}

/// A line that was read, or why it could not be.
#[derive(Clone, Copy, Debug, PartialEq, Eq)]
pub struct Line<'a> {
    /// Counted from 1 over all lines, blank ones and those of texts too.
    pub number: usize,
    pub item: Result<Item<'a>, Why>,
}

/// Hands out the lines of a script one after the other.
pub struct Lines<'a> {
    rest: &'a [u8],
    /// How many lines have gone by.
    passed: usize,
}

impl<'a> Lines<'a> {
    pub fn of(script: &'a [u8]) -> Lines<'a> {
        Lines { rest: script, passed: 0 }
    }

    /// The next line with its line feed, or what is left without one; nothing at the end.
    fn cut(&mut self) -> Option<&'a [u8]> {
        let length = self.rest.iter().position(|&byte| byte == b'\n').map_or(self.rest.len(), |at| at + 1);
        let (line, rest) = self.rest.split_at_checked(length).filter(|_| length > 0)?;
        self.rest = rest;
        self.passed += 1;
        Some(line)
    }

    /// The text up to the next blank line, which is passed over, or up to the end.
    fn text(&mut self) -> &'a [u8] {
        let start = self.rest;
        let mut length = 0;
        while let Some(line) = self.cut().filter(|line| line != b"\n") {
            length += line.len();
        }
        &start[..length]
    }
}

impl<'a> Iterator for Lines<'a> {
    type Item = Line<'a>;

    fn next(&mut self) -> Option<Line<'a>> {
        let line = loop {
            let line = self.cut()?;
            if line != b"\n" {
                break line;
            }
        };
        let number = self.passed;
        let item = match line.strip_suffix(b"\n") {
            None => Err(Why::NoLineFeed),
            Some(b"text") => Ok(Item::Call(Call::HandIn(self.text()))),
            Some(line) => read(line),
        };
        Some(Line { number, item })
    }
}

/// Reads any line but a `text` line.
fn read(line: &[u8]) -> Result<Item<'static>, Why> {
    let fields: Vec<&[u8]> = line.split(|&byte| byte == b',').collect();
    let (word, values) = fields.split_first().expect("a line has one field at least");
    match *word {
        b"live" => {
            let [records] = numbers(values)?;
            if records > MAX_RECORDS {
                return Err(Why::TooManyRecords);
            }
            Ok(Item::Live(records as usize))
        }
        b"prepared" => numbers::<0>(values).map(|_| Item::Prepared),
        b"entry" => {
            let [begin, end, content] = numbers(values)?;
            Ok(Item::Entry(PreparedEntry { begin: Moment(begin), end: Moment(end), content }))
        }
        b"holder" => numbers(values).map(|[length]| Item::Node(Kind::Holder, length)),
        b"retimer" => numbers(values).map(|[length]| Item::Node(Kind::Retimer, length)),
        b"take" => document(values).map(|document| Item::Call(Call::Take(document))),
        b"tick" => numbers(values).map(|[moment]| Item::Call(Call::Tick(Moment(moment)))),
        b"active" => {
            let [begin, end, at] = numbers(values)?.map(Moment);
            Ok(Item::Call(Call::Active { window: (begin, end), at }))
        }
        b"interval" => {
            let [begin, end, number] = numbers(values)?;
            Ok(Item::Call(Call::Interval { window: (Moment(begin), Moment(end)), number }))
        }
        // With nothing after it, it would not have come here.
        b"text" => Err(Why::FieldCount),
        _ => Err(Why::Word),
    }
}

fn document(values: &[&[u8]]) -> Result<Document, Why> {
    let &[number, available, begin, end, dur, content] = values else {
        return Err(Why::FieldCount);
    };
    let maybe =
        |field: &[u8]| if field.is_empty() { Ok(None) } else { number_in(field).map(|at| Some(Moment(at))) };
    Ok(Document {
        number: number_in(number)?,
        available: Moment(number_in(available)?),
        content: number_in(content)?,
        dur: maybe(dur)?,
        begin: maybe(begin)?,
        end: maybe(end)?,
    })
}

/// The fields as numbers, if there are exactly `N` and none is blank.
fn numbers<const N: usize>(fields: &[&[u8]]) -> Result<[u32; N], Why> {
    let fields: &[&[u8]; N] = fields.try_into().map_err(|_| Why::FieldCount)?;
    let mut values = [0; N];
    for (value, field) in values.iter_mut().zip(fields) {
        *value = number_in(field)?;
    }
    Ok(values)
}

fn number_in(field: &[u8]) -> Result<u32, Why> {
    text::number(field).ok_or(Why::NotANumber)
}

#[cfg(test)]
mod tests {
    use super::*;

    fn items(script: &str) -> Vec<(usize, Result<Item<'_>, Why>)> {
        Lines::of(script.as_bytes()).map(|line| (line.number, line.item)).collect()
    }

    fn hand_in(text: &str) -> Result<Item<'_>, Why> {
        Ok(Item::Call(Call::HandIn(text.as_bytes())))
    }

    const TICK: Result<Item, Why> = Ok(Item::Call(Call::Tick(Moment(5))));

    #[test]
    fn blank_lines_are_skipped_and_counted() {
        assert_eq!(items(""), []);
        assert_eq!(items("\n\n\n"), []);
        assert_eq!(items("\n\ntick,5\n\n\nprepared\n"), [(3, TICK), (6, Ok(Item::Prepared))]);
        assert_eq!(items("tick,5\n\ntick,5"), [(1, TICK), (3, Err(Why::NoLineFeed))]);
    }

    #[test]
    fn texts() {
        assert_eq!(items("text\n"), [(1, hand_in(""))]);
        assert_eq!(items("text\n\ntick,5\n"), [(1, hand_in("")), (3, TICK)]);
        assert_eq!(items("text\n\n\n\ntick,5\n"), [(1, hand_in("")), (5, TICK)]);
        assert_eq!(items("text\na\nb\n\ntick,5\n"), [(1, hand_in("a\nb\n")), (5, TICK)]);
        assert_eq!(items("text\na\ntick,5\ntext\n"), [(1, hand_in("a\ntick,5\ntext\n"))]);
        assert_eq!(items("text\na\nb"), [(1, hand_in("a\nb"))]);
        assert_eq!(items("text\n\ntext\n \n\ntick,5\n"), [(1, hand_in("")), (3, hand_in(" \n")), (6, TICK)]);
        assert_eq!(items("text"), [(1, Err(Why::NoLineFeed))]);
        assert_eq!(items("text,\n"), [(1, Err(Why::FieldCount))]);
    }

    #[test]
    fn good_lines() {
        let one = |line: &str| read(line.as_bytes()).unwrap_or_else(|why| panic!("{line}: {why:?}"));
        assert_eq!(one("live,0"), Item::Live(0));
        assert_eq!(one("live,65536"), Item::Live(65_536));
        assert_eq!(one("prepared"), Item::Prepared);
        let entry = PreparedEntry { begin: Moment(1), end: Moment(u32::MAX), content: 3 };
        assert_eq!(one("entry,1,4294967295,3"), Item::Entry(entry));
        assert_eq!(one("holder,600001"), Item::Node(Kind::Holder, 600_001));
        assert_eq!(one("retimer,0"), Item::Node(Kind::Retimer, 0));
        let window = (Moment(6), Moment(5));
        assert_eq!(one("active,6,5,4"), Item::Call(Call::Active { window, at: Moment(4) }));
        assert_eq!(one("interval,6,5,4"), Item::Call(Call::Interval { window, number: 4 }));
        let bare = Document { number: 0, available: Moment(2), content: 7, ..Document::default() };
        assert_eq!(one("take,0,2,,,,7"), Item::Call(Call::Take(bare)));
        let full = Document {
            number: 1,
            available: Moment(2),
            content: 6,
            dur: Some(Moment(5)),
            begin: Some(Moment(3)),
            end: Some(Moment(4)),
        };
        assert_eq!(one("take,1,2,3,4,5,6"), Item::Call(Call::Take(full)));
    }

    #[test]
    fn lines_that_say_nothing() {
        use Why::{FieldCount, NotANumber, TooManyRecords, Word};
        let refused = [
            (" ", Word),
            ("\r", Word),
            (",", Word),
            ("Live,64", Word),
            ("lives,64", Word),
            ("tick ,5", Word),
            ("node,reply", Word),
            ("live", FieldCount),
            ("live,64,", FieldCount),
            ("prepared,", FieldCount),
            ("entry,1,2", FieldCount),
            ("entry,1,2,3,", FieldCount),
            ("holder", FieldCount),
            ("retimer,1,2", FieldCount),
            ("tick", FieldCount),
            ("take,1,2,,,3", FieldCount),
            ("take,1,2,,,,3,", FieldCount),
            ("active,1,2", FieldCount),
            ("interval,1,2,3,4", FieldCount),
            ("live,", NotANumber),
            ("live,64\r", NotANumber),
            ("tick,05", NotANumber),
            ("tick, 5", NotANumber),
            ("tick,4294967296", NotANumber),
            ("tick,-1", NotANumber),
            ("entry,,2,3", NotANumber),
            ("entry,1,,3", NotANumber),
            ("entry,1,2,", NotANumber),
            ("take,,2,,,,3", NotANumber),
            ("take,1,,,,,3", NotANumber),
            ("take,1,2,,,,", NotANumber),
            ("take,1,2, ,,,3", NotANumber),
            ("take,1,2,,00,,3", NotANumber),
            ("take,1,2,,,x,3", NotANumber),
            ("active,,2,3", NotANumber),
            ("interval,1,2,00:00:00.000", NotANumber),
            ("live,65537", TooManyRecords),
            ("live,4294967295", TooManyRecords),
        ];
        for (line, why) in refused {
            assert_eq!(read(line.as_bytes()), Err(why), "{}", line.escape_debug());
        }
    }
}
