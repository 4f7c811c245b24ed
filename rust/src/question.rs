//! The two questions: who is on screen at a moment, and from when to when a number is.

use crate::clock::Moment;
use crate::refusal::Refusal;
use crate::schedule::{Window, resolve};
use crate::stream::Stream;

/// The answer to the active question.
#[derive(Clone, Copy, Debug, PartialEq, Eq)]
pub struct Active {
    /// Number and content, or none.
    pub document: Option<(u32, u32)>,
    pub settled: bool,
}

/// The answer to the interval question: both resolved times, whichever comes first.
#[derive(Clone, Copy, Debug, PartialEq, Eq)]
pub struct Interval {
    pub begin: Moment,
    pub end: Moment,
    pub settled: bool,
}

pub fn active(stream: &(impl Stream + ?Sized), window: Window, at: Moment) -> Result<Active, Refusal> {
    if at > Moment::LAST {
        return Err(Refusal::PastLastMoment);
    }
    let document = resolve(&stream.shown(), window)
        .iter()
        .find(|entry| entry.begin <= at && at < entry.end)
        .map(|entry| (entry.number, entry.content));
    Ok(Active { document, settled: at < stream.settled_moment() })
}

pub fn interval(stream: &(impl Stream + ?Sized), window: Window, number: u32) -> Result<Interval, Refusal> {
    let entries = resolve(&stream.shown(), window);
    let entry = entries.iter().find(|entry| entry.number == number).ok_or(Refusal::NotShown)?;
    Ok(Interval { begin: entry.begin, end: entry.end, settled: entry.end <= stream.settled_moment() })
}

#[cfg(test)]
mod tests {
    use super::*;
    use crate::live::LiveTable;
    use crate::node::{Adjustment, Kind, Node};
    use crate::prepared::{PreparedEntry, PreparedList};
    use crate::stream::TakingStream;
    use crate::text::Document;

    const SETTLED: bool = true;
    const OPEN: bool = false;

    fn document(number: u32, available: u32) -> Document {
        Document { number, available: Moment(available), content: number + 10, ..Document::default() }
    }

    /// The table T of the worked examples.
    fn three() -> LiveTable {
        let mut table = LiveTable::over(8);
        let timed = Document { begin: Some(Moment(12_000)), end: Some(Moment(15_000)), ..document(3, 6_000) };
        for taken in [document(1, 0), Document { dur: Some(Moment(3_000)), ..document(2, 5_000) }, timed] {
            assert_eq!(table.take(taken), Ok(()));
        }
        table
    }

    fn window(begin: u32, end: u32) -> Window {
        Window::new(Moment(begin), Moment(end)).expect("a window")
    }

    /// The number on screen, 0 for none, and the mark; the content must be the number's.
    fn at(stream: &impl Stream, window: Window, moment: u32) -> (u32, bool) {
        let answer = active(stream, window, Moment(moment)).expect("within the last moment");
        let number = answer.document.map_or(0, |(number, content)| {
            assert_eq!(content, number + 10);
            number
        });
        (number, answer.settled)
    }

    fn of(stream: &impl Stream, window: Window, number: u32) -> (u32, u32, bool) {
        let answer = interval(stream, window, number).expect("a number that is shown");
        (answer.begin.0, answer.end.0, answer.settled)
    }

    #[test]
    fn active_in_the_table() {
        let (table, all) = (three(), window(0, 20_000));
        let worked = [
            (0, (1, SETTLED)),
            (4_999, (1, SETTLED)),
            (5_000, (2, SETTLED)),
            (5_999, (2, SETTLED)),
            (6_000, (2, OPEN)),
            (7_999, (2, OPEN)),
            (8_000, (0, OPEN)),
            (11_999, (0, OPEN)),
            (12_000, (3, OPEN)),
            (14_999, (3, OPEN)),
            (15_000, (0, OPEN)),
            (20_000, (0, OPEN)),
            (359_999_999, (0, OPEN)),
        ];
        for (moment, answer) in worked {
            assert_eq!(at(&table, all, moment), answer, "{moment}");
        }
        assert_eq!(active(&table, all, Moment(360_000_000)), Err(Refusal::PastLastMoment));
        assert_eq!(active(&table, all, Moment(u32::MAX)), Err(Refusal::PastLastMoment));
    }

    #[test]
    fn intervals_in_the_table() {
        let (mut table, all) = (three(), window(0, 20_000));
        assert_eq!(of(&table, all, 1), (0, 5_000, SETTLED));
        assert_eq!(of(&table, all, 2), (5_000, 8_000, OPEN));
        assert_eq!(of(&table, all, 3), (12_000, 15_000, OPEN));
        assert_eq!(interval(&table, all, 0), Err(Refusal::NotShown));
        assert_eq!(interval(&table, all, 4), Err(Refusal::NotShown));
        assert_eq!(table.tick(Moment(7_999)), Ok(()));
        assert_eq!(of(&table, all, 2), (5_000, 8_000, OPEN));
        assert_eq!(table.tick(Moment(8_000)), Ok(()));
        assert_eq!(of(&table, all, 2), (5_000, 8_000, SETTLED));
        assert_eq!((at(&table, all, 7_999), at(&table, all, 8_000)), ((2, SETTLED), (0, OPEN)));
    }

    #[test]
    fn a_window_that_opens_late() {
        let (table, late) = (three(), window(6_000, 13_000));
        assert_eq!(at(&table, late, 5_999), (0, SETTLED));
        assert_eq!(at(&table, late, 6_000), (2, OPEN));
        assert_eq!(at(&table, late, 8_999), (2, OPEN));
        assert_eq!(at(&table, late, 9_000), (0, OPEN));
        assert_eq!(of(&table, late, 1), (6_000, 6_000, SETTLED));
        assert_eq!(of(&table, late, 2), (6_000, 9_000, OPEN));
        assert_eq!(of(&table, late, 3), (12_000, 13_000, OPEN));
    }

    #[test]
    fn a_document_that_never_shows() {
        let (mut table, all) = (three(), window(0, 20_000));
        assert_eq!(table.take(Document { end: Some(Moment(9_000)), ..document(4, 10_000) }), Ok(()));
        assert_eq!(of(&table, all, 3), (12_000, 10_000, SETTLED));
        assert_eq!(of(&table, all, 4), (10_000, 9_000, SETTLED));
        assert_eq!(at(&table, all, 9_999), (0, SETTLED));
        assert_eq!(at(&table, all, 10_000), (0, OPEN));
        assert_eq!(at(&table, all, 12_000), (0, OPEN));
        assert_eq!((at(&table, all, 4_999), at(&table, all, 7_999)), ((1, SETTLED), (2, SETTLED)));
    }

    #[test]
    fn under_two_nodes() {
        let approved = |length| Adjustment::approve(&LiveTable::over(0), length).expect("a good adjustment");
        let holder = Node::over(three(), Kind::Holder, approved(2_000));
        let stack = Node::over(holder, Kind::Retimer, approved(3_000));
        let moved = window(5_000, 25_000);
        let worked = [
            (4_999, (0, SETTLED)),
            (9_999, (1, SETTLED)),
            (10_000, (2, SETTLED)),
            (10_999, (2, SETTLED)),
            (11_000, (2, OPEN)),
            (13_000, (0, OPEN)),
        ];
        for (moment, answer) in worked {
            assert_eq!(at(&stack, moved, moment), answer, "{moment}");
        }
        assert_eq!(of(&stack, moved, 1), (5_000, 10_000, SETTLED));
        assert_eq!(of(&stack, moved, 2), (10_000, 13_000, OPEN));
        assert_eq!(of(&stack, moved, 3), (17_000, 20_000, OPEN));
    }

    #[test]
    fn an_empty_table() {
        let (mut table, all) = (LiveTable::over(0), Window::WHOLE);
        assert_eq!(at(&table, all, 0), (0, OPEN));
        assert_eq!(interval(&table, all, 1), Err(Refusal::NotShown));
        assert_eq!(table.tick(Moment(355_199_999)), Ok(()));
        assert_eq!(at(&table, all, 355_199_998), (0, SETTLED));
        assert_eq!(at(&table, all, 355_199_999), (0, OPEN));
    }

    #[test]
    fn in_a_prepared_list_all_is_settled() {
        let times = [(0, 4_000), (4_000, 9_500), (4_000, 8_000), (10_000, 30_000), (12_000, 15_000)];
        let entries = (11..).zip(times).map(|(content, (begin, end))| PreparedEntry {
            begin: Moment(begin),
            end: Moment(end),
            content,
        });
        let list = PreparedList::open(entries.collect()).expect("a good list");
        let all = window(0, 20_000);
        let intervals = [(0, 4_000), (4_000, 4_000), (4_000, 8_000), (10_000, 12_000), (12_000, 15_000)];
        for (number, (begin, end)) in (1..).zip(intervals) {
            assert_eq!(of(&list, all, number), (begin, end, SETTLED), "{number}");
        }
        let worked =
            [(3_999, 1), (4_000, 3), (9_000, 0), (11_999, 4), (12_000, 5), (17_000, 0), (359_999_999, 0)];
        for (moment, number) in worked {
            assert_eq!(at(&list, all, moment), (number, SETTLED), "{moment}");
        }
        assert_eq!(interval(&list, all, 6), Err(Refusal::NotShown));
    }
}
