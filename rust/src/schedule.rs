//! Windows, and who is on screen from when to when inside one.

use crate::clock::Moment;
use crate::refusal::Refusal;
use crate::text::Document;

pub const NAMES_LINE: &str = "number,begin,end,content\n";

/// A stretch of time whose begin is before its end. Only [`Window::new`] makes one.
#[derive(Clone, Copy, Debug, PartialEq, Eq)]
pub struct Window {
    begin: Moment,
    end: Moment,
}

impl Window {
    /// Everything that can come in: from 0 to the entry limit.
    pub const WHOLE_ENTRY: Window = Window { begin: Moment::ZERO, end: Moment::ENTRY_LIMIT };
    /// Everything that can be written: from 0 to the last moment.
    pub const WHOLE: Window = Window { begin: Moment::ZERO, end: Moment::LAST };

    pub fn new(begin: Moment, end: Moment) -> Result<Window, Refusal> {
        if begin < end && end <= Moment::LAST { Ok(Window { begin, end }) } else { Err(Refusal::NotAWindow) }
    }

    pub fn resolved_begin(self, document: &Document) -> Moment {
        let latest = document.available.max(self.begin);
        document.begin.map_or(latest, |begin| latest.max(begin))
    }

    /// The end before any later document cuts it. A dur counts from the resolved begin.
    pub fn own_end(self, document: &Document, resolved_begin: Moment) -> Moment {
        let by_dur = document.dur.map(|dur| Moment(resolved_begin.0 + dur.0));
        by_dur.into_iter().chain(document.end).fold(self.end, Moment::min)
    }
}

/// One document's resolved times; the end is not part of its time on screen.
#[derive(Clone, Copy, Debug, Default, PartialEq, Eq)]
pub struct Entry {
    pub number: u32,
    pub begin: Moment,
    pub end: Moment,
    pub content: u32,
}

/// Resolved begin and resolved end of each document of a shown list, also where no time is left between
/// them.
pub fn resolve(shown: &[Document], window: Window) -> Vec<Entry> {
    // From the last document to the first: the least begin met so far cuts all that came before, also
    // when the document it belongs to is never on screen itself.
    let mut least_begin = None;
    let mut entries: Vec<Entry> = shown
        .iter()
        .rev()
        .map(|document| {
            let begin = window.resolved_begin(document);
            let own_end = window.own_end(document, begin);
            let end = least_begin.map_or(own_end, |cut| own_end.min(cut));
            least_begin = Some(least_begin.map_or(begin, |cut| begin.min(cut)));
            Entry { number: document.number, begin, end, content: document.content }
        })
        .collect();
    entries.reverse();
    entries
}

/// The entries of a shown list that have some time on screen in a window, by rising number.
pub fn schedule(shown: &[Document], window: Window) -> Vec<Entry> {
    resolve(shown, window).into_iter().filter(|entry| entry.begin < entry.end).collect()
}

/// The schedule's text: the names line, then one line for each entry.
pub fn text(entries: &[Entry]) -> String {
    let lines = entries
        .iter()
        .map(|entry| format!("{},{},{},{}\n", entry.number, entry.begin, entry.end, entry.content));
    std::iter::once(NAMES_LINE.to_owned()).chain(lines).collect()
}

/// Puts a whole answer at the front of `output`, or leaves `output` as it was. Serves the schedule's
/// records and the bytes of its text alike.
pub fn fill<T: Copy>(output: &mut [T], answer: &[T]) -> Result<usize, Refusal> {
    output.get_mut(..answer.len()).ok_or(Refusal::OutputTooShort)?.copy_from_slice(answer);
    Ok(answer.len())
}

#[cfg(test)]
mod tests {
    use super::*;

    fn document(
        number: u32,
        available: u32,
        dur: Option<u32>,
        begin: Option<u32>,
        end: Option<u32>,
    ) -> Document {
        Document {
            number,
            available: Moment(available),
            content: number + 10,
            dur: dur.map(Moment),
            begin: begin.map(Moment),
            end: end.map(Moment),
        }
    }

    fn window(begin: u32, end: u32) -> Window {
        Window::new(Moment(begin), Moment(end)).expect("a window")
    }

    /// Number, begin and end of each entry.
    fn listed(shown: &[Document], window: Window) -> Vec<(u32, u32, u32)> {
        schedule(shown, window).iter().map(|entry| (entry.number, entry.begin.0, entry.end.0)).collect()
    }

    fn three() -> Vec<Document> {
        vec![
            document(1, 0, None, None, None),
            document(2, 5_000, Some(3_000), None, None),
            document(3, 6_000, None, Some(12_000), Some(15_000)),
        ]
    }

    #[test]
    fn windows() {
        let made = |begin, end| Window::new(Moment(begin), Moment(end)).is_ok();
        assert!(made(0, 355_199_999) && made(359_999_998, 359_999_999) && made(0, 1));
        assert_eq!(Window::new(Moment(5_000), Moment(5_000)), Err(Refusal::NotAWindow));
        assert_eq!(Window::new(Moment(6_000), Moment(5_000)), Err(Refusal::NotAWindow));
        assert_eq!(Window::new(Moment(0), Moment(360_000_000)), Err(Refusal::NotAWindow));
        assert_eq!(window(0, 355_199_999), Window::WHOLE_ENTRY);
        assert_eq!(window(0, 359_999_999), Window::WHOLE);
    }

    #[test]
    fn the_worked_example() {
        let mut shown = three();
        assert_eq!(
            listed(&shown, window(0, 20_000)),
            [(1, 0, 5_000), (2, 5_000, 8_000), (3, 12_000, 15_000)]
        );
        assert_eq!(listed(&shown, window(6_000, 13_000)), [(2, 6_000, 9_000), (3, 12_000, 13_000)]);
        shown.push(document(4, 10_000, None, None, Some(9_000)));
        assert_eq!(listed(&shown, window(0, 20_000)), [(1, 0, 5_000), (2, 5_000, 8_000)]);
    }

    #[test]
    fn a_document_without_time_still_cuts() {
        let shown = [document(1, 0, None, None, None), document(2, 4_000, Some(0), None, None)];
        assert_eq!(listed(&shown, window(0, 9_000)), [(1, 0, 4_000)]);
    }

    #[test]
    fn all_greater_numbers_cut_not_only_the_next() {
        let shown = [
            document(1, 0, None, None, None),
            document(2, 100, None, Some(8_000), None),
            document(3, 200, None, Some(2_000), None),
        ];
        assert_eq!(listed(&shown, window(0, 9_000)), [(1, 0, 2_000), (3, 2_000, 9_000)]);
    }

    #[test]
    fn nothing_is_listed_from_the_window_end_on() {
        let limit = 355_199_999;
        let late = [document(1, limit, Some(limit), Some(limit), Some(limit))];
        assert_eq!(listed(&late, Window::WHOLE_ENTRY), []);
        let last = [document(1, limit - 1, Some(limit), None, None)];
        assert_eq!(listed(&last, Window::WHOLE_ENTRY), [(1, limit - 1, limit)]);
    }

    #[test]
    fn the_text() {
        let entries = schedule(&three()[..2], window(0, 20_000));
        let wanted =
            "number,begin,end,content\n1,00:00:00.000,00:00:05.000,11\n2,00:00:05.000,00:00:08.000,12\n";
        // Without document 3 the end of 2 is still its own.
        assert_eq!(text(&entries), wanted);
        assert_eq!(wanted.len(), 87);
        assert_eq!(text(&[]).len(), 25);
        let longest =
            Entry { number: u32::MAX, begin: Moment(0), end: Moment(359_999_999), content: u32::MAX };
        assert_eq!(text(&[longest]).len(), 25 + 48);
        assert_eq!(text(&[Entry { number: 1, content: 0, ..longest }]).len(), 25 + 30);
    }

    #[test]
    fn an_output_that_is_too_short_stays_as_it_was() {
        let entries = schedule(&three(), window(0, 20_000));
        let mut records = [Entry::default(); 4];
        assert_eq!(fill(&mut records[..2], &entries), Err(Refusal::OutputTooShort));
        assert_eq!(records, [Entry::default(); 4]);
        assert_eq!(fill(&mut records, &entries), Ok(3));
        assert_eq!((&records[..3], records[3]), (&entries[..], Entry::default()));
        assert_eq!(fill(&mut records[..3], &entries), Ok(3));

        let mut bytes = [b'.'; 26];
        assert_eq!(fill(&mut bytes[..24], NAMES_LINE.as_bytes()), Err(Refusal::OutputTooShort));
        assert_eq!(bytes, [b'.'; 26]);
        assert_eq!(fill(&mut bytes, NAMES_LINE.as_bytes()), Ok(25));
        assert_eq!(&bytes, b"number,begin,end,content\n.");
        assert_eq!(fill::<u8>(&mut [], &[]), Ok(0));
    }
}
