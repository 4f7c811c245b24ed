//! The live table: documents enter it by rising number and never before its entry moment.

use crate::clock::Moment;
use crate::refusal::Refusal;
use crate::stream::{MAX_DOCUMENTS, Stream, TakingStream};
use crate::text::Document;

#[derive(Clone, Debug, PartialEq, Eq)]
pub struct LiveTable {
    shown: Vec<Document>,
    capacity: usize,
    entry_moment: Moment,
}

impl LiveTable {
    /// However many records there are, a table uses no more than it may show.
    pub fn over(records: usize) -> LiveTable {
        LiveTable { shown: Vec::new(), capacity: records.min(MAX_DOCUMENTS), entry_moment: Moment::ZERO }
    }
}

impl Stream for LiveTable {
    fn count(&self) -> usize {
        self.shown.len()
    }

    fn document(&self, place: usize) -> Option<Document> {
        self.shown.get(place).copied()
    }

    /// In a live table nothing stands between the entry and the reader.
    fn settled_moment(&self) -> Moment {
        self.entry_moment
    }

    fn total_adjustment(&self) -> u32 {
        0
    }
}

impl TakingStream for LiveTable {
    fn entry_moment(&self) -> Moment {
        self.entry_moment
    }

    fn take(&mut self, document: Document) -> Result<(), Refusal> {
        if document.number == 0 {
            return Err(Refusal::NotANumber);
        }
        let optional = [document.begin, document.end, document.dur];
        let mut times = optional.into_iter().flatten().chain([document.available]);
        if times.any(|time| time > Moment::ENTRY_LIMIT) {
            return Err(Refusal::PastEntryLimit);
        }
        if document.available < self.entry_moment {
            return Err(Refusal::BeforeEntryMoment);
        }
        if self.shown.last().is_some_and(|last| document.number <= last.number) {
            return Err(Refusal::NumberNotAbove);
        }
        if self.shown.len() == self.capacity {
            return Err(Refusal::NoRecordLeft);
        }
        self.entry_moment = document.available;
        self.shown.push(document);
        Ok(())
    }

    fn tick(&mut self, moment: Moment) -> Result<(), Refusal> {
        if moment < self.entry_moment {
            return Err(Refusal::BeforeEntryMoment);
        }
        if moment > Moment::ENTRY_LIMIT {
            return Err(Refusal::TickPastEntryLimit);
        }
        self.entry_moment = moment;
        Ok(())
    }
}

#[cfg(test)]
mod tests {
    use super::*;

    fn plain(number: u32, available: u32) -> Document {
        Document { number, available: Moment(available), ..Document::default() }
    }

    fn numbers(table: &LiveTable) -> Vec<u32> {
        table.shown().iter().map(|document| document.number).collect()
    }

    #[test]
    fn the_worked_example() {
        let mut table = LiveTable::over(2);
        assert_eq!(table.tick(Moment(1_000)), Ok(()));
        assert_eq!(table.take(plain(3, 999)), Err(Refusal::BeforeEntryMoment));
        assert_eq!(table.take(plain(0, 999)), Err(Refusal::NotANumber));
        assert_eq!((numbers(&table), table.entry_moment()), (vec![], Moment(1_000)));
        assert_eq!(table.take(plain(3, 1_000)), Ok(()));
        assert_eq!(table.take(plain(3, 1_000)), Err(Refusal::NumberNotAbove));
        assert_eq!(table.take(plain(3, 900)), Err(Refusal::BeforeEntryMoment));
        let timed = Document { dur: Some(Moment(3_000)), ..plain(9, 6_000) };
        assert_eq!(table.take(timed), Ok(()));
        assert_eq!(table.take(plain(9, 7_000)), Err(Refusal::NumberNotAbove));
        assert_eq!(table.take(plain(10, 7_000)), Err(Refusal::NoRecordLeft));
        let too_long = Document { dur: Some(Moment(355_200_000)), ..plain(10, 7_000) };
        assert_eq!(table.take(too_long), Err(Refusal::PastEntryLimit));
        assert_eq!(table.tick(Moment(5_999)), Err(Refusal::BeforeEntryMoment));
        assert_eq!(table.tick(Moment(355_200_000)), Err(Refusal::TickPastEntryLimit));
        assert_eq!((numbers(&table), table.settled_moment()), (vec![3, 9], Moment(6_000)));
        assert_eq!(table.tick(Moment(355_199_999)), Ok(()));
        assert_eq!((numbers(&table), table.entry_moment()), (vec![3, 9], Moment(355_199_999)));
        assert_eq!(table.shown()[1], timed);
        assert_eq!(table.total_adjustment(), 0);
    }

    #[test]
    fn each_time_may_reach_the_entry_limit_and_not_pass_it() {
        let (limit, past) = (Moment(355_199_999), Moment(355_200_000));
        let with = |available, dur, begin, end| Document {
            number: 1,
            available,
            content: 0,
            dur: Some(dur),
            begin: Some(begin),
            end: Some(end),
        };
        assert_eq!(LiveTable::over(1).take(with(limit, limit, limit, limit)), Ok(()));
        let refused = [
            with(past, limit, limit, limit),
            with(limit, past, limit, limit),
            with(limit, limit, past, limit),
            with(limit, limit, limit, past),
        ];
        for document in refused {
            assert_eq!(LiveTable::over(1).take(document), Err(Refusal::PastEntryLimit));
        }
        assert_eq!(LiveTable::over(1).take(Document { number: 0, ..refused[0] }), Err(Refusal::NotANumber));
    }

    #[test]
    fn ticks() {
        let mut table = LiveTable::over(1);
        assert_eq!(table.tick(Moment(5_000)), Ok(()));
        assert_eq!(table.tick(Moment(5_000)), Ok(()));
        assert_eq!(table.tick(Moment(4_999)), Err(Refusal::BeforeEntryMoment));
        assert_eq!(table.tick(Moment(400_000_000)), Err(Refusal::TickPastEntryLimit));
        assert_eq!(table.entry_moment(), Moment(5_000));
    }

    #[test]
    fn the_capacity_is_at_most_4096_and_may_be_nothing() {
        assert_eq!(LiveTable::over(0).take(plain(1, 0)), Err(Refusal::NoRecordLeft));
        let mut table = LiveTable::over(5_000);
        for number in 1..=4_096 {
            assert_eq!(table.take(plain(number, 0)), Ok(()));
        }
        assert_eq!(table.take(plain(4_097, 0)), Err(Refusal::NoRecordLeft));
        assert_eq!(table.shown().len(), 4_096);
    }

    fn text(values: &str, element: &str) -> String {
        format!("number,available,content,dur\n{values}\nlevel,begin,end\n{element}\n")
    }

    #[test]
    fn hand_in_judges_the_text_before_the_table() {
        let mut table = LiveTable::over(2);
        assert_eq!(table.take(plain(6, 20_000)), Ok(()));
        let before = table.clone();
        let refused = [
            ("7,00:00:10.000,12,", "body,,", (8, 0, 0, 0)),
            ("6,00:00:30.000,12,", "body,,", (9, 0, 0, 0)),
            ("6,00:00:10.000,12,", "body,,", (8, 0, 0, 0)),
            ("6,00:00:10.000,12,", "body,", (3, 4, 64, 0)),
        ];
        for (values, element, numbers) in refused {
            let answer = table.hand_in(text(values, element).as_bytes());
            assert_eq!(answer.map_err(|record| record.numbers()), Err(numbers));
            assert_eq!(table, before);
        }
        assert_eq!(table.hand_in(text("7,00:00:20.000,12,", "body,,").as_bytes()), Ok(()));
        assert_eq!((numbers(&table), table.entry_moment()), (vec![6, 7], Moment(20_000)));
        let full = table.hand_in(text("8,00:00:20.000,12,", "body,,").as_bytes());
        assert_eq!(full.map_err(|record| record.numbers()), Err((10, 0, 0, 0)));
    }
}
