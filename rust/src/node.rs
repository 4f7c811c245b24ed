//! Delay nodes: a holder or a retimer over a stream is a stream again.

use crate::clock::Moment;
use crate::refusal::Refusal;
use crate::stream::{Stream, TakingStream};
use crate::text::Document;

pub const MAX_ADJUSTMENT: u32 = 600_000;
pub const MAX_TOTAL: u32 = 4_800_000;

/// An approved adjustment. Only [`Adjustment::approve`] makes one.
#[derive(Clone, Copy, Debug, PartialEq, Eq)]
pub struct Adjustment(u32);

impl Adjustment {
    pub fn approve(against: &(impl Stream + ?Sized), length: u32) -> Result<Adjustment, Refusal> {
        if length > MAX_ADJUSTMENT {
            return Err(Refusal::AdjustmentTooGreat);
        }
        if against.total_adjustment() + length > MAX_TOTAL {
            return Err(Refusal::TotalAdjustmentTooGreat);
        }
        Ok(Adjustment(length))
    }
}

#[derive(Clone, Copy, Debug, PartialEq, Eq)]
pub enum Kind {
    /// Keeps a document back as a whole.
    Holder,
    /// Hands a document on at once, with a later begin.
    Retimer,
}

#[derive(Clone, Debug, PartialEq, Eq)]
pub struct Node<S> {
    below: S,
    kind: Kind,
    /// The adjustment in force.
    delay: u32,
}

impl<S: Stream> Node<S> {
    /// Never refused: where the stream below has less left than was approved, the node delays by that.
    pub fn over(below: S, kind: Kind, approved: Adjustment) -> Node<S> {
        let left = MAX_TOTAL - below.total_adjustment();
        Node { delay: approved.0.min(left), below, kind }
    }

    fn later(&self, moment: Moment) -> Moment {
        Moment(moment.0 + self.delay)
    }

    fn altered(&self, document: Document) -> Document {
        let end = document.end.map(|end| self.later(end));
        match self.kind {
            Kind::Holder => Document {
                available: self.later(document.available),
                begin: document.begin.map(|begin| self.later(begin)),
                end,
                ..document
            },
            Kind::Retimer => {
                let due = document.begin.map_or(document.available, |begin| begin.max(document.available));
                Document { begin: Some(self.later(due)), end, ..document }
            }
        }
    }
}

impl<S: Stream> Stream for Node<S> {
    fn count(&self) -> usize {
        self.below.count()
    }

    fn document(&self, place: usize) -> Option<Document> {
        self.below.document(place).map(|document| self.altered(document))
    }

    fn settled_moment(&self) -> Moment {
        self.later(self.below.settled_moment())
    }

    fn total_adjustment(&self) -> u32 {
        self.below.total_adjustment() + self.delay
    }
}

impl<S: TakingStream> TakingStream for Node<S> {
    fn entry_moment(&self) -> Moment {
        self.below.entry_moment()
    }

    fn take(&mut self, document: Document) -> Result<(), Refusal> {
        self.below.take(document)
    }

    fn tick(&mut self, moment: Moment) -> Result<(), Refusal> {
        self.below.tick(moment)
    }
}

#[cfg(test)]
mod tests {
    use super::*;
    use crate::live::LiveTable;

    /// A stream of a given total, for the rules that look at nothing else.
    struct Total(u32);

    impl Stream for Total {
        fn count(&self) -> usize {
            0
        }

        fn document(&self, _: usize) -> Option<Document> {
            None
        }

        fn settled_moment(&self) -> Moment {
            Moment(360_000_000 + self.0)
        }

        fn total_adjustment(&self) -> u32 {
            self.0
        }
    }

    /// Available, begin, end, dur.
    type Times = (u32, Option<u32>, Option<u32>, Option<u32>);

    fn document(number: u32, (available, begin, end, dur): Times) -> Document {
        Document {
            number,
            available: Moment(available),
            content: number + 10,
            dur: dur.map(Moment),
            begin: begin.map(Moment),
            end: end.map(Moment),
        }
    }

    fn times(stream: &impl Stream) -> Vec<Times> {
        let value = |moment: Option<Moment>| moment.map(|moment| moment.0);
        let shown = stream.shown().into_iter();
        shown
            .map(|document| {
                let Document { available, begin, end, dur, .. } = document;
                (available.0, value(begin), value(end), value(dur))
            })
            .collect()
    }

    fn table(documents: &[Times]) -> LiveTable {
        let mut table = LiveTable::over(64);
        for (number, &times) in (1..).zip(documents) {
            assert_eq!(table.take(document(number, times)), Ok(()));
        }
        table
    }

    fn over<S: Stream>(below: S, kind: Kind, length: u32) -> Node<S> {
        let approved = Adjustment::approve(&below, length).expect("a good adjustment");
        Node::over(below, kind, approved)
    }

    #[test]
    fn approval() {
        let number = |total, length| Adjustment::approve(&Total(total), length).map_err(Refusal::number);
        assert_eq!(number(0, 0), Ok(Adjustment(0)));
        assert_eq!(number(0, 600_000), Ok(Adjustment(600_000)));
        assert_eq!(number(0, 600_001), Err(12));
        assert_eq!(number(0, u32::MAX), Err(12));
        assert_eq!(number(4_200_000, 600_000), Ok(Adjustment(600_000)));
        assert_eq!(number(4_200_001, 599_999), Ok(Adjustment(599_999)));
        assert_eq!(number(4_200_001, 600_000), Err(13));
        assert_eq!(number(4_200_001, 600_001), Err(12));
        assert_eq!(number(4_800_000, 0), Ok(Adjustment(0)));
        assert_eq!(number(4_800_000, 1), Err(13));
    }

    #[test]
    fn the_adjustment_in_force() {
        let approved = Adjustment::approve(&Total(0), 600_000).expect("the limit itself");
        for (total, delay) in [(0, 600_000), (4_200_000, 600_000), (4_500_000, 300_000), (4_800_000, 0)] {
            for kind in [Kind::Holder, Kind::Retimer] {
                let node = Node::over(Total(total), kind, approved);
                assert_eq!(node.total_adjustment(), total + delay);
                assert_eq!(node.settled_moment(), Moment(360_000_000 + total + delay));
            }
        }
    }

    #[test]
    fn the_two_alterations() {
        let limit = 355_199_999;
        let below = table(&[
            (10_000, None, None, None),
            (10_000, Some(5_000), None, None),
            (10_000, Some(12_000), Some(15_000), None),
            (10_000, Some(10_000), Some(9_000), Some(4_000)),
            (limit, None, None, Some(limit)),
        ]);
        let held = [
            (13_000, None, None, None),
            (13_000, Some(8_000), None, None),
            (13_000, Some(15_000), Some(18_000), None),
            (13_000, Some(13_000), Some(12_000), Some(4_000)),
            (355_202_999, None, None, Some(limit)),
        ];
        let retimed = [
            (10_000, Some(13_000), None, None),
            (10_000, Some(13_000), None, None),
            (10_000, Some(15_000), Some(18_000), None),
            (10_000, Some(13_000), Some(12_000), Some(4_000)),
            (limit, Some(355_202_999), None, Some(limit)),
        ];
        assert_eq!(times(&over(below.clone(), Kind::Holder, 3_000)), held);
        assert_eq!(times(&over(below.clone(), Kind::Retimer, 3_000)), retimed);
        assert_eq!(times(&over(below.clone(), Kind::Holder, 0)), times(&below));
        let begins: Vec<_> = times(&over(below, Kind::Retimer, 0)).iter().map(|times| times.1).collect();
        assert_eq!(begins, [10_000, 10_000, 12_000, 10_000, limit].map(Some));
    }

    #[test]
    fn the_worked_stack() {
        let below = table(&[
            (0, None, None, None),
            (5_000, None, None, Some(3_000)),
            (6_000, Some(12_000), Some(15_000), None),
        ]);
        let holder = over(below, Kind::Holder, 2_000);
        let held = [
            (2_000, None, None, None),
            (7_000, None, None, Some(3_000)),
            (8_000, Some(14_000), Some(17_000), None),
        ];
        assert_eq!(times(&holder), held);
        assert_eq!((holder.settled_moment(), holder.total_adjustment()), (Moment(8_000), 2_000));

        let mut stack = over(holder, Kind::Retimer, 3_000);
        let shown = [
            (2_000, Some(5_000), None, None),
            (7_000, Some(10_000), None, Some(3_000)),
            (8_000, Some(17_000), Some(20_000), None),
        ];
        assert_eq!(times(&stack), shown);
        assert_eq!((stack.settled_moment(), stack.total_adjustment()), (Moment(11_000), 5_000));
        assert_eq!(stack.entry_moment(), Moment(6_000));

        assert_eq!(stack.take(document(4, (5_999, None, None, None))), Err(Refusal::BeforeEntryMoment));
        assert_eq!(stack.take(document(4, (10_000, Some(5_000), None, None))), Ok(()));
        assert_eq!(times(&stack.below)[3], (12_000, Some(7_000), None, None));
        assert_eq!(times(&stack)[3], (12_000, Some(15_000), None, None));
        assert_eq!((stack.entry_moment(), stack.settled_moment()), (Moment(10_000), Moment(15_000)));
    }

    #[test]
    fn take_and_tick_go_down_and_refusals_come_up() {
        let mut stack = over(over(LiveTable::over(1), Kind::Holder, 2_000), Kind::Holder, 0);
        assert_eq!(stack.tick(Moment(5_000)), Ok(()));
        assert_eq!((stack.entry_moment(), stack.settled_moment()), (Moment(5_000), Moment(7_000)));
        assert_eq!(stack.tick(Moment(4_999)), Err(Refusal::BeforeEntryMoment));
        assert_eq!(stack.tick(Moment(355_200_000)), Err(Refusal::TickPastEntryLimit));
        let late = document(1, (355_200_000, None, None, None));
        assert_eq!(stack.take(late), Err(Refusal::PastEntryLimit));
        assert_eq!(stack.take(document(9, (355_199_999, None, None, None))), Ok(()));
        assert_eq!(stack.take(document(9, (355_199_999, None, None, None))), Err(Refusal::NumberNotAbove));
        assert_eq!(stack.take(document(10, (355_199_999, None, None, None))), Err(Refusal::NoRecordLeft));
        assert_eq!(times(&stack), [(355_201_999, None, None, None)]);
    }

    #[test]
    fn eight_of_ten_minutes_reach_the_last_moment() {
        let mut stack: Box<dyn TakingStream> = Box::new(table(&[(355_199_999, None, None, None)]));
        for kind in [Kind::Holder, Kind::Retimer].into_iter().cycle().take(8) {
            stack = Box::new(over(stack, kind, 600_000));
        }
        assert_eq!(stack.total_adjustment(), 4_800_000);
        assert_eq!(stack.settled_moment(), Moment::LAST);
        let Document { available, begin, .. } = stack.document(0).expect("one document");
        assert_eq!((available, begin), (Moment(357_599_999), Some(Moment::LAST)));
        assert_eq!(Adjustment::approve(&stack, 1), Err(Refusal::TotalAdjustmentTooGreat));
        assert_eq!(Adjustment::approve(&stack, 0), Ok(Adjustment(0)));
    }
}
