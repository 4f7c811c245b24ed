//! The fixed refusal numbers, and the record that says where in a text the fault lies.

use crate::clock::TimeCause;

/// Every reason for which a call is refused. The numbers never change.
#[derive(Clone, Copy, Debug, PartialEq, Eq, PartialOrd, Ord, Hash)]
#[repr(u8)]
pub enum Refusal {
    /// The text is empty, too long, or its last byte is no line feed.
    Whole = 1,
    /// A names line is missing or different.
    Names = 2,
    /// The value line is missing, or a line has the wrong number of fields.
    FieldCount = 3,
    NotANumber = 4,
    NotATime = 5,
    /// A level is unknown or out of place, or there is no element.
    Level = 6,
    PastEntryLimit = 7,
    BeforeEntryMoment = 8,
    NumberNotAbove = 9,
    NoRecordLeft = 10,
    TickPastEntryLimit = 11,
    AdjustmentTooGreat = 12,
    TotalAdjustmentTooGreat = 13,
    NotAWindow = 14,
    PastLastMoment = 15,
    NotShown = 16,
    OutputTooShort = 17,
    PreparedList = 18,
}

impl Refusal {
    /// Those that handing in a text can give.
    pub const OF_HAND_IN: [Refusal; 10] = [
        Refusal::Whole,
        Refusal::Names,
        Refusal::FieldCount,
        Refusal::NotANumber,
        Refusal::NotATime,
        Refusal::Level,
        Refusal::PastEntryLimit,
        Refusal::BeforeEntryMoment,
        Refusal::NumberNotAbove,
        Refusal::NoRecordLeft,
    ];

    /// The fixed number of the refusal.
    pub const fn number(self) -> u8 {
        self as u8
    }
}

/// A refusal of a text, with the place of the fault.
#[derive(Clone, Copy, Debug, PartialEq, Eq)]
pub struct Record {
    pub refusal: Refusal,
    /// Counted from 1; 0 if the fault has no place in the text.
    pub line: usize,
    /// Counted from 0, from the start of the text.
    pub byte: usize,
    /// Present with [`Refusal::NotATime`] only.
    pub cause: Option<TimeCause>,
}

impl Record {
    pub fn at(refusal: Refusal, line: usize, byte: usize) -> Record {
        Record { refusal, line, byte, cause: None }
    }

    /// The four numbers as they are printed: refusal, line, byte, cause.
    pub fn numbers(&self) -> (u8, usize, usize, u8) {
        (self.refusal.number(), self.line, self.byte, self.cause.map_or(0, TimeCause::number))
    }
}

/// A refusal that concerns the text or the stream as a whole points nowhere.
impl From<Refusal> for Record {
    fn from(refusal: Refusal) -> Record {
        Record::at(refusal, 0, 0)
    }
}

#[cfg(test)]
mod tests {
    use super::*;

    #[test]
    fn the_numbers_are_fixed() {
        assert_eq!(Refusal::OF_HAND_IN.map(Refusal::number), [1, 2, 3, 4, 5, 6, 7, 8, 9, 10]);
        assert_eq!(TimeCause::ALL.map(TimeCause::number), [1, 2, 3, 4]);
        assert_eq!(Refusal::TickPastEntryLimit.number(), 11);
        assert_eq!(Refusal::AdjustmentTooGreat.number(), 12);
        assert_eq!(Refusal::TotalAdjustmentTooGreat.number(), 13);
        assert_eq!(Refusal::NotAWindow.number(), 14);
        assert_eq!(Refusal::PastLastMoment.number(), 15);
        assert_eq!(Refusal::NotShown.number(), 16);
        assert_eq!(Refusal::OutputTooShort.number(), 17);
        assert_eq!(Refusal::PreparedList.number(), 18);
    }

    #[test]
    fn a_record_prints_four_numbers() {
        assert_eq!(Record::from(Refusal::NoRecordLeft).numbers(), (10, 0, 0, 0));
        let timed = Record { cause: Some(TimeCause::Sixty), ..Record::at(Refusal::NotATime, 5, 75) };
        assert_eq!(timed.numbers(), (5, 5, 75, 3));
    }
}
