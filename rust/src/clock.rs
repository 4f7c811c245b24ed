//! Clock times: twelve bytes `hh:mm:ss.fff` on the outside, a count of milliseconds on the inside.

use std::fmt;

use crate::refusal::Refusal;

/// A point in time, or a length of time, in whole milliseconds.
///
/// Any `u32` can be held, also one past the limits: that a moment is within a limit is checked where it
/// comes in or goes out.
#[derive(Clone, Copy, Debug, Default, PartialEq, Eq, PartialOrd, Ord, Hash)]
pub struct Moment(pub u32);

/// How many bytes a written time has.
pub const TIME_LENGTH: usize = 12;

/// Why some bytes are not a time.
#[derive(Clone, Copy, Debug, PartialEq, Eq, PartialOrd, Ord, Hash)]
#[repr(u8)]
pub enum TimeCause {
    Length = 1,
    Byte = 2,
    Sixty = 3,
    PastEntryLimit = 4,
}

impl TimeCause {
    pub const ALL: [TimeCause; 4] =
        [TimeCause::Length, TimeCause::Byte, TimeCause::Sixty, TimeCause::PastEntryLimit];

    /// The fixed number of the cause.
    pub const fn number(self) -> u8 {
        self as u8
    }
}

impl Moment {
    pub const ZERO: Moment = Moment(0);
    /// The greatest time that may come in, 98:39:59.999.
    pub const ENTRY_LIMIT: Moment = Moment(355_199_999);
    /// The greatest time that can be written, 99:59:59.999.
    pub const LAST: Moment = Moment(359_999_999);

    /// Reads a time. Each cause is judged over all the bytes before the next one is looked at.
    pub fn read(bytes: &[u8]) -> Result<Moment, TimeCause> {
        let time: &[u8; TIME_LENGTH] = bytes.try_into().map_err(|_| TimeCause::Length)?;
        if !time.iter().zip(FORM).all(|(&byte, &place)| fits(byte, place)) {
            return Err(TimeCause::Byte);
        }
        let [hours, minutes, seconds] = [0, 3, 6].map(|at| decimal(&time[at..at + 2]));
        let milliseconds = decimal(&time[9..]);
        if minutes > 59 || seconds > 59 {
            return Err(TimeCause::Sixty);
        }
        Some(Moment(((hours * 60 + minutes) * 60 + seconds) * 1000 + milliseconds))
            .filter(|&moment| moment <= Moment::ENTRY_LIMIT)
            .ok_or(TimeCause::PastEntryLimit)
    }

    /// Writes the time into the first twelve bytes of `output`, or leaves `output` as it was.
    pub fn write(self, output: &mut [u8]) -> Result<(), Refusal> {
        if self > Moment::LAST {
            return Err(Refusal::PastLastMoment);
        }
        let place = output.get_mut(..TIME_LENGTH).ok_or(Refusal::OutputTooShort)?;
        place.copy_from_slice(self.to_string().as_bytes());
        Ok(())
    }

    /// The sum, if it is within the entry limit.
    pub fn plus_within_entry(self, length: Moment) -> Option<Moment> {
        self.0.checked_add(length.0).map(Moment).filter(|&sum| sum <= Moment::ENTRY_LIMIT)
    }
}

/// The written form. Only moments up to [`Moment::LAST`] come out at twelve bytes; [`Moment::write`]
/// refuses the others.
impl fmt::Display for Moment {
    fn fmt(&self, f: &mut fmt::Formatter<'_>) -> fmt::Result {
        let Moment(all) = *self;
        let (hours, minutes, seconds) = (all / 3_600_000, all / 60_000 % 60, all / 1_000 % 60);
        write!(f, "{hours:02}:{minutes:02}:{seconds:02}.{:03}", all % 1_000)
    }
}

/// The written form; `d` stands for any digit, every other byte for itself.
const FORM: &[u8; TIME_LENGTH] = b"dd:dd:dd.ddd";

fn fits(byte: u8, place: u8) -> bool {
    if place == b'd' { byte.is_ascii_digit() } else { byte == place }
}

/// The value of a short run of digits, already known to be digits.
fn decimal(digits: &[u8]) -> u32 {
    digits.iter().fold(0, |value, &digit| value * 10 + u32::from(digit - b'0'))
}

#[cfg(test)]
mod tests {
    use super::*;

    #[test]
    fn reads_times_up_to_the_entry_limit() {
        assert_eq!(Moment::read(b"00:00:00.000"), Ok(Moment(0)));
        assert_eq!(Moment::read(b"00:00:00.001"), Ok(Moment(1)));
        assert_eq!(Moment::read(b"00:00:59.999"), Ok(Moment(59_999)));
        assert_eq!(Moment::read(b"00:59:00.000"), Ok(Moment(3_540_000)));
        assert_eq!(Moment::read(b"06:30:04.320"), Ok(Moment(23_404_320)));
        assert_eq!(Moment::read(b"98:39:59.999"), Ok(Moment(355_199_999)));
    }

    #[test]
    fn answers_the_first_cause_over_all_bytes() {
        use TimeCause::{Byte, Length, PastEntryLimit, Sixty};
        let refused: [(&[u8], TimeCause); 19] = [
            (b"", Length),
            (b"1:00:00.000", Length),
            (b"00:00:00.0000", Length),
            (b"99:99:99.99", Length),
            (b"00:60:00.00x", Byte),
            (b"00:00:00,000", Byte),
            (b"00.00:00.000", Byte),
            (b"00:00.00.000", Byte),
            (b"00:00:00:000", Byte),
            (b"/0:00:00.000", Byte),
            (b"0::00:00.000", Byte),
            (b"00:00:00.00\r", Byte),
            (b"00:00:00.00\xb0", Byte),
            (b"00:00:61.000", Sixty),
            (b"00:60:00.000", Sixty),
            (b"00:00:60.000", Sixty),
            (b"99:60:00.000", Sixty),
            (b"98:40:00.000", PastEntryLimit),
            (b"99:59:59.999", PastEntryLimit),
        ];
        for (bytes, cause) in refused {
            assert_eq!(Moment::read(bytes), Err(cause), "{}", bytes.escape_ascii());
        }
    }

    #[test]
    fn every_place_refuses_the_bytes_next_to_the_good_ones() {
        for place in 0..TIME_LENGTH {
            for wrong in [b'0' - 1, b'9' + 1, b'.', b':', b'0', b' ', 0, 255] {
                let mut bytes = *b"00:00:00.000";
                let good = match place {
                    2 | 5 => wrong == b':',
                    8 => wrong == b'.',
                    _ => wrong == b'0',
                };
                bytes[place] = wrong;
                assert_eq!(Moment::read(&bytes).is_ok(), good, "{}", bytes.escape_ascii());
            }
        }
    }

    #[test]
    fn writes_up_to_the_last_moment_and_leaves_the_rest_alone() {
        let mut output = *b"..............";
        assert_eq!(Moment(23_404_320).write(&mut output), Ok(()));
        assert_eq!(&output, b"06:30:04.320..");
        assert_eq!(Moment(359_999_999).write(&mut output), Ok(()));
        assert_eq!(&output, b"99:59:59.999..");
        assert_eq!(Moment(360_000_000).write(&mut output), Err(Refusal::PastLastMoment));
        assert_eq!(Moment(0).write(&mut output[..11]), Err(Refusal::OutputTooShort));
        assert_eq!(Moment(360_000_000).write(&mut output[..11]), Err(Refusal::PastLastMoment));
        assert_eq!(Moment(u32::MAX).write(&mut []), Err(Refusal::PastLastMoment));
        assert_eq!(&output, b"99:59:59.999..");
    }

    #[test]
    fn there_and_back() {
        // A prime step, so that every part of the clock takes many values.
        for value in (0..=Moment::LAST.0).step_by(40_013) {
            let written = Moment(value).to_string();
            let wanted =
                if value <= 355_199_999 { Ok(Moment(value)) } else { Err(TimeCause::PastEntryLimit) };
            assert_eq!(Moment::read(written.as_bytes()), wanted, "{written}");
        }
        assert_eq!(Moment::read(Moment(355_200_000).to_string().as_bytes()), Err(TimeCause::PastEntryLimit));
    }

    #[test]
    fn a_sum_may_reach_the_entry_limit() {
        let (most, one) = (Moment(355_199_998), Moment(1));
        assert_eq!(most.plus_within_entry(one), Some(Moment::ENTRY_LIMIT));
        assert_eq!(most.plus_within_entry(Moment(2)), None);
        assert_eq!(Moment(u32::MAX).plus_within_entry(one), None);
    }
}
