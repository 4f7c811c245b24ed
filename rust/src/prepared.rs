//! The prepared list: subtitles that are finished before they are shown.

use crate::clock::Moment;
use crate::refusal::Refusal;
use crate::stream::{MAX_DOCUMENTS, Stream};
use crate::text::Document;

#[derive(Clone, Copy, Debug, PartialEq, Eq)]
pub struct PreparedEntry {
    pub begin: Moment,
    pub end: Moment,
    pub content: u32,
}

/// A stream that does not take. Only [`PreparedList::open`] makes one.
#[derive(Clone, Debug, PartialEq, Eq)]
pub struct PreparedList {
    entries: Vec<PreparedEntry>,
}

impl PreparedList {
    /// Later than every moment that can be asked about: nothing comes in any more.
    const SETTLED: Moment = Moment(360_000_000);

    pub fn open(entries: Vec<PreparedEntry>) -> Result<PreparedList, Refusal> {
        let each_good =
            entries.iter().all(|entry| entry.begin < entry.end && entry.end <= Moment::ENTRY_LIMIT);
        let begins_never_fall = entries.is_sorted_by_key(|entry| entry.begin);
        if each_good && begins_never_fall && entries.len() <= MAX_DOCUMENTS {
            Ok(PreparedList { entries })
        } else {
            Err(Refusal::PreparedList)
        }
    }
}

impl Stream for PreparedList {
    fn count(&self) -> usize {
        self.entries.len()
    }

    fn document(&self, place: usize) -> Option<Document> {
        let entry = self.entries.get(place)?;
        let number = u32::try_from(place + 1).expect("at most 4,096");
        Some(Document {
            number,
            available: Moment::ZERO,
            content: entry.content,
            dur: None,
            begin: Some(entry.begin),
            end: Some(entry.end),
        })
    }

    fn settled_moment(&self) -> Moment {
        PreparedList::SETTLED
    }

    fn total_adjustment(&self) -> u32 {
        0
    }
}

#[cfg(test)]
mod tests {
    use super::*;

    /// Entries of begin and end; the contents are 901 and on.
    pub fn list(times: &[(u32, u32)]) -> Vec<PreparedEntry> {
        (901..)
            .zip(times)
            .map(|(content, &(begin, end))| PreparedEntry { begin: Moment(begin), end: Moment(end), content })
            .collect()
    }

    #[test]
    fn which_lists_open() {
        let good: [&[(u32, u32)]; 5] = [
            &[],
            &[(0, 1)],
            &[(355_199_998, 355_199_999)],
            &[(0, 4_000), (4_000, 9_500), (4_000, 8_000)],
            &[(0, 30_000), (5_000, 6_000)],
        ];
        for times in good {
            assert!(PreparedList::open(list(times)).is_ok(), "{times:?}");
        }
        let refused: [&[(u32, u32)]; 7] = [
            &[(5_000, 5_000)],
            &[(5_000, 4_999)],
            &[(0, 355_200_000)],
            &[(355_199_999, 355_200_000)],
            &[(0, 4_000), (4_000, 9_500), (3_999, 8_000)],
            &[(0, 1), (0, 0)],
            &[(u32::MAX, u32::MAX)],
        ];
        for times in refused {
            assert_eq!(PreparedList::open(list(times)), Err(Refusal::PreparedList), "{times:?}");
        }
        assert_eq!(PreparedList::open(list(&[(0, 1); 4_096])).map(|open| open.count()), Ok(4_096));
        assert_eq!(PreparedList::open(list(&[(0, 1); 4_097])), Err(Refusal::PreparedList));
    }

    #[test]
    fn the_parts() {
        let open = PreparedList::open(list(&[(0, 4_000), (4_000, 9_500)])).expect("a good list");
        assert_eq!(
            (open.count(), open.settled_moment(), open.total_adjustment()),
            (2, Moment(360_000_000), 0)
        );
        let second = Document {
            number: 2,
            available: Moment(0),
            content: 902,
            dur: None,
            begin: Some(Moment(4_000)),
            end: Some(Moment(9_500)),
        };
        assert_eq!(open.document(1), Some(second));
        assert_eq!(open.document(2), None);
    }
}
