//! The program itself: from a feed of many texts to the two tables.

use crate::live::LiveTable;
use crate::refusal::{Record, Refusal};
use crate::schedule::{self, Entry, Window};
use crate::stream::{Stream, TakingStream};

pub const MAX_INPUT: usize = 65_536;
pub const RECORDS: usize = 256;

const REFUSALS_NAMES_LINE: &str = "document,refusal,line,byte,cause\n";

/// A piece that was refused; pieces are counted from 1. An input that is too long is refused as piece 0.
#[derive(Clone, Copy, Debug, PartialEq, Eq)]
pub struct RefusedPiece {
    pub piece: usize,
    pub record: Record,
}

/// What a feed comes to.
#[derive(Clone, Debug, Default, PartialEq, Eq)]
pub struct Plan {
    pub entries: Vec<Entry>,
    pub refused: Vec<RefusedPiece>,
    /// How many documents were taken, on screen or not.
    pub accepted: usize,
}

impl Plan {
    pub fn of(input: &[u8]) -> Plan {
        if is_over_long(input) {
            let refused = vec![RefusedPiece { piece: 0, record: Refusal::Whole.into() }];
            return Plan { refused, ..Plan::default() };
        }
        let mut table = LiveTable::over(RECORDS);
        let refused = pieces(input)
            .zip(1..)
            .filter_map(|(text, piece)| {
                table.hand_in(text).err().map(|record| RefusedPiece { piece, record })
            })
            .collect();
        Plan {
            entries: schedule::schedule(&table.shown(), Window::WHOLE_ENTRY),
            refused,
            accepted: table.count(),
        }
    }

    /// The two tables as they are printed.
    pub fn text(&self) -> String {
        let lines = self.refused.iter().map(|RefusedPiece { piece, record }| {
            let (refusal, line, byte, cause) = record.numbers();
            format!("{piece},{refusal},{line},{byte},{cause}\n")
        });
        std::iter::once(schedule::text(&self.entries))
            .chain([REFUSALS_NAMES_LINE.to_owned()])
            .chain(lines)
            .collect()
    }
}

pub fn is_over_long(input: &[u8]) -> bool {
    input.len() > MAX_INPUT
}

/// The pieces that are not empty: runs of lines that are not blank. Each keeps its last line feed.
pub fn pieces(input: &[u8]) -> impl Iterator<Item = &[u8]> {
    let mut rest = input;
    std::iter::from_fn(move || {
        let blank_lines = rest.iter().take_while(|&&byte| byte == b'\n').count();
        let (piece, after) = rest[blank_lines..].split_at(piece_length(&rest[blank_lines..]));
        rest = after;
        (!piece.is_empty()).then_some(piece)
    })
}

/// How far a piece reaches that starts at the front: up to its last line feed before a blank line, or to
/// the end of the input.
fn piece_length(input: &[u8]) -> usize {
    input.windows(2).position(|pair| pair == b"\n\n").map_or(input.len(), |at| at + 1)
}

#[cfg(test)]
mod tests {
    use super::*;

    fn parted(input: &str) -> Vec<&str> {
        pieces(input.as_bytes())
            .map(|piece| std::str::from_utf8(piece).expect("parted between letters"))
            .collect()
    }

    #[test]
    fn the_table_of_pieces() {
        assert!(parted("").is_empty() && parted("\n").is_empty() && parted("\n\n\n\n").is_empty());
        assert_eq!(parted("a\nb\n"), ["a\nb\n"]);
        assert_eq!(parted("a\n\nb\n"), ["a\n", "b\n"]);
        assert_eq!(parted("\n\na\nb\n\n\nc"), ["a\nb\n", "c"]);
        assert_eq!(parted("a\n\n\n\n"), ["a\n"]);
        assert_eq!(parted("a"), ["a"]);
        assert_eq!(parted("\na\n \n\r\n\nb"), ["a\n \n\r\n", "b"]);
    }

    #[test]
    fn the_greatest_number_of_pieces() {
        let input = "x\n\n".repeat(21_845) + "x";
        assert_eq!(input.len(), MAX_INPUT);
        assert_eq!(pieces(input.as_bytes()).count(), 21_846);
        let plan = Plan::of(input.as_bytes());
        assert_eq!(plan.refused.len(), 21_846);
        let last = plan.refused[21_845];
        assert_eq!((last.piece, last.record.numbers()), (21_846, (1, 0, 0, 0)));
        assert_eq!(plan.refused[0].record.numbers(), (2, 1, 0, 0));
    }
}
