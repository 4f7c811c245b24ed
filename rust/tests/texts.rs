//! Reading the text of one document: the worked examples and the limits, each worked out by hand.

use yumdrast_check::clock::Moment;
use yumdrast_check::text::{Document, read};

type Numbers = (u8, usize, usize, u8);

const LINES: [&str; 7] = [
    "number,available,content,dur",
    "7,00:00:10.000,12,",
    "level,begin,end",
    "body,,",
    "div,00:00:11.000,",
    "p,00:00:01.000,00:00:04.000",
    "span,,00:00:05.000",
];

fn joined<'a>(lines: impl IntoIterator<Item = &'a str>) -> String {
    lines.into_iter().flat_map(|line| [line, "\n"]).collect()
}

/// The example's first `count` lines.
fn first(count: usize) -> String {
    joined(LINES.into_iter().take(count))
}

/// The example with one line (counted from 1) changed.
fn with(number: usize, line: &str) -> String {
    joined((1..).zip(LINES).map(|(at, good)| if at == number { line } else { good }))
}

/// A text with the example's first three lines and these elements.
fn elements(lines: &[&str]) -> String {
    joined(LINES[..3].iter().chain(lines).copied())
}

fn refused(text: impl AsRef<[u8]>) -> Numbers {
    let text = text.as_ref();
    read(text).expect_err(&text.escape_ascii().to_string()).numbers()
}

/// The document's begin and end.
fn times(text: &str) -> (Option<u32>, Option<u32>) {
    let document = read(text.as_bytes()).unwrap_or_else(|record| panic!("{text}: {record:?}"));
    (document.begin.map(|begin| begin.0), document.end.map(|end| end.0))
}

#[test]
fn the_example() {
    let text = first(7);
    assert_eq!(text.len(), 136);
    let document = Document {
        number: 7,
        available: Moment(10_000),
        content: 12,
        dur: None,
        begin: Some(Moment(11_000)),
        end: Some(Moment(15_000)),
    };
    assert_eq!(read(text.as_bytes()), Ok(document));
}

#[test]
fn the_text_as_a_whole() {
    assert_eq!(refused(""), (1, 0, 0, 0));
    assert_eq!(refused(first(7).trim_end()), (1, 0, 0, 0));
    assert_eq!(refused("x"), (1, 0, 0, 0));
    assert_eq!(refused("\n"), (2, 1, 0, 0));
}

#[test]
fn the_length_limit() {
    // Lines 1 to 4 take 71 bytes and the div 6: 4,019 are left, which are 999 times `p,,` (4 bytes each),
    // a `span,,` (7 bytes) and a `p` with one time (16 bytes).
    let good = first(4) + "div,,\n" + &"p,,\n".repeat(999) + "span,,\n" + "p,00:00:01.000,\n";
    assert_eq!(good.len(), 71 + 6 + 3_996 + 7 + 16);
    assert_eq!(good.len(), 4_096);
    assert_eq!(times(&good), (Some(1_000), None));
    assert_eq!(refused(good.replace("span,,", "span,,x")), (1, 0, 0, 0));
    // The same length with a fault in its last line, 1,006 lines on: it starts at byte 4,080.
    assert_eq!(refused(good.replace("00:00:01.000", "00:00:60.000")), (5, 1_006, 4_082, 3));
}

#[test]
fn names_lines() {
    assert_eq!(refused(format!("\u{feff}{}", first(7))), (2, 1, 0, 0));
    assert_eq!(refused(first(7).replace('\n', "\r\n")), (2, 1, 0, 0));
    assert_eq!(refused(with(1, "Number,available,content,dur")), (2, 1, 0, 0));
    assert_eq!(refused(with(1, "number,available,content,dur ")), (2, 1, 0, 0));
    assert_eq!(refused(with(1, "number,available,content")), (2, 1, 0, 0));
    assert_eq!(refused(first(2)), (2, 3, 48, 0));
    assert_eq!(refused(first(2) + "\n"), (2, 3, 48, 0));
    assert_eq!(refused(with(3, "level,begin,end,")), (2, 3, 48, 0));
    assert_eq!(refused(with(3, "level,begin,en\0")), (2, 3, 48, 0));
}

#[test]
fn the_value_line() {
    assert_eq!(refused(first(1)), (3, 2, 29, 0));
    assert_eq!(refused(first(1) + "\n"), (3, 2, 29, 0));
    let worked = [
        ("7,00:00:10.000,12", (3, 2, 29, 0)),
        ("7,00:00:10.000,12,,", (3, 2, 29, 0)),
        ("0,00:00:10.000,12,", (4, 2, 29, 0)),
        ("07,00:00:10.000,12,", (4, 2, 29, 0)),
        (",00:00:10.000,12,", (4, 2, 29, 0)),
        ("4294967296,00:00:10.000,12,", (4, 2, 29, 0)),
        ("42949672950,00:00:10.000,12,", (4, 2, 29, 0)),
        ("7,,12,", (5, 2, 31, 1)),
        ("7,00:00:10.00x,12,", (5, 2, 31, 2)),
        ("7,00:60:10.000,12,", (5, 2, 31, 3)),
        ("7,98:40:00.000,12,", (5, 2, 31, 4)),
        ("7,00:00:10.000,,", (4, 2, 44, 0)),
        ("7,00:00:10.000,012,", (4, 2, 44, 0)),
        ("7,00:00:10.000,4294967296,", (4, 2, 44, 0)),
        ("7,00:00:10.000,12,3", (5, 2, 47, 1)),
        ("7,00:00:10.000,12,\r", (5, 2, 47, 1)),
        ("7,00:00:10.000,12,98:40:00.000", (5, 2, 47, 4)),
    ];
    for (line, record) in worked {
        assert_eq!(refused(with(2, line)), record, "{line}");
    }
    let greatest = with(2, "4294967295,98:39:59.999,4294967295,98:39:59.999");
    let document = read(greatest.as_bytes()).expect("all at their limits");
    assert_eq!((document.number, document.content), (u32::MAX, u32::MAX));
    assert_eq!((document.available, document.dur), (Moment(355_199_999), Some(Moment(355_199_999))));
    let least = with(2, "1,00:00:00.000,0,00:00:00.000");
    let document = read(least.as_bytes()).expect("all at their least");
    assert_eq!((document.number, document.content, document.dur), (1, 0, Some(Moment(0))));
}

#[test]
fn element_lines() {
    assert_eq!(refused(first(3)), (6, 4, 64, 0));
    assert_eq!(refused(first(3) + "\n"), (3, 4, 64, 0));
    assert_eq!(refused(with(4, "body,")), (3, 4, 64, 0));
    assert_eq!(refused(with(4, "body,,,")), (3, 4, 64, 0));
    for line in ["div,,", "Body,,", ",,", "body ,,"] {
        assert_eq!(refused(with(4, line)), (6, 4, 64, 0), "{line}");
    }
    assert_eq!(refused(first(4) + "\n"), (3, 5, 71, 0));
    for line in ["p,,", "body,,", "span,,", "br,,"] {
        assert_eq!(refused(with(5, line)), (6, 5, 71, 0), "{line}");
    }
    assert_eq!(refused(with(5, "div,00:00:61.000,")), (5, 5, 75, 3));
    assert_eq!(refused(with(5, "div,,00:00:61.000")), (5, 5, 76, 3));
    assert_eq!(refused(with(5, "div,98:40:00.000,")), (5, 5, 75, 4));
    // Coming up by any number of steps is good, going down by two is not: body, div, p, span take 7, 6, 4
    // and 7 bytes, the second div 6, so that the span under it starts at 64 + 30.
    let up = ["body,,", "div,,", "p,,", "span,,", "div,,"];
    assert_eq!(times(&elements(&up)), (None, None));
    assert_eq!(refused(elements(&up) + "span,,\n"), (6, 9, 94, 0));
}

#[test]
fn computed_times_at_the_limit() {
    let late = "body,98:00:00.000,";
    assert_eq!(refused(elements(&[late, "div,00:40:00.000,"])), (7, 5, 87, 0));
    assert_eq!(refused(elements(&[late, "div,00:40:00.000,1"])), (5, 5, 100, 1));
    assert_eq!(refused(elements(&["body,98:00:00.000,98:30:00.000", "div,,00:40:00.000"])), (7, 5, 100, 0));
    assert_eq!(times(&elements(&[late, "div,00:39:59.999,"])), (Some(352_800_000), None));
    assert_eq!(times(&elements(&[late, "div,,00:39:59.999"])), (Some(352_800_000), Some(355_199_999)));
    // A begin and an end past the limit in one line: the begin is the one that is answered.
    assert_eq!(refused(elements(&[late, "div,00:40:00.000,00:40:00.000"])), (7, 5, 87, 0));
    // A computed time on line 5 is answered before anything on line 6.
    assert_eq!(refused(elements(&[late, "div,,00:40:00.000", "x"])), (7, 5, 88, 0));
}

#[test]
fn order_between_faults() {
    assert_eq!(refused(joined(["Number", "x"])), (2, 1, 0, 0));
    assert_eq!(refused(joined([LINES[0], "0,x,y,z", "level"])), (4, 2, 29, 0));
    assert_eq!(refused(joined([LINES[0], "1,x,y,z", "level"])), (5, 2, 31, 1));
    assert_eq!(refused(elements(&["body,00:00:00.00x,", "div"])), (5, 4, 69, 2));
    assert_eq!(refused(elements(&["Body,x,x"])), (6, 4, 64, 0));
    assert_eq!(refused(elements(&["body,x,xx"])), (5, 4, 69, 1));
}

#[test]
fn small_good_texts() {
    assert_eq!(times(&elements(&["body,,"])), (None, None));
    assert_eq!(times(&elements(&["body,00:00:09.000,00:00:04.000"])), (Some(9_000), Some(4_000)));
    let nested = ["body,00:00:10.000,00:00:20.000", "div,00:00:15.000,00:00:12.000"];
    assert_eq!(times(&elements(&nested)), (Some(10_000), Some(20_000)));
    // A written 0 is present: begin 0, end 0.
    assert_eq!(times(&elements(&["body,00:00:00.000,00:00:00.000"])), (Some(0), Some(0)));
}

#[test]
fn what_is_inherited_does_not_count() {
    // The div begins at 5,000 and ends at 9,000; its p inherits both and writes neither. The second div
    // counts from the body again: it ends at 7,000, so the greatest end is 9,000.
    let lines = ["body,,", "div,00:00:05.000,00:00:09.000", "p,,", "div,,00:00:07.000"];
    assert_eq!(times(&elements(&lines)), (Some(5_000), Some(9_000)));
    // The span's end is counted from the p's begin (3,000): 3,000 + 4,000, cut to the p's end of 6,000.
    // The p's own end is counted from the div (0), not from the p's begin.
    let lines = ["body,,", "div,,", "p,00:00:03.000,00:00:06.000", "span,,00:00:04.000"];
    assert_eq!(times(&elements(&lines)), (Some(3_000), Some(6_000)));
    // An end is cut through an element that writes none.
    let lines = ["body,,00:00:05.000", "div,,", "p,00:00:01.000,", "span,,00:00:09.000"];
    assert_eq!(times(&elements(&lines)), (Some(1_000), Some(5_000)));
}
