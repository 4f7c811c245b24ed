//! Whole feeds: what the program prints, each worked out by hand.

use std::fs;
use std::path::Path;

use yumdrast_check::showplan::Plan;

const SCHEDULE_NAMES: &str = "number,begin,end,content\n";
const REFUSAL_NAMES: &str = "document,refusal,line,byte,cause\n";

/// A document of four lines.
fn plain(values: &str) -> String {
    timed(values, "body,,\n")
}

fn timed(values: &str, elements: &str) -> String {
    format!("number,available,content,dur\n{values}\nlevel,begin,end\n{elements}")
}

fn printed(input: impl AsRef<[u8]>) -> String {
    Plan::of(input.as_ref()).text()
}

fn tables(entries: &str, refusals: &str) -> String {
    format!("{SCHEDULE_NAMES}{entries}{REFUSAL_NAMES}{refusals}")
}

#[test]
fn three_pieces() {
    let input =
        [plain("1,00:00:00.000,11,"), plain("2,00:00:05.000,12,00:00:03.000"), plain("2,00:00:06.000,13,")]
            .join("\n");
    assert_eq!(input.len(), 227);
    let entries = "1,00:00:00.000,00:00:05.000,11\n2,00:00:05.000,00:00:08.000,12\n";
    assert_eq!(printed(input), tables(entries, "3,9,0,0,0\n"));
}

#[test]
fn nothing_but_blank_lines() {
    assert_eq!(printed(""), tables("", ""));
    assert_eq!(printed("\n"), tables("", ""));
    assert_eq!(printed("\n".repeat(65_536)), tables("", ""));
}

#[test]
fn blank_lines_around_and_a_missing_line_feed() {
    let good = plain("5,00:00:01.000,9,00:00:02.500");
    let cut = plain("6,00:00:01.000,9,");
    let input = format!("\n\nx\n\n\n{good}\n\n{}", cut.trim_end());
    assert_eq!(printed(input), tables("5,00:00:01.000,00:00:03.500,9\n", "1,2,1,0,0\n3,1,0,0,0\n"));
}

#[test]
fn carriage_returns_make_one_piece() {
    let input = [plain("1,00:00:00.000,11,"), plain("2,00:00:05.000,12,")].join("\n");
    assert_eq!(printed(input.replace('\n', "\r\n")), tables("", "1,2,1,0,0\n"));
}

#[test]
fn the_longest_input() {
    let over = tables("", "0,1,0,0,0\n");
    let document = plain("1,00:00:00.000,11,00:00:01.000");
    let filled = |length: usize| document.clone() + &"\n".repeat(length - document.len());
    assert_eq!(printed(filled(65_536)), tables("1,00:00:00.000,00:00:01.000,11\n", ""));
    assert_eq!(printed(filled(65_537)), over);
    assert_eq!(printed("\n".repeat(65_537)), over);
    assert_eq!(printed("x".repeat(65_536)), tables("", "1,1,0,0,0\n"));
    assert_eq!(printed("x".repeat(200_000)), over);
}

#[test]
fn the_longest_piece() {
    // Lines 1 to 4 take 29 + 19 + 16 + 7 = 71 bytes, the div 6, a p 4 and the span 7: 71 + 6 + 4 * 1,003
    // = 4,089, and 7 more are 4,096.
    let exact = timed("1,00:00:00.000,11,", &format!("body,,\ndiv,,\n{}span,,\n", "p,,\n".repeat(1_003)));
    assert_eq!(exact.len(), 4_096);
    let longer = exact.replace("1,00:00:00.000,11,", "2,00:00:00.000,112,");
    let listed = "1,00:00:00.000,98:39:59.999,11\n";
    assert_eq!(printed(format!("{exact}\n{longer}")), tables(listed, "2,1,0,0,0\n"));
}

#[test]
fn the_257th_document_has_no_record() {
    let document = |number: u32| plain(&format!("{number},00:00:00.001,0,"));
    let input: String = (1..=256).map(|number| document(number) + "\n").collect();
    // Only the last of many documents that begin at the same moment has any time.
    let listed = "256,00:00:00.001,98:39:59.999,0\n";
    assert_eq!(printed(&input), tables(listed, ""));
    let late = [
        document(257),
        document(256),
        plain("300,00:00:00.000,0,"),
        plain("300,00:00:09.000,0"),
        document(4_294_967_295),
    ]
    .join("\n");
    let refused = "257,10,0,0,0\n258,9,0,0,0\n259,8,0,0,0\n260,3,2,29,0\n261,10,0,0,0\n";
    assert_eq!(printed(input + &late), tables(listed, refused));
}

#[test]
fn every_refusal_in_one_feed() {
    let good = |number: u32| plain(&format!("{number},00:00:10.000,1,00:00:05.000"));
    let input = [
        good(6),
        "\u{80}\n".to_owned(),
        plain("7,00:00:10.000,12"),
        plain("4294967296,00:00:10.000,12,"),
        timed("7,00:00:10.000,12,", "body,,\ndiv,00:00:61.000,\np,00:00:01.000,00:00:04.000\n"),
        timed("7,00:00:10.000,12,", "div,,\n"),
        timed("7,00:00:10.000,12,", "body,98:00:00.000,\ndiv,00:40:00.000,\n"),
        plain("7,00:00:09.999,12,"),
        good(6),
        plain("7,00:00:15.000,12,").trim_end().to_owned(),
    ]
    .join("\n");
    let refused = "2,2,1,0,0\n3,3,2,29,0\n4,4,2,29,0\n5,5,5,75,3\n6,6,4,64,0\n7,7,5,87,0\n8,8,0,0,0\n\
                   9,9,0,0,0\n10,1,0,0,0\n";
    assert_eq!(printed(input), tables("6,00:00:10.000,00:00:15.000,1\n", refused));
}

#[test]
fn nothing_is_listed_at_the_window_end() {
    let input = [
        plain("1,98:39:59.998,1,98:39:59.999"),
        timed("2,98:39:59.998,2,", "body,98:39:59.999,\n"),
        plain("4294967295,98:39:59.999,4294967295,"),
    ]
    .join("\n");
    assert_eq!(printed(input), tables("1,98:39:59.998,98:39:59.999,1\n", ""));
}

#[test]
fn the_text_with_number_seven() {
    let elements = "body,,\ndiv,00:00:11.000,\np,00:00:01.000,00:00:04.000\nspan,,00:00:05.000\n";
    let text = timed("7,00:00:10.000,12,", elements);
    assert_eq!(printed(&text), tables("7,00:00:11.000,00:00:15.000,12\n", ""));
    let refused = text.replace("div,00:00:11.000,", "div,00:00:61.000,");
    assert_eq!(printed(refused), tables("", "1,5,5,75,3\n"));
}

#[test]
fn the_morning() {
    let samples = Path::new(env!("CARGO_MANIFEST_DIR")).join("../samples");
    let sample = |name: &str| fs::read(samples.join(name)).expect(name);
    let plan = Plan::of(&sample("morning.txt"));
    assert_eq!(plan.accepted + plan.refused.len(), 42);
    assert_eq!(plan.text().into_bytes(), sample("morning.expected"));
}
