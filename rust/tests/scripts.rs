//! Whole scripts: what `replay` prints, each worked out by hand.

use std::fs;
use std::path::Path;

use yumdrast_check::replay::Replay;

const NODES: &str = "node,reply\n";
const CALLS: &str = "call,reply\n";
const SCHEDULE: &str = "number,begin,end,content\n";

/// With `~` for a line feed, in the script and in what is printed.
fn prints(script: &str, printed: &str) {
    let got = Replay::of(script.replace('~', "\n").as_bytes()).to_string();
    assert_eq!(got.replace('\n', "~"), printed, "{script}");
}

fn tables(nodes: &str, calls: &str, entries: &str) -> String {
    format!("{NODES}{nodes}{CALLS}{calls}{SCHEDULE}{entries}").replace('\n', "~")
}

#[test]
fn the_worked_run() {
    let script = "live,64\nholder,2000\nretimer,600001\nretimer,3000\n\ntake,1,0,,,,11\ntake,2,5000,,,3000,12\n\
                  take,2,6000,12000,15000,,13\ntake,3,6000,12000,15000,,13\ntext\n\
                  number,available,content,dur\n7,00:00:10.000,12,\nlevel,begin,end\nbody,,\n\
                  div,00:00:61.000,\n\nactive,5000,25000,10000\nactive,5000,25000,11000\n\
                  active,5000,25000,4999\nactive,5000,25000,13000\ninterval,5000,25000,1\n\
                  interval,5000,25000,2\ninterval,5000,25000,9\nactive,5000,5000,360000000\n\
                  active,0,25000,360000000\n";
    let calls = "1,0\n2,0\n3,9\n4,0\n5,5,5,75,3\n6,2,12,settled\n7,2,12,open\n8,none,settled\n9,none,open\n\
                 10,5000,10000,settled\n11,10000,13000,open\n12,16\n13,14\n14,15\n";
    let entries = "1,00:00:05.000,00:00:10.000,11\n2,00:00:10.000,00:00:13.000,12\n\
                   3,00:00:17.000,00:00:20.000,13\n";
    prints(script, &tables("1,0\n2,12\n3,0\n", calls, entries));
}

#[test]
fn without_a_stream() {
    prints("", "unreadable,1~");
    prints("~~", "unreadable,3~");
    prints("live,64", "unreadable,1~");
    prints("~live,65537~tick,0~", "unreadable,2~");
    prints("~~tick,5~", "unreadable,3~");
    prints("~~~x", "unreadable,4~");
    prints("holder,5~live,64~", "unreadable,1~");
    prints("entry,0,5,1~prepared~", "unreadable,1~");
    prints("text~a~~live,64~", "unreadable,1~");
    prints("live,64\r~", "unreadable,1~");
    prints("\u{feff}live,64~", "unreadable,1~");
}

#[test]
fn blank_lines_and_texts() {
    prints("live,65536~", &tables("", "", ""));
    prints("~~live,0~~", &tables("", "", ""));
    prints("live,1~tick,5~~tick", &(tables("", "1,0\n", "") + "unreadable,4~"));
    prints("live,1~text~", &tables("", "1,1,0,0,0\n", ""));
    prints("live,1~text~~tick,5~", &tables("", "1,1,0,0,0\n2,0\n", ""));
    prints("live,1~text~x~tick,5", &tables("", "1,1,0,0,0\n", ""));
    prints("live,1~text", &(tables("", "", "") + "unreadable,2~"));
    prints("live,1~text~x~y~~~x~", &(tables("", "1,2,1,0,0\n", "") + "unreadable,7~"));
    prints("live,1~ ~tick,5~", &(tables("", "", "") + "unreadable,2~"));
    let good = "text~number,available,content,dur~1,00:00:00.001,5,~level,begin,end~body,,~";
    let listed = "1,00:00:00.001,99:59:59.999,5\n";
    prints(&format!("live,1~{good}"), &tables("", "1,0,0,0,0\n", listed));
    prints(&format!("live,1~{good}~{good}"), &tables("", "1,0,0,0,0\n2,9,0,0,0\n", listed));
}

#[test]
fn lines_out_of_place() {
    let cut = |line: usize| format!("unreadable,{line}~");
    prints("live,0~take,1,0,,,,5~holder,0~", &(tables("", "1,10\n", "") + &cut(3)));
    prints("live,0~tick,4294967295~holder,0~", &(tables("", "1,11\n", "") + &cut(3)));
    prints("live,0~holder,1~live,0~tick,0~", &(tables("1,0\n", "", "") + &cut(3)));
    prints("live,0~prepared~", &(tables("", "", "") + &cut(2)));
    prints("live,0~entry,0,1,2~", &(tables("", "", "") + &cut(2)));
    let listed = "1,00:00:00.000,00:00:00.005,7\n";
    prints("prepared~entry,0,5,7~tick,1~", &(tables("", "", listed) + &cut(3)));
    prints("prepared~entry,0,5,7~take,1,0,,,,5~", &(tables("", "", listed) + &cut(3)));
    prints("prepared~entry,0,5,7~text~a~~active,0,1,0~", &(tables("", "", listed) + &cut(3)));
    prints("prepared~entry,0,5,7~~holder,600001~entry,6,7,8~", &(tables("1,12\n", "", listed) + &cut(5)));
    prints("prepared~entry,0,5,7~active,0,0,0~entry,6,7,8~", &(tables("", "1,14\n", listed) + &cut(4)));
    prints("prepared~entry,5,,7~", &(tables("", "", "") + &cut(2)));
}

#[test]
fn prepared_lists() {
    prints("prepared~", &tables("", "", ""));
    prints("prepared~holder,5~active,0,9,8~", &tables("1,0\n", "1,none,settled\n", ""));
    prints("prepared~entry,5,5,7~x~", "stream,18~");
    prints("prepared~entry,5,5,7~entry", "stream,18~");
    prints("prepared~entry,5,6,7~entry,4,6,7~tick,5~", "stream,18~");
    let entries = |count: usize| format!("prepared~{}", "entry,0,1,5~".repeat(count));
    prints(&entries(4_096), &tables("", "", "4096,00:00:00.000,00:00:00.001,5\n"));
    prints(&entries(4_097), "stream,18~");
}

#[test]
fn eight_nodes_and_a_ninth() {
    let nodes = |length: u32| format!("holder,{length}~").repeat(8);
    let replies = (1..=8).map(|count| format!("{count},0\n")).collect::<String>();
    let full = format!("live,1~{}", nodes(600_000));
    prints(&full, &tables(&replies, "", ""));
    prints(&format!("{full}holder,1~"), &tables(&format!("{replies}9,13\n"), "", ""));
    prints(&format!("{full}retimer,600000~"), &tables(&format!("{replies}9,13\n"), "", ""));
    prints(&format!("{full}retimer,600001~"), &tables(&format!("{replies}9,12\n"), "", ""));
    prints(&format!("{full}retimer,0~tick,0~"), &(tables(&replies, "", "") + "unreadable,10~"));
    let light = format!("live,1~{}", nodes(1));
    prints(&format!("{light}holder,600000~"), &(tables(&replies, "", "") + "unreadable,10~"));
    let refused = tables(&format!("{replies}9,12\n"), "", "");
    prints(&format!("{light}holder,600001~holder,1~"), &(refused + "unreadable,11~"));
    // A refused node does not stand: with two of them there are ten node lines and eight nodes.
    let with_refused = format!("live,1~holder,4294967295~holder,600001~{}", nodes(600_000));
    let counted = (3..=10).map(|count| format!("{count},0\n")).collect::<String>();
    prints(&with_refused, &tables(&format!("1,12\n2,12\n{counted}"), "", ""));
}

#[test]
fn the_longest_script() {
    let filled = |length: usize| format!("live,1~tick,7~{}", "~".repeat(length - 14));
    prints(&filled(1_048_576), &tables("", "1,0\n", ""));
    prints(&filled(1_048_577), "unreadable,0~");
    prints(&"~".repeat(1_048_576), "unreadable,1048577~");
    prints(&"x".repeat(1_048_577), "unreadable,0~");
    // As many calls as there can be: texts of no bytes, each ended by a blank line.
    let texts = format!("live,0~{}text~", "text~~".repeat(174_760));
    assert_eq!(texts.len(), 7 + 174_760 * 6 + 5);
    let printed = Replay::of(texts.replace('~', "\n").as_bytes()).to_string();
    assert!(printed.ends_with("\n174761,1,0,0,0\nnumber,begin,end,content\n"));
    // Far more entries than open.
    prints(&format!("prepared~{}", "entry,0,1,0~".repeat(87_380)), "stream,18~");
}

#[test]
fn records_of_a_live_table() {
    let takes = (1..=4_097).map(|number| format!("take,{number},0,,,,0\n")).collect::<String>();
    for (records, taken) in [(0, 0), (1, 1), (4_095, 4_095), (4_096, 4_096), (4_097, 4_096), (65_536, 4_096)]
    {
        let printed = Replay::of(format!("live,{records}\n{takes}").as_bytes()).to_string();
        let good = printed.lines().filter(|line| line.ends_with(",0")).count();
        let full = printed.lines().filter(|line| line.ends_with(",10")).count();
        // The schedule lists the last document alone, with content 0.
        assert_eq!((good - taken.min(1), full), (taken, 4_097 - taken), "{records}");
    }
}

#[test]
fn the_samples() {
    let samples = Path::new(env!("CARGO_MANIFEST_DIR")).join("../samples/replay");
    let mut count = 0;
    for file in fs::read_dir(samples).expect("the samples") {
        let path = file.expect("a sample").path();
        if path.extension().is_some_and(|extension| extension == "script") {
            let script = fs::read(&path).expect("a script");
            let wanted = fs::read_to_string(path.with_extension("expected")).expect("what it prints");
            assert_eq!(Replay::of(&script).to_string(), wanted, "{}", path.display());
            count += 1;
        }
    }
    assert!(count >= 9, "{count} samples");
}
