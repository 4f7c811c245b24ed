//! What a stack promises, held to many small runs: each of the three parts is worked out beside the stack,
//! by its own words.

use yumdrast_check::clock::Moment;
use yumdrast_check::live::LiveTable;
use yumdrast_check::node::{Adjustment, Kind};
use yumdrast_check::prepared::{PreparedEntry, PreparedList};
use yumdrast_check::question::{Active, Interval};
use yumdrast_check::schedule::Window;
use yumdrast_check::stack::{Call, Reply, Stack, send_to_both};
use yumdrast_check::text::Document;

/// All times of a run lie below this, so that they meet often.
const SPAN: u32 = 12;

/// A small generator of numbers.
struct Dice(u64);

impl Dice {
    fn below(&mut self, bound: u32) -> u32 {
        self.0 = self.0.wrapping_mul(6_364_136_223_846_793_005).wrapping_add(1_442_695_040_888_963_407);
        ((self.0 >> 33) % u64::from(bound)) as u32
    }

    fn maybe(&mut self) -> Option<Moment> {
        let value = self.below(2 * SPAN);
        (value < SPAN).then_some(Moment(value))
    }

    fn window(&mut self) -> (Moment, Moment) {
        let begin = self.below(SPAN);
        (Moment(begin), Moment(begin + self.below(SPAN)))
    }

    fn call(&mut self, takes: bool) -> Call<'static> {
        match self.below(if takes { 8 } else { 4 }) {
            0 | 1 => Call::Active { window: self.window(), at: Moment(self.below(3 * SPAN)) },
            2 | 3 => Call::Interval { window: self.window(), number: self.below(SPAN) },
            4 => Call::Tick(Moment(self.below(SPAN))),
            _ => Call::Take(Document {
                number: self.below(SPAN),
                available: Moment(self.below(SPAN)),
                content: self.below(100),
                dur: self.maybe(),
                begin: self.maybe(),
                end: self.maybe(),
            }),
        }
    }
}

/// The book of a stack that takes: it follows from the calls alone.
#[derive(Clone)]
struct Book {
    shown: Vec<Document>,
    settled: u32,
    entry: u32,
    left: usize,
    nodes: Vec<(Kind, u32)>,
}

impl Book {
    /// What the nodes make of a document, one after the other.
    fn appearance(&self, mut document: Document) -> Document {
        let plus = |moment: Moment, delay: u32| Moment(moment.0 + delay);
        for &(kind, delay) in &self.nodes {
            let later = document.begin.unwrap_or(document.available).max(document.available);
            match kind {
                Kind::Holder => {
                    document.available = plus(document.available, delay);
                    document.begin = document.begin.map(|begin| plus(begin, delay));
                }
                Kind::Retimer => document.begin = Some(plus(later, delay)),
            }
            document.end = document.end.map(|end| plus(end, delay));
        }
        document
    }

    fn follow(&mut self, call: &Call) {
        match *call {
            Call::Take(document) => {
                let last = self.shown.last().map_or(0, |last| last.number);
                if document.available.0 >= self.entry && document.number > last && self.left > 0 {
                    self.shown.push(self.appearance(document));
                    self.settled += document.available.0 - self.entry;
                    self.entry = document.available.0;
                    self.left -= 1;
                }
            }
            Call::Tick(moment) if moment.0 >= self.entry => {
                self.settled += moment.0 - self.entry;
                self.entry = moment.0;
            }
            _ => (),
        }
    }

    /// Part a: the greatest number begun by then, if its own end has not come.
    fn active(&self, window: Window, at: Moment) -> Active {
        let begun = self.shown.iter().filter(|document| window.resolved_begin(document) <= at);
        let greatest = begun.max_by_key(|document| document.number);
        let document = greatest
            .filter(|document| at < window.own_end(document, window.resolved_begin(document)))
            .map(|document| (document.number, document.content));
        Active { document, settled: at.0 < self.settled }
    }
}

fn windows(span: u32) -> impl Iterator<Item = (Moment, Moment)> {
    (0..span).flat_map(move |begin| (begin + 1..=span).map(move |end| (Moment(begin), Moment(end))))
}

fn is_settled(reply: Reply) -> bool {
    matches!(
        reply,
        Reply::Active(Ok(Active { settled: true, .. })) | Reply::Interval(Ok(Interval { settled: true, .. }))
    )
}

fn nodes(dice: &mut Dice) -> Vec<(Kind, u32)> {
    (0..dice.below(5))
        .map(|_| (if dice.below(2) == 0 { Kind::Holder } else { Kind::Retimer }, dice.below(4)))
        .collect()
}

fn stacked(bare: Stack, nodes: &[(Kind, u32)]) -> Stack {
    nodes.iter().fold(bare, |stack, &(kind, length)| {
        let approved = Adjustment::approve(stack.stream(), length).expect("a good adjustment");
        stack.under(kind, approved)
    })
}

/// Parts b and c, after a list: what was settled stays, and the stack is the bare stream later by D.
fn check_after(stack: &mut Stack, second: &mut Stack, sent: &[Call], kept: &[(Reply, Reply)], delay: u32) {
    for (call, &(reply, other)) in sent.iter().zip(kept) {
        if is_settled(reply) {
            assert_eq!(stack.send(call), reply, "{call:?}");
        }
        if call.is_for_taking() {
            assert_eq!(reply, other, "{call:?}");
        }
    }
    for (begin, end) in windows(SPAN) {
        for at in (0..SPAN + 2).map(Moment) {
            let moved = |moment: Moment| Moment(moment.0 + delay);
            let above = Call::Active { window: (moved(begin), moved(end)), at: moved(at) };
            let below = Call::Active { window: (begin, end), at };
            assert_eq!(stack.send(&above), second.send(&below), "{below:?}");
        }
    }
}

#[test]
fn a_stack_that_takes() {
    let dice = &mut Dice(20_260_414);
    let (mut good, mut settled) = (0, 0);
    for _ in 0..400 {
        let (nodes, records) = (nodes(dice), dice.below(7) as usize);
        let delay = nodes.iter().map(|&(_, length)| length).sum();
        let bare = || Stack::taking(LiveTable::over(records));
        let (mut stack, mut second) = (stacked(bare(), &nodes), bare());
        let mut book = Book { shown: Vec::new(), settled: delay, entry: 0, left: records, nodes };
        let calls: Vec<_> = (0..dice.below(30)).map(|_| dice.call(true)).collect();
        let kept = send_to_both(&mut stack, &mut second, &calls, calls.len()).expect("room enough");
        calls.iter().for_each(|call| book.follow(call));

        assert_eq!(stack.stream().shown(), book.shown);
        assert_eq!(stack.stream().settled_moment(), Moment(book.settled));
        for (begin, end) in windows(SPAN + 14) {
            let window = Window::new(begin, end).expect("a window");
            for at in (0..SPAN + 16).map(Moment) {
                let asked = Call::Active { window: (begin, end), at };
                assert_eq!(stack.send(&asked), Reply::Active(Ok(book.active(window, at))), "{asked:?}");
            }
        }
        check_after(&mut stack, &mut second, &calls, &kept, delay);
        good += kept.iter().filter(|(reply, _)| *reply == Reply::Taken(Ok(()))).count();
        settled += kept.iter().filter(|(reply, _)| is_settled(*reply)).count();
    }
    // The runs are not empty ones.
    assert!(good > 300 && settled > 300, "{good} taken, {settled} settled");
}

#[test]
fn a_stack_that_only_answers() {
    let dice = &mut Dice(7);
    for _ in 0..200 {
        let nodes = nodes(dice);
        let delay = nodes.iter().map(|&(_, length)| length).sum();
        let mut begin = 0;
        let entries: Vec<_> = (0..dice.below(6))
            .map(|content| {
                begin = (begin + dice.below(4)).min(SPAN);
                PreparedEntry { begin: Moment(begin), end: Moment(begin + 1 + dice.below(5)), content }
            })
            .collect();
        let bare = || Stack::answering(PreparedList::open(entries.clone()).expect("a good list"));
        let (mut stack, mut second) = (stacked(bare(), &nodes), bare());
        let calls: Vec<_> = (0..dice.below(10)).map(|_| dice.call(false)).collect();
        let kept = send_to_both(&mut stack, &mut second, &calls, calls.len()).expect("room enough");
        check_after(&mut stack, &mut second, &calls, &kept, delay);
    }
}

#[test]
fn on_screen_holders_and_retimers_do_the_same() {
    let dice = &mut Dice(11);
    for _ in 0..60 {
        let mixed = nodes(dice);
        let held: Vec<_> = mixed.iter().map(|&(_, length)| (Kind::Holder, length)).collect();
        let bare = || Stack::taking(LiveTable::over(6));
        let (mut stack, mut other) = (stacked(bare(), &mixed), stacked(bare(), &held));
        let calls: Vec<_> = (0..20).map(|_| dice.call(true)).collect();
        let kept = send_to_both(&mut stack, &mut other, &calls, calls.len()).expect("room enough");
        assert!(kept.iter().all(|(reply, other)| reply == other));
        for window in windows(SPAN + 14) {
            for number in 0..SPAN {
                let asked = Call::Interval { window, number };
                assert_eq!(stack.send(&asked), other.send(&asked), "{asked:?}");
            }
        }
    }
}
