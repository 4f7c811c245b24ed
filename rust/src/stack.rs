//! A stack of nodes over a bare stream, the calls that it can be sent, and its replies.

use std::fmt;

use crate::clock::Moment;
use crate::node::{Adjustment, Kind, Node};
use crate::question::{self, Active, Interval};
use crate::refusal::{Record, Refusal};
use crate::schedule::Window;
use crate::stream::{Stream, TakingStream};
use crate::text::Document;

/// Any number of nodes over a bare stream of any make.
pub enum Stack {
    Taking(Box<dyn TakingStream>),
    /// Over a stream that does not take.
    Answering(Box<dyn Stream>),
}

/// One call of a list. A window is named by its begin and end, which may be no window at all.
#[derive(Clone, Copy, Debug, PartialEq, Eq)]
pub enum Call<'a> {
    Take(Document),
    Tick(Moment),
    HandIn(&'a [u8]),
    Active { window: (Moment, Moment), at: Moment },
    Interval { window: (Moment, Moment), number: u32 },
}

#[derive(Clone, Copy, Debug, PartialEq, Eq)]
pub enum Reply {
    Taken(Result<(), Refusal>),
    Ticked(Result<(), Refusal>),
    HandedIn(Result<(), Record>),
    Active(Result<Active, Refusal>),
    Interval(Result<Interval, Refusal>),
    /// What a take, tick or hand-in gets over a stream that does not take.
    DoesNotTake,
}

impl Stack {
    /// A stack without nodes.
    pub fn taking(bare: impl TakingStream + 'static) -> Stack {
        Stack::Taking(Box::new(bare))
    }

    /// A stack without nodes over a stream that does not take.
    pub fn answering(bare: impl Stream + 'static) -> Stack {
        Stack::Answering(Box::new(bare))
    }

    /// The same stack with one more node on top.
    pub fn under(self, kind: Kind, approved: Adjustment) -> Stack {
        match self {
            Stack::Taking(below) => Stack::taking(Node::over(below, kind, approved)),
            Stack::Answering(below) => Stack::answering(Node::over(below, kind, approved)),
        }
    }

    pub fn takes(&self) -> bool {
        matches!(self, Stack::Taking(_))
    }

    pub fn stream(&self) -> &dyn Stream {
        match self {
            Stack::Taking(stream) => stream,
            Stack::Answering(stream) => stream,
        }
    }

    pub fn send(&mut self, call: &Call) -> Reply {
        match (call, self) {
            (&Call::Active { window, at }, stack) => {
                Reply::Active(made(window).and_then(|window| question::active(stack.stream(), window, at)))
            }
            (&Call::Interval { window, number }, stack) => Reply::Interval(
                made(window).and_then(|window| question::interval(stack.stream(), window, number)),
            ),
            (&Call::Take(document), Stack::Taking(stream)) => Reply::Taken(stream.take(document)),
            (&Call::Tick(moment), Stack::Taking(stream)) => Reply::Ticked(stream.tick(moment)),
            (Call::HandIn(text), Stack::Taking(stream)) => Reply::HandedIn(stream.hand_in(text)),
            (Call::Take(_) | Call::Tick(_) | Call::HandIn(_), Stack::Answering(_)) => Reply::DoesNotTake,
        }
    }
}

/// The window of a question is made before the question is put.
fn made((begin, end): (Moment, Moment)) -> Result<Window, Refusal> {
    Window::new(begin, end)
}

impl Call<'_> {
    /// Whether only a stream that takes can do anything with it.
    pub fn is_for_taking(&self) -> bool {
        matches!(self, Call::Take(_) | Call::Tick(_) | Call::HandIn(_))
    }
}

/// Sends a list to a stack and to a second stream and keeps the replies of both, if there is room for them.
pub fn send_to_both(
    stack: &mut Stack,
    second: &mut Stack,
    calls: &[Call],
    room: usize,
) -> Result<Vec<(Reply, Reply)>, Refusal> {
    if room < calls.len() {
        return Err(Refusal::OutputTooShort);
    }
    Ok(calls.iter().map(|call| (stack.send(call), second.send(call))).collect())
}

/// As `replay` prints it.
impl fmt::Display for Reply {
    fn fmt(&self, f: &mut fmt::Formatter<'_>) -> fmt::Result {
        match self {
            Reply::Taken(Ok(())) | Reply::Ticked(Ok(())) => write!(f, "0"),
            Reply::Taken(Err(refusal))
            | Reply::Ticked(Err(refusal))
            | Reply::Active(Err(refusal))
            | Reply::Interval(Err(refusal)) => write!(f, "{}", refusal.number()),
            Reply::HandedIn(answer) => {
                let (number, line, byte, cause) =
                    answer.map_or_else(|record| record.numbers(), |()| (0, 0, 0, 0));
                write!(f, "{number},{line},{byte},{cause}")
            }
            Reply::Active(Ok(Active { document: Some((number, content)), settled })) => {
                write!(f, "{number},{content},{}", mark(*settled))
            }
            Reply::Active(Ok(Active { document: None, settled })) => write!(f, "none,{}", mark(*settled)),
            Reply::Interval(Ok(Interval { begin, end, settled })) => {
                write!(f, "{},{},{}", begin.0, end.0, mark(*settled))
            }
            Reply::DoesNotTake => write!(f, "does not take"),
        }
    }
}

fn mark(settled: bool) -> &'static str {
    if settled { "settled" } else { "open" }
}

#[cfg(test)]
mod tests {
    use super::*;
    use crate::live::LiveTable;
    use crate::prepared::PreparedList;

    fn active(begin: u32, end: u32, at: u32) -> Call<'static> {
        Call::Active { window: (Moment(begin), Moment(end)), at: Moment(at) }
    }

    fn interval(begin: u32, end: u32, number: u32) -> Call<'static> {
        Call::Interval { window: (Moment(begin), Moment(end)), number }
    }

    fn replies<const N: usize>(stack: &mut Stack, calls: [Call; N]) -> [String; N] {
        calls.map(|call| stack.send(&call).to_string())
    }

    #[test]
    fn the_window_is_judged_first() {
        let calls = [
            active(5_000, 5_000, 360_000_000),
            active(0, 360_000_000, 0),
            active(0, 20_000, 360_000_000),
            active(0, 20_000, 359_999_999),
            interval(6_000, 5_000, 0),
            interval(0, 20_000, 0),
        ];
        let mut table = Stack::taking(LiveTable::over(1));
        assert_eq!(replies(&mut table, calls), ["14", "14", "15", "none,open", "14", "16"]);
    }

    #[test]
    fn a_taking_call_over_a_stream_that_does_not_take() {
        let list = || Stack::answering(PreparedList::open(Vec::new()).expect("an empty list"));
        let approved = Adjustment::approve(list().stream(), 5).expect("a good adjustment");
        let calls = [Call::Tick(Moment(5)), Call::HandIn(b"x"), Call::Take(Document::default())];
        for mut stack in [list(), list().under(Kind::Holder, approved)] {
            assert_eq!(calls.map(|call| stack.send(&call)), [Reply::DoesNotTake; 3]);
            assert_eq!(replies(&mut stack, [active(0, 9, 8)]), ["none,settled"]);
        }
    }

    #[test]
    fn too_little_room_sends_nothing() {
        let mut stacks = [Stack::taking(LiveTable::over(1)), Stack::taking(LiveTable::over(1))];
        let [stack, second] = &mut stacks;
        let calls = [Call::Tick(Moment(5)), Call::Tick(Moment(4))];
        assert_eq!(send_to_both(stack, second, &calls, 1), Err(Refusal::OutputTooShort));
        assert_eq!(
            (stack.stream().settled_moment(), second.stream().settled_moment()),
            (Moment(0), Moment(0))
        );
        let kept = send_to_both(stack, second, &calls, 2).expect("room enough");
        let (good, refused) = (Reply::Ticked(Ok(())), Reply::Ticked(Err(Refusal::BeforeEntryMoment)));
        assert_eq!(kept, [(good, good), (refused, refused)]);
        assert_eq!(send_to_both(stack, second, &[], 0), Ok(Vec::new()));
    }
}
