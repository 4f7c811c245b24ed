//! The program `replay`: runs a script through a stack and prints what it answers.

use std::fmt;

use crate::live::LiveTable;
use crate::node::{Adjustment, Kind};
use crate::prepared::PreparedList;
use crate::refusal::Refusal;
use crate::schedule::{self, Entry, Window};
use crate::script::{Item, Line, Lines, Why};
use crate::stack::{Call, Reply, Stack};

pub const MAX_INPUT: usize = 1_048_576;
/// How many nodes may stand at a time.
pub const MAX_NODES: usize = 8;

/// The line that ended the reading.
#[derive(Clone, Copy, Debug, PartialEq, Eq)]
pub struct Unreadable {
    /// Counted from 1; 0 if the script is too long.
    pub line: usize,
    pub why: Why,
}

/// What a script comes to.
#[derive(Clone, Debug, PartialEq, Eq)]
pub enum Replay {
    /// There is no stream.
    Unreadable(Unreadable),
    /// The prepared list is none.
    DoesNotOpen,
    Run(Run),
}

#[derive(Clone, Debug, Default, PartialEq, Eq)]
pub struct Run {
    /// Whether the stream takes.
    pub takes: bool,
    /// What approval said to each node line.
    pub nodes: Vec<Result<(), Refusal>>,
    pub replies: Vec<Reply>,
    pub entries: Vec<Entry>,
    pub unreadable: Option<Unreadable>,
}

impl Replay {
    pub fn of(script: &[u8]) -> Replay {
        let unreadable = |line, why| Replay::Unreadable(Unreadable { line, why });
        if script.len() > MAX_INPUT {
            return unreadable(0, Why::TooLong);
        }
        let mut lines = Lines::of(script).peekable();
        let stack = match lines.next() {
            None => {
                // Nothing but line feeds.
                return unreadable(script.len() + 1, Why::NoStreamLine);
            }
            Some(Line { item: Ok(Item::Live(records)), .. }) => Stack::taking(LiveTable::over(records)),
            Some(Line { item: Ok(Item::Prepared), .. }) => {
                let mut entries = Vec::new();
                while let Some(&Line { item: Ok(Item::Entry(entry)), .. }) = lines.peek() {
                    entries.push(entry);
                    lines.next();
                }
                match PreparedList::open(entries) {
                    Ok(list) => Stack::answering(list),
                    Err(_) => return Replay::DoesNotOpen,
                }
            }
            Some(Line { number, item }) => {
                return unreadable(number, item.err().unwrap_or(Why::OtherBeforeStreamLine));
            }
        };
        Replay::Run(Run::through(stack, lines))
    }
}

impl Run {
    /// Runs each line as it comes. A line says nothing about those before it, so that is the same as
    /// reading all of them first.
    fn through<'a>(mut stack: Stack, lines: impl Iterator<Item = Line<'a>>) -> Run {
        let mut run = Run { takes: stack.takes(), ..Run::default() };
        for Line { number, item } in lines {
            match item.and_then(|item| run.fitting(item, &stack)) {
                Ok(Step::Node(Err(refusal))) => run.nodes.push(Err(refusal)),
                Ok(Step::Node(Ok((kind, approved)))) => {
                    run.nodes.push(Ok(()));
                    stack = stack.under(kind, approved);
                }
                Ok(Step::Call(call)) => run.replies.push(stack.send(&call)),
                Err(why) => {
                    run.unreadable = Some(Unreadable { line: number, why });
                    break;
                }
            }
        }
        run.entries = schedule::schedule(&stack.stream().shown(), Window::WHOLE);
        run
    }

    /// What is to be done for an item, if it may stand where it does.
    fn fitting<'a>(&self, item: Item<'a>, stack: &Stack) -> Result<Step<'a>, Why> {
        match item {
            Item::Live(_) | Item::Prepared => Err(Why::SecondStreamLine),
            Item::Entry(_) if stack.takes() => Err(Why::EntryOverLiveTable),
            Item::Entry(_) => Err(Why::EntryAfterNodeOrCall),
            Item::Node(..) if !self.replies.is_empty() => Err(Why::NodeAfterCall),
            Item::Node(kind, length) => match Adjustment::approve(stack.stream(), length) {
                Err(refusal) => Ok(Step::Node(Err(refusal))),
                Ok(_) if self.standing() == MAX_NODES => Err(Why::NinthNode),
                Ok(approved) => Ok(Step::Node(Ok((kind, approved)))),
            },
            Item::Call(call) if stack.takes() || !call.is_for_taking() => Ok(Step::Call(call)),
            Item::Call(Call::Tick(_)) => Err(Why::TickOverPreparedList),
            Item::Call(Call::HandIn(_)) => Err(Why::TextOverPreparedList),
            Item::Call(_) => Err(Why::TakeOverPreparedList),
        }
    }

    /// How many nodes stand.
    pub fn standing(&self) -> usize {
        self.nodes.iter().filter(|node| node.is_ok()).count()
    }
}

/// One line's work.
enum Step<'a> {
    Node(Result<(Kind, Adjustment), Refusal>),
    Call(Call<'a>),
}

/// As it is printed.
impl fmt::Display for Replay {
    fn fmt(&self, f: &mut fmt::Formatter<'_>) -> fmt::Result {
        match self {
            Replay::Unreadable(unreadable) => writeln!(f, "{unreadable}"),
            Replay::DoesNotOpen => writeln!(f, "stream,{}", Refusal::PreparedList.number()),
            Replay::Run(run) => write!(f, "{run}"),
        }
    }
}

impl fmt::Display for Run {
    fn fmt(&self, f: &mut fmt::Formatter<'_>) -> fmt::Result {
        writeln!(f, "node,reply")?;
        for (node, count) in self.nodes.iter().zip(1..) {
            writeln!(f, "{count},{}", node.map_or_else(Refusal::number, |()| 0))?;
        }
        writeln!(f, "call,reply")?;
        for (reply, count) in self.replies.iter().zip(1..) {
            writeln!(f, "{count},{reply}")?;
        }
        write!(f, "{}", schedule::text(&self.entries))?;
        self.unreadable.map_or(Ok(()), |unreadable| writeln!(f, "{unreadable}"))
    }
}

impl fmt::Display for Unreadable {
    fn fmt(&self, f: &mut fmt::Formatter<'_>) -> fmt::Result {
        write!(f, "unreadable,{}", self.line)
    }
}
