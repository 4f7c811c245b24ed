//! What was met over all scripts: every refusal, every kind of answer, every way to be unreadable.

use std::collections::BTreeMap;
use std::fmt;
use std::iter::once;
use std::ops::AddAssign;

use yumdrast_check::clock::TimeCause;
use yumdrast_check::question::{Active, Interval};
use yumdrast_check::refusal::Refusal;
use yumdrast_check::replay::{MAX_NODES, Replay, Run};
use yumdrast_check::script::Why;
use yumdrast_check::stack::Reply;

use crate::subject::Tally;

#[derive(Default)]
pub struct CallTally {
    scripts: usize,
    met: BTreeMap<Met, usize>,
}

/// Something that has to come at least once.
#[derive(Clone, Copy, Debug, PartialEq, Eq, PartialOrd, Ord)]
enum Met {
    OverLiveTable,
    OverPreparedList,
    /// How many nodes stand in a script that is run.
    Standing(usize),
    Listed,
    Approved,
    Taken,
    Ticked,
    HandedIn,
    Active {
        none: bool,
        settled: bool,
    },
    Interval {
        settled: bool,
    },
    /// The end is at or before the begin.
    EmptyInterval,
    Refused(Asked, Refusal),
    Cause(TimeCause),
    Unreadable(Why),
}

/// What was refused.
#[derive(Clone, Copy, Debug, PartialEq, Eq, PartialOrd, Ord)]
enum Asked {
    Text,
    Take,
    Tick,
    Node,
    Active,
    Interval,
    Stream,
}

impl Asked {
    /// Each with all the refusals that it can get.
    fn all() -> impl Iterator<Item = (Asked, Refusal)> {
        use Refusal::*;
        let few: [(Asked, &[Refusal]); 6] = [
            (Asked::Take, &[NotANumber, PastEntryLimit, BeforeEntryMoment, NumberNotAbove, NoRecordLeft]),
            (Asked::Tick, &[BeforeEntryMoment, TickPastEntryLimit]),
            (Asked::Node, &[AdjustmentTooGreat, TotalAdjustmentTooGreat]),
            (Asked::Active, &[NotAWindow, PastLastMoment]),
            (Asked::Interval, &[NotAWindow, NotShown]),
            (Asked::Stream, &[PreparedList]),
        ];
        once((Asked::Text, &Refusal::OF_HAND_IN[..]))
            .chain(few)
            .flat_map(|(asked, refusals)| refusals.iter().map(move |&refusal| (asked, refusal)))
    }

    fn name(self) -> &'static str {
        match self {
            Asked::Text => "texts",
            Asked::Take => "takes",
            Asked::Tick => "ticks",
            Asked::Node => "nodes",
            Asked::Active => "active questions",
            Asked::Interval => "interval questions",
            Asked::Stream => "prepared lists",
        }
    }
}

impl Met {
    /// All that there is to be met, in the order of the report.
    fn all() -> impl Iterator<Item = Met> {
        [Met::OverLiveTable, Met::OverPreparedList]
            .into_iter()
            .chain((0..=MAX_NODES).map(Met::Standing))
            .chain([Met::Listed, Met::Approved, Met::Taken, Met::Ticked, Met::HandedIn])
            .chain(
                [(false, true), (false, false), (true, true), (true, false)]
                    .map(|(none, settled)| Met::Active { none, settled }),
            )
            .chain([true, false].map(|settled| Met::Interval { settled }))
            .chain([Met::EmptyInterval])
            .chain(Asked::all().map(|(asked, refusal)| Met::Refused(asked, refusal)))
            .chain(TimeCause::ALL.map(Met::Cause))
            .chain(Why::ALL.map(Met::Unreadable))
    }
}

impl fmt::Display for Met {
    fn fmt(&self, f: &mut fmt::Formatter<'_>) -> fmt::Result {
        let mark = |settled| if settled { "settled" } else { "open" };
        match *self {
            Met::OverLiveTable => write!(f, "scripts run over a live table"),
            Met::OverPreparedList => write!(f, "scripts run over a prepared list"),
            Met::Standing(count) => write!(f, "scripts run with {count} standing nodes"),
            Met::Listed => write!(f, "documents listed"),
            Met::Approved => write!(f, "nodes good"),
            Met::Taken => write!(f, "takes good"),
            Met::Ticked => write!(f, "ticks good"),
            Met::HandedIn => write!(f, "texts good"),
            Met::Active { none: false, settled } => {
                write!(f, "active questions, a document, {}", mark(settled))
            }
            Met::Active { none: true, settled } => write!(f, "active questions, none, {}", mark(settled)),
            Met::Interval { settled } => write!(f, "interval questions, {}", mark(settled)),
            Met::EmptyInterval => write!(f, "interval questions, the end not after the begin"),
            Met::Refused(asked, refusal) => {
                write!(f, "{} with refusal {} ({refusal:?})", asked.name(), refusal.number())
            }
            Met::Cause(cause) => write!(f, "texts with time cause {} ({cause:?})", cause.number()),
            Met::Unreadable(why) => write!(f, "scripts unreadable ({why:?})"),
        }
    }
}

impl CallTally {
    pub fn count(&mut self, replay: &Replay) {
        self.scripts += 1;
        match replay {
            Replay::Unreadable(unreadable) => self.add(Met::Unreadable(unreadable.why), 1),
            Replay::DoesNotOpen => self.add(Met::Refused(Asked::Stream, Refusal::PreparedList), 1),
            Replay::Run(run) => self.count_run(run),
        }
    }

    fn count_run(&mut self, run: &Run) {
        self.add(if run.takes { Met::OverLiveTable } else { Met::OverPreparedList }, 1);
        self.add(Met::Standing(run.standing()), 1);
        self.add(Met::Listed, run.entries.len());
        for node in &run.nodes {
            self.add(node.map_or_else(|refusal| Met::Refused(Asked::Node, refusal), |()| Met::Approved), 1);
        }
        for reply in &run.replies {
            self.count_reply(reply);
        }
        if let Some(unreadable) = run.unreadable {
            self.add(Met::Unreadable(unreadable.why), 1);
        }
    }

    fn count_reply(&mut self, reply: &Reply) {
        let met = match *reply {
            Reply::Taken(Ok(())) => Met::Taken,
            Reply::Taken(Err(refusal)) => Met::Refused(Asked::Take, refusal),
            Reply::Ticked(Ok(())) => Met::Ticked,
            Reply::Ticked(Err(refusal)) => Met::Refused(Asked::Tick, refusal),
            Reply::HandedIn(Ok(())) => Met::HandedIn,
            Reply::HandedIn(Err(record)) => {
                if let Some(cause) = record.cause {
                    self.add(Met::Cause(cause), 1);
                }
                Met::Refused(Asked::Text, record.refusal)
            }
            Reply::Active(Ok(Active { document, settled })) => {
                Met::Active { none: document.is_none(), settled }
            }
            Reply::Active(Err(refusal)) => Met::Refused(Asked::Active, refusal),
            Reply::Interval(Ok(Interval { begin, end, settled })) => {
                self.add(Met::EmptyInterval, usize::from(end <= begin));
                Met::Interval { settled }
            }
            Reply::Interval(Err(refusal)) => Met::Refused(Asked::Interval, refusal),
            Reply::DoesNotTake => unreachable!("such a call is unreadable in a script"),
        };
        self.add(met, 1);
    }

    fn add(&mut self, met: Met, count: usize) {
        *self.met.entry(met).or_default() += count;
    }

    fn times(&self, met: Met) -> usize {
        self.met.get(&met).copied().unwrap_or_default()
    }
}

impl Tally for CallTally {
    const MISSING: &str = "some refusal, answer or unreadable case was never met";

    fn is_complete(&self) -> bool {
        Met::all().all(|met| self.times(met) > 0)
    }
}

impl AddAssign for CallTally {
    fn add_assign(&mut self, other: CallTally) {
        self.scripts += other.scripts;
        for (met, count) in other.met {
            self.add(met, count);
        }
    }
}

impl fmt::Display for CallTally {
    fn fmt(&self, f: &mut fmt::Formatter<'_>) -> fmt::Result {
        writeln!(f, "{:>9} scripts", self.scripts)?;
        Met::all().try_for_each(|met| writeln!(f, "{:>9} {met}", self.times(met)))
    }
}
