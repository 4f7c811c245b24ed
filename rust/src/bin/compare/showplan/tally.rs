//! What was met over all inputs, so that a refusal that never came is seen.

use std::fmt;
use std::ops::AddAssign;

use yumdrast_check::clock::TimeCause;
use yumdrast_check::refusal::Refusal;
use yumdrast_check::showplan::{Plan, is_over_long};

use crate::subject::Tally;

#[derive(Default)]
pub struct PieceTally {
    inputs: usize,
    over_long: usize,
    accepted: usize,
    listed: usize,
    /// By refusal number; place 0 stays unused.
    refusals: [usize; Refusal::OF_HAND_IN.len() + 1],
    /// By the number of the time cause; place 0 stays unused.
    causes: [usize; TimeCause::ALL.len() + 1],
}

impl PieceTally {
    pub fn count(&mut self, input: &[u8], plan: &Plan) {
        self.inputs += 1;
        self.accepted += plan.accepted;
        self.listed += plan.entries.len();
        if is_over_long(input) {
            // No piece was handed in, so this refusal is none of a piece.
            self.over_long += 1;
            return;
        }
        for record in plan.refused.iter().map(|refused| refused.record) {
            self.refusals[usize::from(record.refusal.number())] += 1;
            if let Some(cause) = record.cause {
                self.causes[usize::from(cause.number())] += 1;
            }
        }
    }
}

impl Tally for PieceTally {
    const MISSING: &str = "some refusal or time cause was never met";

    /// Whether every refusal and every time cause came at least once.
    fn is_complete(&self) -> bool {
        self.refusals[1..].iter().chain(&self.causes[1..]).all(|&count| count > 0)
    }
}

impl AddAssign for PieceTally {
    fn add_assign(&mut self, other: PieceTally) {
        self.inputs += other.inputs;
        self.over_long += other.over_long;
        self.accepted += other.accepted;
        self.listed += other.listed;
        add_each(&mut self.refusals, &other.refusals);
        add_each(&mut self.causes, &other.causes);
    }
}

fn add_each(sums: &mut [usize], others: &[usize]) {
    for (sum, other) in sums.iter_mut().zip(others) {
        *sum += other;
    }
}

impl fmt::Display for PieceTally {
    fn fmt(&self, f: &mut fmt::Formatter<'_>) -> fmt::Result {
        writeln!(f, "{:>9} inputs", self.inputs)?;
        writeln!(f, "{:>9} inputs over-long", self.over_long)?;
        writeln!(f, "{:>9} pieces accepted", self.accepted)?;
        writeln!(f, "{:>9} documents listed", self.listed)?;
        for refusal in Refusal::OF_HAND_IN {
            let count = self.refusals[usize::from(refusal.number())];
            writeln!(f, "{count:>9} pieces with refusal {} ({refusal:?})", refusal.number())?;
        }
        for cause in TimeCause::ALL {
            let count = self.causes[usize::from(cause.number())];
            writeln!(f, "{count:>9} pieces with time cause {} ({cause:?})", cause.number())?;
        }
        Ok(())
    }
}
