//! The program `showplan` as the subject of a comparison.

mod shapes;
mod tally;

use yumdrast_check::showplan::Plan;

use crate::prng::Prng;
use crate::subject::Subject;
use tally::PieceTally;

pub struct Showplan;

impl Subject for Showplan {
    type Tally = PieceTally;

    fn input(rng: &mut Prng) -> Vec<u8> {
        shapes::input(rng)
    }

    fn wanted(input: &[u8], tally: &mut PieceTally) -> Vec<u8> {
        let plan = Plan::of(input);
        tally.count(input, &plan);
        plan.text().into_bytes()
    }
}
