//! The program `replay` as the subject of a comparison.

mod faults;
mod feed;
mod limits;
mod shapes;
mod tally;

use yumdrast_check::replay::Replay;

use crate::prng::Prng;
use crate::subject::Subject;
use tally::CallTally;

pub struct Replaying;

impl Subject for Replaying {
    type Tally = CallTally;

    fn input(rng: &mut Prng) -> Vec<u8> {
        shapes::input(rng)
    }

    fn wanted(input: &[u8], tally: &mut CallTally) -> Vec<u8> {
        let replay = Replay::of(input);
        tally.count(&replay);
        replay.to_string().into_bytes()
    }
}
