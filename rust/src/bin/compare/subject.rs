//! What a comparison has to know about the program that it is about.

use std::fmt;
use std::ops::AddAssign;

use crate::prng::Prng;

pub trait Subject {
    type Tally: Tally;

    /// The input of one case.
    fn input(rng: &mut Prng) -> Vec<u8>;

    /// What has to be printed on an input. What it meets is counted.
    fn wanted(input: &[u8], tally: &mut Self::Tally) -> Vec<u8>;
}

/// What was met over all inputs, so that something which never came is seen.
pub trait Tally: AddAssign + Default + fmt::Display + Send {
    /// Said where the tally is not complete.
    const MISSING: &str;

    /// Whether everything that has to be met was met at least once.
    fn is_complete(&self) -> bool;
}
