//! A small generator of numbers, the same on every machine.

use std::ops::RangeInclusive;

/// SplitMix64: one addition and three mixing steps per number.
pub struct Prng(u64);

impl Prng {
    /// Each case has a generator of its own, so that a case is the same whichever thread makes it.
    pub fn of_case(seed: u64, index: usize) -> Prng {
        let mut mixed = Prng(seed ^ (index as u64).wrapping_mul(0xd6e8_feb8_6659_fd93));
        Prng(mixed.next())
    }

    fn next(&mut self) -> u64 {
        self.0 = self.0.wrapping_add(0x9e37_79b9_7f4a_7c15);
        let mut mixed = self.0;
        mixed = (mixed ^ (mixed >> 30)).wrapping_mul(0xbf58_476d_1ce4_e5b9);
        mixed = (mixed ^ (mixed >> 27)).wrapping_mul(0x94d0_49bb_1331_11eb);
        mixed ^ (mixed >> 31)
    }

    /// A number below `bound`, which is not 0. (The slight bias of a remainder does no harm here.)
    pub fn below(&mut self, bound: usize) -> usize {
        (self.next() % bound as u64) as usize
    }

    pub fn within(&mut self, range: RangeInclusive<u32>) -> u32 {
        let (least, most) = range.into_inner();
        least + (self.next() % (u64::from(most - least) + 1)) as u32
    }

    /// True in `percent` of a hundred cases.
    pub fn chance(&mut self, percent: usize) -> bool {
        self.below(100) < percent
    }

    pub fn pick<T: Copy>(&mut self, choices: &[T]) -> T {
        choices[self.below(choices.len())]
    }

    /// One of the choices, each as often as its weight says.
    pub fn weighted<T: Copy>(&mut self, choices: &[(usize, T)]) -> T {
        let mut ticket = self.below(choices.iter().map(|(weight, _)| weight).sum());
        choices
            .iter()
            .find_map(|&(weight, choice)| {
                let found = ticket < weight;
                ticket = ticket.saturating_sub(weight);
                found.then_some(choice)
            })
            .expect("the ticket is below the sum of the weights")
    }
}
