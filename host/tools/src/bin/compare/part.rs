//! What every part of the comparison is given, and what several of them draw or hold against a run.

use oracle::random::Random;
use saxundeer::{HIGHEST_CYCLES, Lines, Machine, RunAnswer};

use crate::pair::Pair;

pub struct Part<'a> {
    pub pair: &'a mut Pair,
    pub random: &'a mut Random,
    /// Is told now and then how many steps were made in all.
    pub progress: &'a mut dyn FnMut(u64),
}

impl Part<'_> {
    pub fn tell(&mut self) {
        (self.progress)(self.pair.steps);
    }
}

/// The port's runs, which must give what its steps give.
pub type Run = fn(Machine, u64, Lines, &mut [u8]) -> RunAnswer;

pub const RUNS: [Run; 2] = [saxundeer::run, saxundeer::long_run];

/// The most steps on one random memory: sooner or later every program there turns in a small circle.
pub const LONGEST: u64 = 3_000;

/// Any count with room for a step; one in four is among the last.
pub fn random_cycles(random: &mut Random) -> u64 {
    match random.below(4) {
        0 => HIGHEST_CYCLES - random.below(16) as u64,
        _ => random.draw() % HIGHEST_CYCLES,
    }
}
