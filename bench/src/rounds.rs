//! Times of several calls that are made in turn, round by round, each round from another call on.

use crate::clock;

/// The times of each call in each round, in nanoseconds.
pub struct Rounds<const CALLS: usize>([Vec<f64>; CALLS]);

/// Nanoseconds of a call that is made so many times in turn.
fn time(call: &mut dyn FnMut(), repeats: u64) -> f64 {
    let start = clock::nanoseconds();
    (0..repeats).for_each(|_| call());
    (clock::nanoseconds() - start) as f64 / repeats as f64
}

/// How often a call of so many nanoseconds is repeated.
fn repeats(time: f64) -> u64 {
    (2e7 / time.max(1.0)).clamp(1.0, 1e6) as u64
}

impl<const CALLS: usize> Rounds<CALLS> {
    /// Makes all calls once a round. They do the same work; if it is short, they are repeated.
    pub fn of(rounds: usize, mut calls: [&mut dyn FnMut(); CALLS]) -> Self {
        let repeats = repeats(time(calls[0], 1));
        Self::by(rounds, |at| time(calls[at], repeats))
    }

    /// The same with calls of unlike work, each repeated by its own time.
    pub fn of_unlike(rounds: usize, mut calls: [&mut dyn FnMut(); CALLS]) -> Self {
        let repeats = calls.each_mut().map(|call| repeats(time(*call, 1)));
        Self::by(rounds, |at| time(calls[at], repeats[at]))
    }

    /// Takes the time of each call once a round; the call that is first changes from round to round.
    pub fn by(rounds: usize, mut time: impl FnMut(usize) -> f64) -> Self {
        let mut times = [const { vec![] }; CALLS];
        for round in 0..rounds {
            for at in (0..CALLS).map(|call| (round + call) % CALLS) {
                times[at].push(time(at));
            }
        }
        Self(times)
    }

    /// The median time of each call.
    pub fn times(&self) -> [f64; CALLS] {
        std::array::from_fn(|at| median(self.0[at].clone()))
    }

    /// The median of one call's time by another one's in the same round: what slows the machine
    /// for a while slows both.
    pub fn ratio(&self, call: usize, other: usize) -> f64 {
        let pairs = self.0[call].iter().zip(&self.0[other]);
        median(pairs.map(|(call, other)| call / other).collect())
    }

    /// The least, median and greatest ratio of some pairs of calls.
    pub fn ratios(&self, pairs: impl Iterator<Item = (usize, usize)>) -> [f64; 3] {
        let mut ratios: Vec<f64> = pairs.map(|(call, other)| self.ratio(call, other)).collect();
        ratios.sort_by(f64::total_cmp);
        [ratios[0], median(ratios.clone()), ratios[ratios.len() - 1]]
    }
}

/// Each of the calls from `call` on with each from `other` on, by their four placements.
pub fn placements(call: usize, other: usize) -> impl Iterator<Item = (usize, usize)> {
    (0..16).map(move |pair| (call + pair / 4, other + pair % 4))
}

/// The middle number, or the mean of the middle two.
pub fn median(mut numbers: Vec<f64>) -> f64 {
    numbers.sort_by(f64::total_cmp);
    let last = numbers.len() - 1;
    (numbers[last / 2] + numbers[last.div_ceil(2)]) / 2.0
}
