//! Two sides measured in turn, in slices so short that most of them run undisturbed also on a busy
//! machine. The median counts, which the others move hardly.

use crate::side::Side;
use std::time::{Duration, Instant};

/// Pairs of slices, one of each side.
pub const PAIRS: usize = 401;
pub const SLICE: Duration = Duration::from_micros(200);

/// Medians over the slices.
#[derive(Debug, Clone, Copy, PartialEq)]
pub struct Measured {
    /// Nanoseconds of one turn.
    pub rust: f64,
    pub core: f64,
    /// core / Rust in one pair.
    pub ratio: f64,
}

impl Measured {
    /// The one with the lower ratio.
    pub fn or_lower(self, other: Self) -> Self {
        if other.ratio < self.ratio { other } else { self }
    }
}

pub fn measure(rust: &mut dyn Side, core: &mut dyn Side) -> Measured {
    medians(&in_turn([rust, core]))
}

/// Nanoseconds of one turn of each of these sides, in slices that come in turn; each side comes first as often
/// as the others.
pub fn in_turn<const N: usize>(mut sides: [&mut dyn Side; N]) -> Vec<[f64; N]> {
    let turns = sides.each_mut().map(|side| turns_in_a_slice(&mut **side));
    let slices = |round: usize| {
        let mut times = [0.0; N];
        for k in 0..N {
            let place = (round + k) % N;
            times[place] = nanoseconds(&mut *sides[place], turns[place]);
        }
        times
    };
    (0..PAIRS).map(slices).collect()
}

/// The median of one side alone.
pub fn measure_alone(side: &mut dyn Side) -> f64 {
    let turns = turns_in_a_slice(side);
    median((0..PAIRS).map(|_| nanoseconds(side, turns)))
}

/// How many turns fill a slice, by the fastest of some tries.
fn turns_in_a_slice(side: &mut dyn Side) -> u64 {
    let one = (0..20).map(|_| nanoseconds(side, 50)).fold(f64::MAX, f64::min);
    (SLICE.as_nanos() as f64 / one.max(1.0)).ceil() as u64
}

/// Nanoseconds for each of so many turns.
fn nanoseconds(side: &mut dyn Side, turns: u64) -> f64 {
    let start = Instant::now();
    side.run(turns);
    start.elapsed().as_nanos() as f64 / turns as f64
}

fn medians(pairs: &[[f64; 2]]) -> Measured {
    Measured {
        rust: median(pairs.iter().map(|[rust, _]| *rust)),
        core: median(pairs.iter().map(|[_, core]| *core)),
        ratio: median(pairs.iter().map(|[rust, core]| core / rust)),
    }
}

pub fn median(values: impl Iterator<Item = f64>) -> f64 {
    let mut values: Vec<f64> = values.collect();
    values.sort_by(f64::total_cmp);
    values[values.len() / 2]
}

#[cfg(test)]
mod tests {
    use super::*;

    #[test]
    fn disturbed_slices_do_not_count() {
        let disturbed = |place: usize| if place % 5 == 0 { 40.0 } else { 1.0 };
        let pairs: Vec<[f64; 2]> =
            (0..PAIRS).map(|place| [10.0 * disturbed(place + 2), 12.0 * disturbed(place)]).collect();
        assert_eq!(medians(&pairs), Measured { rust: 10.0, core: 12.0, ratio: 1.2 });
    }

    #[test]
    fn a_machine_that_slows_down_does_not_count() {
        let pairs: Vec<[f64; 2]> =
            (1..=PAIRS).map(|place| [10.0 * place as f64, 15.0 * place as f64]).collect();
        assert_eq!(medians(&pairs).ratio, 1.5);
    }
}
