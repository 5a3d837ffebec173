//! How long calls took.

use std::time::Duration;

/// The time that so many of a hundred calls took at most, in nanoseconds.
#[derive(Clone, Copy, Debug, PartialEq, Eq)]
pub struct Percentiles {
    /// Half of the calls.
    pub half: u64,
    /// 99 of a hundred.
    pub most: u64,
    /// All.
    pub all: u64,
}

/// The nanoseconds of a call, at most 2^64 - 1.
pub fn nanos_of(took: Duration) -> u64 {
    u64::try_from(took.as_nanos()).unwrap_or(u64::MAX)
}

impl Percentiles {
    /// Of calls that took so many nanoseconds each, which are sorted by that. They are 0 if there was no call.
    pub fn of(nanos: &mut [u64]) -> Percentiles {
        nanos.sort_unstable();
        if nanos.is_empty() {
            return Percentiles {
                half: 0,
                most: 0,
                all: 0,
            };
        }
        Percentiles {
            half: at_percent(nanos, 50),
            most: at_percent(nanos, 99),
            all: at_percent(nanos, 100),
        }
    }
}

// the least number that so many of a hundred don't exceed
fn at_percent(sorted: &[u64], percent: u64) -> u64 {
    let rank = sorted.len() as u128 * u128::from(percent);
    sorted[((rank - 1) / 100) as usize]
}
