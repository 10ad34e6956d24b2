//! Times of a call, by round.
use std::time::Instant;

/// Rounds that are not counted.
pub const WARM: usize = 2;

/// Nanoseconds of a call, by round.
#[derive(Default)]
pub struct Times(Vec<f64>);

impl Times {
    pub fn take(&mut self, calls: usize, mut call: impl FnMut()) {
        let start = Instant::now();
        for _ in 0..calls {
            call();
        }
        self.0.push(start.elapsed().as_nanos() as f64 / calls as f64);
    }

    pub fn median(&self) -> f64 {
        median(self.0[WARM..].to_vec())
    }

    pub fn least(&self) -> f64 {
        self.0[WARM..].iter().copied().fold(f64::INFINITY, f64::min)
    }
}

pub fn median(mut list: Vec<f64>) -> f64 {
    list.sort_by(f64::total_cmp);
    list[list.len() / 2]
}

/// Calls in a batch, so that it takes about a third of a millisecond.
pub fn batch(mut call: impl FnMut()) -> usize {
    let mut nanoseconds = || {
        let start = Instant::now();
        call();
        start.elapsed().as_nanos().max(1)
    };
    let least = (0..10).map(|_| nanoseconds()).min().unwrap();
    ((300_000 / least) as usize).clamp(1, 3000)
}
