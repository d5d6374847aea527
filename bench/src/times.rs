//! Times of one call: the least and the median.

use std::fmt;
use std::hint::black_box;
use std::time::Instant;

/// The times of a call, in microseconds.
#[derive(Default)]
pub struct Times(Vec<f64>);

impl Times {
    /// Takes the time of one of so many calls, made one after the other, so that the clock's cost is theirs together.
    pub fn take<R>(&mut self, calls: usize, mut call: impl FnMut() -> R) -> R {
        let start = Instant::now();
        for _ in 1..calls {
            black_box(call());
        }
        let result = call();
        self.0.push(start.elapsed().as_nanos() as f64 / 1000.0 / calls as f64);
        result
    }

    /// The least time and the median.
    fn summary(&self) -> [f64; 2] {
        let mut sorted = self.0.clone();
        sorted.sort_by(f64::total_cmp);
        [sorted[0], sorted[sorted.len() / 2]]
    }

    /// What another's least time and median are of these, for printing.
    pub fn of(&self, other: &Times) -> String {
        let ([least, median], [other_least, other_median]) = (self.summary(), other.summary());
        format!("{:>8.2}{:>8.2}", other_least / least, other_median / median)
    }
}

impl fmt::Display for Times {
    /// The least time and the median, with as many digits as are asked for.
    fn fmt(&self, to: &mut fmt::Formatter) -> fmt::Result {
        let digits = to.precision().unwrap_or(1);
        self.summary().iter().try_for_each(|time| write!(to, "{time:>8.digits$}"))
    }
}
