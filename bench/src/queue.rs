//! The window as a queue: it stands in two parts, the left one with the largest from each place to its end, the right
//! one with its largest alone. When the left part is used up, the right one takes its place.

use crate::unit::{LEAST, OUTPUTS};
use crate::window::{largest, Line, Window};

/// The memory of a pass.
pub struct Queue {
    /// The row with its line added.
    lifted: [i64; OUTPUTS],
    /// The largest from each place to the end of the left part.
    left: [i64; OUTPUTS],
}

impl Window for Queue {
    const NARROW: bool = false;

    fn new() -> Queue {
        Queue { lifted: [0; OUTPUTS], left: [0; OUTPUTS] }
    }

    fn pass(&mut self, row: &mut [i64], up: usize, down: usize, before: Line, after: Line) {
        let n = row.len();
        let (lifted, left) = (&mut self.lifted[..n], &mut self.left[..n]);
        before.add(0, row.iter().copied(), lifted);
        let (mut start, mut next) = (0, up.min(n));
        let mut right = largest(&lifted[..next]);
        let mut line = after.first;
        for (i, to) in row.iter_mut().enumerate() {
            if next < n {
                right = right.max(lifted[next]);
                next += 1;
            }
            let first = i.saturating_sub(down);
            if first == start {
                right = LEAST;
                let mut top = LEAST;
                for (place, &worth) in left[start..next].iter_mut().zip(&lifted[start..next]).rev() {
                    top = top.max(worth);
                    *place = top;
                }
                start = next;
            }
            *to = left[first].max(right) + line;
            line += after.slope;
        }
    }
}
