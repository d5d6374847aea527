//! The window by blocks. Where it has the row's first place, its largest is a running one from there; where it has the
//! row's last place, one from the other end. Between, the row is cut into blocks as long as the window, which is then
//! the end of one block and the beginning of the next (van Herk). No loop tests where it is.

use crate::unit::{LEAST, OUTPUTS};
use crate::window::{largest, running, Line, Window};

/// The memory of a pass.
pub struct Blocks {
    /// The row with its line added.
    lifted: [i64; OUTPUTS],
    /// The largest from each place of a block to its end.
    ends: [i64; OUTPUTS],
}

impl Window for Blocks {
    const NARROW: bool = true;

    fn new() -> Blocks {
        Blocks { lifted: [0; OUTPUTS], ends: [0; OUTPUTS] }
    }

    fn pass(&mut self, row: &mut [i64], up: usize, down: usize, before: Line, after: Line) {
        let n = row.len();
        let lifted = &mut self.lifted[..n];
        before.add(0, row.iter().copied(), lifted);
        // the places from which on the window no longer has the first place, and has the last one
        let (leaves, fills) = ((down + 1).min(n), n.saturating_sub(up + 1));
        let head = leaves.min(fills);
        if head > 0 {
            let top = largest(&lifted[..up]);
            after.add(0, running(top, &lifted[up..]), &mut row[..head]);
        }
        if fills < leaves {
            let top = largest(lifted);
            after.add(fills, std::iter::repeat(top), &mut row[fills..leaves]);
        }
        let wide = down + 1 + up;
        for i in (leaves..fills).step_by(wide) {
            let (first, z) = (i - down, (i + wide).min(fills));
            let ends = &mut self.ends[..wide];
            let mut top = LEAST;
            for (end, &worth) in ends.iter_mut().zip(&lifted[first..first + wide]).rev() {
                top = worth.max(top);
                *end = top;
            }
            row[i] = ends[0] + after.at(i);
            let next = running(LEAST, &lifted[first + wide..]);
            after.add(i + 1, next.zip(&ends[1..]).map(|(a, &b)| a.max(b)), &mut row[i + 1..z]);
        }
        let tail = leaves.max(fills);
        if tail < n {
            let mut top = largest(&lifted[n - down..]);
            let mut line = after.at(n - 1);
            for (to, &worth) in row[tail..].iter_mut().zip(&lifted[tail - down..n - down]).rev() {
                top = worth.max(top);
                *to = top + line;
                line -= after.slope;
            }
        }
    }
}
