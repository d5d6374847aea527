//! The largest over a window that slides along a row: what a way of finding it offers, and what they share.

use crate::unit::LEAST;

/// A way, with its memory.
pub trait Window {
    /// Whether the rows that a start goes through are made no wider than the minimum output can come in their hours.
    const NARROW: bool;

    /// Memory for any row.
    fn new() -> Self;

    /// Each place becomes the largest over the window from so many places below it to so many above it. A line is
    /// added to the row before, and one to the answers.
    fn pass(&mut self, row: &mut [i64], up: usize, down: usize, before: Line, after: Line);
}

/// An amount that rises evenly from place to place.
#[derive(Clone, Copy)]
pub struct Line {
    /// At the first place.
    pub first: i64,
    /// From one place to the next.
    pub slope: i64,
}

impl Line {
    /// The amount at a place.
    pub fn at(self, i: usize) -> i64 {
        self.first + self.slope * i as i64
    }

    /// Each of the numbers, which are those from place i on, with the line added.
    pub fn add(self, i: usize, numbers: impl Iterator<Item = i64>, to: &mut [i64]) {
        let mut line = self.at(i);
        for (to, number) in to.iter_mut().zip(numbers) {
            *to = number + line;
            line += self.slope;
        }
    }
}

/// The largest so far, from `top` on, at each place of a row.
pub fn running(top: i64, row: &[i64]) -> impl Iterator<Item = i64> + '_ {
    row.iter().scan(top, |top, &worth| {
        *top = worth.max(*top);
        Some(*top)
    })
}

/// The largest of a row. One place after the other: without 64-bit compares of vectors this is the faster way.
pub fn largest(row: &[i64]) -> i64 {
    running(LEAST, row).last().unwrap_or(LEAST)
}
