//! The layers of a day, back from its end: of every so many hours the row and the side are kept in the working numbers,
//! and those between are made again. None is so low that no day's amounts bring it near a worth, so that nothing is
//! tested for it but the answer.

use crate::unit::{State, Unit, ENDS, NONE, OUTPUTS, SIDE, TIME};
use crate::window::{Line, Window};
use giqapsun::{Case, STAGES};

/// Where the start-up and the shut-down stand in a side.
const RISE: usize = TIME + 1;
const FALL: usize = RISE + STAGES;

/// What the states are worth at the end of an hour.
#[derive(Clone, Copy)]
pub struct Layer {
    /// At each output, where a stop may begin.
    pub row: [i64; OUTPUTS],
    /// Off-line, and in a sequence.
    pub side: [i64; SIDE],
}

/// What is known of the day, and the memory for its layers.
pub struct Layers<'a, W> {
    /// The unit of the case.
    pub unit: Unit<'a>,
    /// The worth of a unit that has just come to its minimum output by a start, before each hour.
    entries: [i64; ENDS],
    /// How many hours from one kept layer to the next.
    stride: usize,
    /// The kept layers, row by row and side by side.
    work: &'a mut [i64],
    /// The largest over a window.
    window: W,
}

impl Layer {
    /// The end of the day: it may end inside a start-up and inside a shut-down.
    pub fn end() -> Layer {
        Layer { row: [0; OUTPUTS], side: [0; SIDE] }
    }
}

impl<'a, W: Window> Layers<'a, W> {
    /// The layers of an accepted case in as many working numbers as it asks for.
    pub fn of(case: &'a Case, work: &'a mut [i64]) -> Layers<'a, W> {
        let unit = Unit::of(case);
        let stride = case.hours.div_ceil(work.len() / (unit.cells + SIDE));
        let mut layers = Layers { unit, entries: [0; ENDS], stride, work, window: W::new() };
        layers.back();
        layers
    }

    /// The worth of a state off-line or in a sequence, or just after a start.
    fn worth(&self, hour: usize, layer: &Layer, state: State) -> i64 {
        match state {
            State::Off(d) => layer.side[d],
            State::Rise(i) => layer.side[RISE + i],
            State::Fall(i) => layer.side[FALL + i],
            State::Run(..) => self.entries[hour],
        }
    }

    /// What going from output q to p in hour k is worth.
    fn brought(&self, k: usize, q: usize, p: usize, after: &Layer, state: State) -> i64 {
        if self.unit.allowed(k, p) {
            self.unit.gain(k, q, p) + self.worth(k + 1, after, state)
        } else {
            NONE
        }
    }

    /// Off-line for d hours: worth and output.
    pub fn idle(&self, k: usize, d: usize, after: &Layer) -> (i64, usize) {
        let unit = &self.unit;
        let stay = self.brought(k, 0, 0, after, State::Off((d + 1).min(unit.rest)));
        if d == unit.rest {
            let first = usize::from(unit.case.rise[0]);
            let start = self.brought(k, 0, first, after, unit.risen(0));
            if start > stay {
                return (start, first);
            }
        }
        (stay, 0)
    }

    /// At the start-up's entry i.
    pub fn rising(&self, k: usize, i: usize, after: &Layer) -> (i64, usize) {
        let (q, p) = (usize::from(self.unit.case.rise[i]), usize::from(self.unit.case.rise[i + 1]));
        (self.brought(k, q, p, after, self.unit.risen(i + 1)), p)
    }

    /// At the shut-down's entry i.
    pub fn falling(&self, k: usize, i: usize, after: &Layer) -> (i64, usize) {
        let p = self.unit.sunk(i + 1);
        (self.brought(k, self.unit.sunk(i), p, after, self.unit.fallen(i + 1)), p)
    }

    /// The row of hour k, no stop being allowed in it, in place of the row of the hour after it.
    pub fn hold(&mut self, k: usize, row: &mut [i64]) {
        if self.unit.allowed(k, self.unit.low) {
            let (up, down) = (usize::from(self.unit.case.rampup), usize::from(self.unit.case.rampdown));
            let slope = self.unit.margin(k);
            let first = slope * self.unit.low as i64;
            let after = Line { first: first - self.unit.hold(), slope };
            self.window.pass(row, up, down, Line { first, slope }, after);
        } else {
            row.fill(NONE);
        }
    }

    /// The layer of hour k in place of the layer of the hour after it.
    pub fn step(&mut self, k: usize, layer: &mut Layer) {
        let stop = self.falling(k, 0, layer).0;
        let mut side = layer.side;
        for (d, worth) in side.iter_mut().enumerate().take(self.unit.rest + 1).skip(1) {
            *worth = self.idle(k, d, layer).0;
        }
        for i in 0..self.unit.rises - 1 {
            side[RISE + i] = self.rising(k, i, layer).0;
        }
        for i in 1..self.unit.falls {
            side[FALL + i] = self.falling(k, i, layer).0;
        }
        layer.side = side;
        let cells = self.unit.cells;
        self.hold(k, &mut layer.row[..cells]);
        layer.row[0] = layer.row[0].max(stop);
    }

    /// The outputs that are looked at so many hours after a start has come to the minimum output.
    fn reached(&self, hours: usize) -> usize {
        if W::NARROW {
            self.unit.cells.min(1 + hours * usize::from(self.unit.case.rampup))
        } else {
            self.unit.cells
        }
    }

    /// The entries of the last hours, whose lock the end of the day cuts.
    fn last_entries(&mut self) {
        let hours = self.unit.case.hours;
        let first = hours.saturating_sub(self.unit.lock);
        let mut row = [0; OUTPUTS];
        for k in (first..hours).rev() {
            let seen = self.reached(k + 1 - first);
            self.hold(k, &mut row[..seen]);
            self.entries[k] = row[0];
        }
    }

    /// The entry whose lock ends before hour k.
    fn enter(&mut self, k: usize, row: &[i64; OUTPUTS]) {
        if let Some(start) = k.checked_sub(self.unit.lock) {
            let mut row = *row;
            for h in (start..k).rev() {
                let seen = self.reached(h + 1 - start);
                self.hold(h, &mut row[..seen]);
            }
            self.entries[start] = row[0];
        }
    }

    /// Back from the end of the day: the entries of all hours, and the layers that are kept.
    fn back(&mut self) {
        self.last_entries();
        let cells = self.unit.cells;
        let mut layer = Layer::end();
        for k in (0..self.unit.case.hours).rev() {
            self.step(k, &mut layer);
            self.enter(k, &layer.row);
            if k % self.stride == 0 {
                let slot = &mut self.work[k / self.stride * (cells + SIDE)..][..cells + SIDE];
                slot[..cells].copy_from_slice(&layer.row[..cells]);
                slot[cells..].copy_from_slice(&layer.side);
            }
        }
    }

    /// The first hour from hour k on whose layer is kept, or the end of the day.
    pub fn base(&self, k: usize) -> usize {
        k.next_multiple_of(self.stride).min(self.unit.case.hours)
    }

    /// The layer of hour k, made again from the next one that is kept.
    pub fn layer(&mut self, k: usize) -> Layer {
        let cells = self.unit.cells;
        let mut layer = Layer::end();
        let base = self.base(k);
        if base < self.unit.case.hours {
            let slot = &self.work[base / self.stride * (cells + SIDE)..][..cells + SIDE];
            layer.row[..cells].copy_from_slice(&slot[..cells]);
            layer.side.copy_from_slice(&slot[cells..]);
        }
        for h in (k..base).rev() {
            self.step(h, &mut layer);
        }
        layer
    }
}
