//! The same recurrence within the memory that the product is lent: the layers back from the end of the day, and then
//! the plan forward, hour by hour. Whatever is held beside the working numbers has a fixed length.

use crate::layers::{Layer, Layers};
use crate::unit::{State, NONE, PLACES};
use crate::window::Window;
use giqapsun::Case;

/// The layers, and what is looked at in the hours ahead.
struct Search<'a, W> {
    /// The layers of the day.
    layers: Layers<'a, W>,
    /// Rows of the lock that the plan is in, or layers up to the next in the working numbers; the last first.
    ahead: [Layer; PLACES],
    /// The end of that lock; 0 where they are layers.
    until: usize,
    /// The hour before which they end.
    to: usize,
}

impl<W: Window> Search<'_, W> {
    /// The best output within the ramps, the lowest of those that earn it.
    fn across(&self, k: usize, i: usize, row: &[i64]) -> (i64, usize) {
        let unit = &self.layers.unit;
        if !unit.allowed(k, unit.low) {
            return (NONE, 0);
        }
        let first = i.saturating_sub(usize::from(unit.case.rampdown));
        let last = (i + usize::from(unit.case.rampup)).min(unit.cells - 1);
        let margin = unit.margin(k);
        let mut line = unit.gain(k, unit.low + i, unit.low + first);
        let (mut best, mut at) = (i64::MIN, first);
        for (p, &worth) in row[..=last].iter().enumerate().skip(first) {
            if line + worth > best {
                (best, at) = (line + worth, p);
            }
            line += margin;
        }
        (best, unit.low + at)
    }

    /// The rows of a lock that ends later than hour k, from hour k on, unless they are there.
    fn keep_rows(&mut self, k: usize, end: usize) {
        if self.until == end && k < self.to {
            return;
        }
        (self.until, self.to) = (end, end.min(k + PLACES));
        let cells = self.layers.unit.cells;
        let mut row = self.layers.layer(end).row;
        for h in (k..end).rev() {
            self.layers.hold(h, &mut row[..cells]);
            if h < self.to {
                self.ahead[self.to - h - 1].row[..cells].copy_from_slice(&row[..cells]);
            }
        }
    }

    /// The layers from hour k on, which the working numbers do not hold, unless they are there.
    fn keep_layers(&mut self, k: usize, base: usize) {
        if self.until == 0 && k < self.to {
            return;
        }
        (self.until, self.to) = (0, base.min(k + PLACES));
        let mut layer = self.layers.layer(self.to);
        for h in (k..self.to).rev() {
            self.layers.step(h, &mut layer);
            self.ahead[self.to - h - 1] = layer;
        }
    }

    /// Worth and output of hour k in a state.
    fn choice(&mut self, k: usize, state: State) -> (i64, usize) {
        let after = k + 1;
        if let State::Run(i, j) = state {
            let end = (k + j).min(self.layers.unit.case.hours);
            if end > after {
                self.keep_rows(after, end);
                return self.across(k, i, &self.ahead[self.to - after - 1].row);
            }
        }
        let slot;
        let base = self.layers.base(after);
        let layer = if base == after {
            slot = self.layers.layer(after);
            &slot
        } else {
            self.keep_layers(after, base);
            &self.ahead[self.to - after - 1]
        };
        match state {
            State::Off(d) => self.layers.idle(k, d, layer),
            State::Rise(i) => self.layers.rising(k, i, layer),
            State::Fall(i) => self.layers.falling(k, i, layer),
            State::Run(i, j) => {
                let on = self.across(k, i, &layer.row);
                if i > 0 || j > 0 {
                    return on;
                }
                let stop = self.layers.falling(k, 0, layer);
                if stop.0 < on.0 {
                    on
                } else {
                    stop
                }
            }
        }
    }

    /// The best list, into the outputs, and its profit; none where no list keeps every rule.
    fn plan(&mut self, outputs: &mut [u16]) -> Option<i64> {
        let mut state = self.layers.unit.opening()?;
        let (profit, first) = self.choice(0, state);
        if profit < NONE / 2 {
            return None;
        }
        for (k, output) in outputs.iter_mut().enumerate().take(self.layers.unit.case.hours) {
            let p = if k == 0 { first } else { self.choice(k, state).1 };
            *output = p as u16;
            state = self.layers.unit.follow(state, p);
        }
        Some(profit)
    }
}

/// The profit of the best list of an accepted case, which fills the outputs; none where no list keeps every rule.
/// The working numbers hold anything after.
pub fn best<W: Window>(case: &Case, work: &mut [i64], outputs: &mut [u16]) -> Option<i64> {
    let layers = Layers::<W>::of(case, work);
    Search { layers, ahead: [Layer::end(); PLACES], until: 0, to: 0 }.plan(outputs)
}
