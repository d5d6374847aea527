//! The same recurrence as a plain programme with all the memory it wants: the worth of every state of every
//! hour, the decision that earns it, and the largest over a window by a queue. What hours cost may be another's.

use crate::unit::{State, Unit, NONE};
use giqapsun::Case;

/// What hours cost.
pub trait Costs {
    /// What hour k earns from output q to p.
    fn gain(&self, unit: &Unit, k: usize, q: usize, p: usize) -> i64;

    /// On-line at each output: the largest over the outputs that the ramps reach, and the lowest of those that earn it,
    /// from the worth of each output after the hour.
    fn row(&self, unit: &Unit, k: usize, after: &[(i64, u16)]) -> Vec<(i64, u16)>;
}

/// F and A of the case.
struct Own;

impl Costs for Own {
    fn gain(&self, unit: &Unit, k: usize, q: usize, p: usize) -> i64 {
        unit.gain(k, q, p)
    }

    fn row(&self, unit: &Unit, k: usize, after: &[(i64, u16)]) -> Vec<(i64, u16)> {
        row(unit, k, after)
    }
}

/// The worth of each state at the end of an hour, and the output chosen for the hour after it.
struct Layer {
    /// Off-line for so many hours, counted up to the minimum down time.
    off: Vec<(i64, u16)>,
    /// At an entry of the start-up trajectory before its last.
    rise: Vec<(i64, u16)>,
    /// At an entry of the shut-down trajectory from its second.
    fall: Vec<(i64, u16)>,
    /// At an output, with so many hours to go before a stop may begin.
    rows: Vec<Vec<(i64, u16)>>,
}

impl Layer {
    /// The worth at the end of the day: it may end inside a start-up and inside a shut-down.
    fn end(unit: &Unit) -> Layer {
        Layer {
            off: vec![(0, 0); unit.rest + 1],
            rise: vec![(0, 0); unit.rises],
            fall: vec![(0, 0); unit.falls + 1],
            rows: vec![vec![(0, 0); unit.cells]; unit.lock + 1],
        }
    }

    /// Worth and decision in a state.
    fn choice(&self, state: State) -> (i64, u16) {
        match state {
            State::Off(d) => self.off[d],
            State::Rise(i) => self.rise[i],
            State::Run(i, j) => self.rows[j][i],
            State::Fall(i) => self.fall[i],
        }
    }

    /// The layer of hour k from that of the hour after it.
    fn before(unit: &Unit, costs: &impl Costs, k: usize, after: &Layer) -> Layer {
        let rows = (0..=unit.lock).map(|j| costs.row(unit, k, &after.rows[j.saturating_sub(1)])).collect();
        let mut layer = Layer {
            off: vec![(NONE, 0); unit.rest + 1],
            rise: vec![(NONE, 0); unit.rises],
            fall: vec![(NONE, 0); unit.falls + 1],
            rows,
        };
        let brought = |q: usize, p: usize, state: State| {
            let rest = after.choice(state).0;
            if rest == NONE || !unit.allowed(k, p) {
                NONE
            } else {
                costs.gain(unit, k, q, p) + rest
            }
        };
        for d in 1..=unit.rest {
            let stay = brought(0, 0, State::Off((d + 1).min(unit.rest)));
            let first = usize::from(unit.case.rise[0]);
            let start = if d >= unit.rest { brought(0, first, unit.risen(0)) } else { NONE };
            layer.off[d] = if start > stay { (start, first as u16) } else { (stay, 0) };
        }
        for i in 0..unit.rises - 1 {
            let (q, p) = (usize::from(unit.case.rise[i]), usize::from(unit.case.rise[i + 1]));
            layer.rise[i] = (brought(q, p, unit.risen(i + 1)), p as u16);
        }
        for i in 1..unit.falls {
            let p = unit.sunk(i + 1);
            layer.fall[i] = (brought(unit.sunk(i), p, unit.fallen(i + 1)), p as u16);
        }
        let p = unit.sunk(1);
        let stop = brought(unit.low, p, unit.fallen(1));
        if stop >= layer.rows[0][0].0 && stop != NONE {
            layer.rows[0][0] = (stop, p as u16);
        }
        layer
    }
}

/// On-line at each output: the largest over the outputs that the ramps reach, the lowest of those that earn it.
fn row(unit: &Unit, k: usize, after: &[(i64, u16)]) -> Vec<(i64, u16)> {
    if !unit.allowed(k, unit.low) {
        return vec![(NONE, 0); unit.cells];
    }
    let (margin, hold) = (unit.margin(k), unit.hold());
    let loaded: Vec<i64> = after
        .iter()
        .enumerate()
        .map(|(i, &(v, _))| if v == NONE { NONE } else { v + margin * (unit.low + i) as i64 })
        .collect();
    let (up, down) = (usize::from(unit.case.rampup), usize::from(unit.case.rampdown));
    let mut queue = std::collections::VecDeque::with_capacity(unit.cells);
    let mut row = Vec::with_capacity(unit.cells);
    let mut next = 0;
    for i in 0..unit.cells {
        while next < unit.cells && next <= i + up {
            while queue.back().is_some_and(|&b: &usize| loaded[b] < loaded[next]) {
                queue.pop_back();
            }
            queue.push_back(next);
            next += 1;
        }
        while queue.front().is_some_and(|&f| f + down < i) {
            queue.pop_front();
        }
        let best = queue[0];
        let worth =
            if loaded[best] == NONE { NONE } else { loaded[best] + margin * (unit.low + i) as i64 - hold };
        row.push((worth, (unit.low + best) as u16));
    }
    row
}

/// The best list of an accepted case with its profit; none where no list keeps every rule.
pub fn best(case: &Case) -> Option<(i64, Vec<u16>)> {
    best_by(case, &Own)
}

/// The same with these costs.
pub fn best_by(case: &Case, costs: &impl Costs) -> Option<(i64, Vec<u16>)> {
    let unit = Unit::of(case);
    let mut layers = vec![Layer::end(&unit)];
    for k in (0..case.hours).rev() {
        let layer = Layer::before(&unit, costs, k, layers.last().expect("the end"));
        layers.push(layer);
    }
    layers.reverse();
    let mut state = unit.opening()?;
    let profit = layers[0].choice(state).0;
    if profit == NONE {
        return None;
    }
    let mut list = Vec::with_capacity(case.hours);
    for layer in &layers[..case.hours] {
        let p = layer.choice(state).1;
        list.push(p);
        state = unit.follow(state, usize::from(p));
    }
    Some((profit, list))
}
