//! Plain programmes by a cost curve, with all the memory they want: the costs as a table, and the row of an hour by
//! looking at every pair of outputs, or by blocks of outputs of which most are passed over.

use crate::plain::{best_by, Costs};
use crate::unit::{Unit, NONE};
use giqapsun::{Case, Curve, COSTS};

/// Outputs of a block.
const BLOCK: usize = 16;

/// The costs of a curve, each operation rounded once, a tie to the even number.
pub fn table(curve: Curve) -> Vec<i64> {
    let cost = |n: f64| match curve {
        Curve::Flat { a } => a,
        Curve::Straight { a, b } => b * n + a,
        Curve::Curved { a, b, c } => (c * n + b) * n + a,
    };
    (0..COSTS).map(|n| cost(n as f64).round_ties_even() as i64).collect()
}

/// How the row of an hour is found.
#[derive(Clone, Copy, PartialEq, Eq)]
enum Rows {
    Pairs,
    Blocks,
}

/// A table of costs in place of F and A.
struct ByTable {
    table: Vec<i64>,
    rows: Rows,
}

/// What stands between a row and its best outputs: the outputs that the ramps reach.
struct Reach {
    first: usize,
    last: usize,
}

impl Reach {
    /// Those from output i, counted from the minimum.
    fn of(unit: &Unit, i: usize) -> Reach {
        let first = i.saturating_sub(usize::from(unit.case.rampdown));
        let last = (i + usize::from(unit.case.rampup)).min(unit.cells - 1);
        Reach { first, last }
    }
}

impl ByTable {
    /// The best of some outputs after output i, the lowest of those that earn it, if it is above what was found before.
    fn tried(&self, loaded: &[i64], sum: usize, outputs: std::ops::Range<usize>, best: &mut (i64, usize)) {
        let costs = &self.table[sum + outputs.start..];
        for ((p, &worth), &cost) in outputs.clone().zip(&loaded[outputs]).zip(costs) {
            if worth - cost > best.0 {
                *best = (worth - cost, p);
            }
        }
    }

    /// The best output after output i by every pair.
    fn by_pairs(&self, loaded: &[i64], sum: usize, reach: &Reach) -> (i64, usize) {
        let mut best = (i64::MIN, 0);
        self.tried(loaded, sum, reach.first..reach.last + 1, &mut best);
        best
    }

    /// The same by blocks: costs never fall, so that no output of a block earns more than the most of the block with
    /// the cost of its first one. `floor` is what some output within reach earns.
    fn by_blocks(&self, loaded: &[i64], most: &[i64], sum: usize, reach: &Reach, floor: i64) -> (i64, usize) {
        let (mut best, mut p) = ((floor - 1, 0), reach.first);
        while p <= reach.last {
            let end = ((p / BLOCK + 1) * BLOCK).min(reach.last + 1);
            if most[p / BLOCK] - self.table[sum + p] > best.0 {
                self.tried(loaded, sum, p..end, &mut best);
            }
            p = end;
        }
        best
    }
}

impl Costs for ByTable {
    fn gain(&self, unit: &Unit, k: usize, q: usize, p: usize) -> i64 {
        let charge = match (q, p) {
            (0, 0) => 0,
            (_, 0) => 2 * i64::from(unit.case.stopcost) - self.table[0],
            (0, _) => 2 * i64::from(unit.case.startcost),
            _ => 0,
        };
        let cost = if q + p == 0 { 0 } else { self.table[q + p] };
        i64::from(unit.case.prices[k]) * (q + p) as i64 - cost - charge
    }

    fn row(&self, unit: &Unit, k: usize, after: &[(i64, u16)]) -> Vec<(i64, u16)> {
        if !unit.allowed(k, unit.low) {
            return vec![(NONE, 0); unit.cells];
        }
        let (low, price) = (unit.low, i64::from(unit.case.prices[k]));
        let loaded: Vec<i64> = (low..).zip(after).map(|(p, &(worth, _))| worth + price * p as i64).collect();
        let most: Vec<i64> =
            loaded.chunks(BLOCK).map(|block| *block.iter().max().expect("a block")).collect();
        let (mut row, mut at) = (Vec::with_capacity(unit.cells), 0);
        for i in 0..unit.cells {
            let (reach, sum) = (Reach::of(unit, i), low + i + low);
            let best = match self.rows {
                Rows::Pairs => self.by_pairs(&loaded, sum, &reach),
                Rows::Blocks => {
                    let near = usize::clamp(at, reach.first, reach.last);
                    let floor = loaded[near] - self.table[sum + near];
                    self.by_blocks(&loaded, &most, sum, &reach, floor)
                }
            };
            at = best.1;
            let worth = best.0 + price * (low + i) as i64;
            row.push(if worth < NONE / 2 { (NONE, 0) } else { (worth, (low + at) as u16) });
        }
        row
    }
}

/// The best list of an accepted case by a curve, looking at every pair; none where no list keeps every rule.
pub fn by_pairs(case: &Case, curve: Curve) -> Option<(i64, Vec<u16>)> {
    best_by(case, &ByTable { table: table(curve), rows: Rows::Pairs })
}

/// The same by blocks.
pub fn by_blocks(case: &Case, curve: Curve) -> Option<(i64, Vec<u16>)> {
    best_by(case, &ByTable { table: table(curve), rows: Rows::Blocks })
}

/// The curves that are timed for a case: its F and A as a flat and a straight one, and one that bends about them.
pub fn all(case: &Case) -> [(&'static str, Curve); 3] {
    let (a, b) = (2.0 * f64::from(case.fixed), f64::from(case.variable));
    let c = b / 2_000.25;
    [
        ("flat", Curve::Flat { a }),
        ("straight", Curve::Straight { a, b }),
        ("curved", Curve::Curved { a: a + 0.5, b: b * 0.7, c }),
    ]
}
