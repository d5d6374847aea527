//! The kinds of a cost curve that a table is filled with (request F-7).

use super::{kind, Kind};
use oracle::curve::{faults, Fault, Tested, COSTS, CURVED, FLAT, STRAIGHT};
use oracle::curves::Drawn;
use oracle::exact::Amount;

/// A curve, how many numbers were lent for its table, and the answer.
pub struct Met {
    kind: u16,
    coefficients: [f64; 3],
    tested: Result<Tested, Fault>,
    lent: usize,
    number: u32,
}

/// All kinds.
pub const KINDS: [Kind<Met>; 48] = [
    kind("flat", |met| met.is_filled(FLAT)),
    kind("straight", |met| met.is_filled(STRAIGHT)),
    kind("curved", |met| met.is_filled(CURVED)),
    kind("whole", |met| met.number == 0 && met.is_whole()),
    kind("a tie down to the even", |met| {
        met.some_entry(|_, float, cost| float.is_tie() && below(float, cost))
    }),
    kind("a tie up to the even", |met| {
        met.some_entry(|_, float, cost| float.is_tie() && !below(float, cost))
    }),
    kind("a tie that a rounding makes", |met| {
        met.some_entry(|(tested, n), float, _| float.is_tie() && !tested.exact(n).is_tie())
    }),
    kind("otherwise if fused", |met| {
        met.some_entry(|(tested, n), _, cost| tested.fused(n).nearest_whole() != cost)
    }),
    kind("otherwise if rounded once", |met| {
        met.some_entry(|(tested, n), _, cost| tested.exact(n).nearest_whole() != cost)
    }),
    kind("an entry above 2^31", |met| met.some_entry(|_, _, cost| cost > 1 << 31)),
    kind("the largest entry", |met| met.some_entry(|_, _, cost| cost == 640_801_000_000)),
    kind("all entries 0", |met| met.number == 0 && !met.some_entry(|_, _, cost| cost > 0)),
    kind("minus zero that is used", |met| met.number == 0 && met.used().iter().any(is_minus_zero)),
    kind("minus zero that is not used", |met| met.number == 0 && met.unused().iter().any(is_minus_zero)),
    kind("below the least normal float", |met| met.number == 0 && met.used().iter().any(is_subnormal)),
    kind("the least float", |met| met.number == 0 && met.used().iter().any(|number| number.to_bits() == 1)),
    kind("1,000,000", |met| met.number == 0 && met.used().contains(&1_000_000.0)),
    kind("16: a kind of 3", |met| met.refused(Fault::Kind) && met.kind == 3),
    kind("a kind of 256", |met| met.refused(Fault::Kind) && met.kind == 256),
    kind("a kind of 257", |met| met.refused(Fault::Kind) && met.kind == 257),
    kind("a kind of 258", |met| met.refused(Fault::Kind) && met.kind == 258),
    kind("a kind of 65,535", |met| met.refused(Fault::Kind) && met.kind == 65_535),
    kind("a not a number", |met| met.alone(0, f64::is_nan)),
    kind("b not a number", |met| met.alone(1, f64::is_nan)),
    kind("c not a number", |met| met.alone(2, f64::is_nan)),
    kind("not a number, with a sign", |met| {
        met.refused(Fault::NotANumber)
            && met.used().iter().any(|number| number.is_nan() && number.is_sign_negative())
    }),
    kind("a infinite", |met| met.alone(0, |number| number == f64::INFINITY)),
    kind("b infinite", |met| met.alone(1, |number| number == f64::INFINITY)),
    kind("c infinite", |met| met.alone(2, |number| number == f64::INFINITY)),
    kind("a infinite below zero", |met| met.alone(0, |number| number == f64::NEG_INFINITY)),
    kind("a just below zero", |met| met.alone(0, is_just_below_zero)),
    kind("b just below zero", |met| met.alone(1, is_just_below_zero)),
    kind("c just below zero", |met| met.alone(2, is_just_below_zero)),
    kind("a just above 1,000,000", |met| met.alone(0, is_just_above)),
    kind("b just above 1,000,000", |met| met.alone(1, is_just_above)),
    kind("c just above 1,000,000", |met| met.alone(2, is_just_above)),
    kind("b unused, an accepted number", |met| met.alone_unused(1, is_within)),
    kind("c unused, an accepted number", |met| met.alone_unused(2, is_within)),
    kind("unused, below the least normal float", |met| {
        met.refused(Fault::Unused) && met.unused().iter().any(is_subnormal)
    }),
    kind("b unused, not a number", |met| met.alone_unused(1, f64::is_nan)),
    kind("c unused, not a number", |met| met.alone_unused(2, f64::is_nan)),
    kind("unused and negative", |met| {
        met.refused(Fault::Unused) && met.unused().iter().any(|&number| number < 0.0)
    }),
    kind("16 before 10", |met| met.number == 16 && met.lent < COSTS),
    kind("10: no number", |met| met.number == 10 && met.lent == 0),
    kind("10: 800 numbers", |met| met.number == 10 && met.lent == COSTS - 1),
    kind("801 numbers", |met| met.number == 0 && met.lent == COSTS),
    kind("802 numbers", |met| met.number == 0 && met.lent == COSTS + 1),
    kind("thousands of numbers", |met| met.number == 0 && met.lent > 4_000),
];

/// Whether an entry is below its float.
fn below(float: &Amount, cost: i64) -> bool {
    Amount::whole(cost as u64).is_at_most(float)
}

fn is_minus_zero(number: &f64) -> bool {
    number.to_bits() == 1 << 63
}

fn is_subnormal(number: &f64) -> bool {
    number.is_subnormal()
}

fn is_just_below_zero(number: f64) -> bool {
    number.to_bits() == 1 << 63 | 1
}

fn is_just_above(number: f64) -> bool {
    number.to_bits() == 1_000_000f64.to_bits() + 1
}

fn is_within(number: f64) -> bool {
    number > 0.0 && number <= 1_000_000.0
}

impl Met {
    /// A curve with what was lent and its answer.
    pub fn new((kind, curve): Drawn, lent: usize, number: u32) -> Met {
        Met { kind, coefficients: curve.coefficients(), tested: faults(kind, &curve), lent, number }
    }

    /// Whether a table of this kind was filled.
    fn is_filled(&self, kind: u16) -> bool {
        self.number == 0 && self.kind == kind
    }

    /// Whether it was refused, and this is its first fault.
    fn refused(&self, fault: Fault) -> bool {
        self.number == 16 && self.tested.as_ref().err() == Some(&fault)
    }

    /// The coefficients that the kind uses; all of them for a kind that is none.
    fn used(&self) -> &[f64] {
        &self.coefficients[..(usize::from(self.kind) + 1).min(3)]
    }

    /// Those that it does not use.
    fn unused(&self) -> &[f64] {
        &self.coefficients[self.used().len()..]
    }

    /// Whether every coefficient is a whole number.
    fn is_whole(&self) -> bool {
        self.coefficients.iter().all(|number| number.fract() == 0.0)
    }

    /// Whether the others are accepted, and the coefficient at this place is such a one, for which 16 is given.
    fn alone(&self, place: usize, test: fn(f64) -> bool) -> bool {
        let others = (0..self.used().len()).filter(|&other| other != place);
        self.number == 16
            && self.kind <= CURVED
            && place < self.used().len()
            && test(self.coefficients[place])
            && others
                .map(|other| self.coefficients[other])
                .all(|number| (0.0..=1_000_000.0).contains(&number))
            && self.unused().iter().all(|&number| number == 0.0)
    }

    /// Whether the others are accepted, and the coefficient at this place is not used, is such a one, and is refused.
    fn alone_unused(&self, place: usize, test: fn(f64) -> bool) -> bool {
        let others = (self.used().len()..3).filter(|&other| other != place);
        self.refused(Fault::Unused)
            && place >= self.used().len()
            && test(self.coefficients[place])
            && others.map(|other| self.coefficients[other]).all(|number| number == 0.0)
    }

    /// Whether a table was filled, and one of its entries is such a one, by the curve, n, its float and itself.
    fn some_entry(&self, test: fn((&Tested, u64), &Amount, i64) -> bool) -> bool {
        let Ok(tested) = &self.tested else {
            return false;
        };
        let test = |n| {
            let float = tested.float(n);
            test((tested, n), &float, float.nearest_whole())
        };
        self.number == 0 && (0..COSTS as u64).any(test)
    }
}
