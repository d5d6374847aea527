//! The boiler maker's cost curve (request F-7, here the request): three coefficients, their refusal, and the table of
//! what an hour costs by its energy.

use crate::exact::Amount;

/// Entries of a table: half-megawatt-hours from 0 to 800.
pub const COSTS: usize = 801;

/// Kinds of a curve by their numbers at the C boundary.
pub const FLAT: u16 = 0;
pub const STRAIGHT: u16 = 1;
pub const CURVED: u16 = 2;

/// The largest coefficient.
const LARGEST: u64 = 1_000_000;

/// The three coefficients, which travel together; a curve that does not use one has 0 there.
#[repr(C)]
#[derive(Clone, Copy, Debug)]
pub struct Curve {
    pub a: f64,
    pub b: f64,
    pub c: f64,
}

impl Curve {
    /// The coefficients in their order.
    pub fn coefficients(&self) -> [f64; 3] {
        [self.a, self.b, self.c]
    }
}

/// Why 16 is given.
#[derive(Clone, Copy, Debug, PartialEq, Eq)]
pub enum Fault {
    /// A kind that is none of the three.
    Kind,
    /// A coefficient of the kind that is not a number.
    NotANumber,
    /// One that is below zero; minus zero is not.
    Negative,
    /// One above 1,000,000, or infinite.
    Above,
    /// A coefficient that the kind does not use and that is not 0.
    Unused,
}

/// The coefficients as exact amounts.
#[derive(Clone, Copy, Debug)]
pub struct Tested {
    kind: u16,
    coefficients: [Amount; 3],
}

/// The digits of a float without its sign.
fn without_sign(number: f64) -> u64 {
    number.to_bits() & (u64::MAX >> 1)
}

/// Whether it has a sign; that of zero does not count.
fn is_negative(number: f64) -> bool {
    number.to_bits() >> 63 == 1 && without_sign(number) != 0
}

/// Whether its bits are those of no number.
fn is_not_a_number(number: f64) -> bool {
    without_sign(number) > 0x7ff << 52
}

/// A coefficient of the kind as an amount.
fn used(number: f64) -> Result<Amount, Fault> {
    if is_not_a_number(number) {
        return Err(Fault::NotANumber);
    }
    if is_negative(number) {
        return Err(Fault::Negative);
    }
    let amount = Amount::of_float(without_sign(number)).ok_or(Fault::Above)?;
    if amount.is_at_most(&Amount::whole(LARGEST)) {
        Ok(amount)
    } else {
        Err(Fault::Above)
    }
}

/// A coefficient that the kind does not use.
fn unused(number: f64) -> Result<Amount, Fault> {
    if without_sign(number) == 0 {
        Ok(Amount::ZERO)
    } else {
        Err(Fault::Unused)
    }
}

/// How many coefficients a kind uses.
fn count(kind: u16) -> Result<usize, Fault> {
    match kind {
        FLAT => Ok(1),
        STRAIGHT => Ok(2),
        CURVED => Ok(3),
        _ => Err(Fault::Kind),
    }
}

/// The first fault of a curve, or its coefficients as amounts.
pub fn faults(kind: u16, curve: &Curve) -> Result<Tested, Fault> {
    let count = count(kind)?;
    let mut coefficients = [Amount::ZERO; 3];
    for (place, &number) in curve.coefficients().iter().enumerate() {
        coefficients[place] = if place < count { used(number)? } else { unused(number)? };
    }
    Ok(Tested { kind, coefficients })
}

/// Refusal 16: a coefficient that is not a number, negative or above 1,000,000, an unused one that is not 0, or a kind
/// that is none of the three.
pub fn tested(kind: u16, curve: &Curve) -> Result<Tested, u32> {
    faults(kind, curve).map_err(|_| 16)
}

impl Tested {
    /// The float that an hour costs, as an exact amount: a, b n + a or (c n + b) n + a, done in that order, each
    /// operation rounded once.
    pub fn float(&self, n: u64) -> Amount {
        let [a, b, c] = &self.coefficients;
        match self.kind {
            FLAT => *a,
            STRAIGHT => b.times(n).rounded().plus(a).rounded(),
            _ => {
                let first = c.times(n).rounded().plus(b).rounded();
                first.times(n).rounded().plus(a).rounded()
            }
        }
    }

    /// What the formula gives without rounding.
    pub fn exact(&self, n: u64) -> Amount {
        let [a, b, c] = &self.coefficients;
        c.times(n).plus(b).times(n).plus(a)
    }

    /// What it gives where a product and the sum after it are rounded together.
    pub fn fused(&self, n: u64) -> Amount {
        let [a, b, c] = &self.coefficients;
        c.times(n).plus(b).rounded().times(n).plus(a).rounded()
    }

    /// What an hour costs in half-mills: the float, taken to the nearest whole number, a tie to the even one.
    pub fn cost(&self, n: u64) -> i64 {
        self.float(n).nearest_whole()
    }

    /// The costs for n from 0 to 800.
    pub fn table(&self) -> Vec<i64> {
        (0..COSTS as u64).map(|n| self.cost(n)).collect()
    }
}

/// The number of filling a table, 16 or 10 or 0, and the costs that are filled in, none on a refusal.
pub fn filling(kind: u16, curve: &Curve, lent: usize) -> (u32, Vec<i64>) {
    match tested(kind, curve).and_then(|tested| memory(lent).map(|()| tested.table())) {
        Ok(table) => (0, table),
        Err(number) => (number, Vec::new()),
    }
}

/// Refusal 10 of a table: fewer numbers than it has.
pub fn memory(lent: usize) -> Result<(), u32> {
    if lent < COSTS {
        return Err(10);
    }
    Ok(())
}
