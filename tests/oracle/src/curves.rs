//! Random cost curves (request F-7): of whole and broken coefficients, ties, the least floats and the limits, and
//! curves with a fault; and curves of about the costs of a case.

use crate::case::Case;
use crate::curve::{Curve, CURVED, FLAT, STRAIGHT};
use crate::random::Rng;

/// A curve with its kind.
pub type Drawn = (u16, Curve);

/// The curve of these coefficients.
pub fn curve([a, b, c]: [f64; 3]) -> Curve {
    Curve { a, b, c }
}

/// The float just above 1,000,000, and the one just below.
const ABOVE: u64 = 0x412e_8480_0000_0001;
const BELOW: u64 = 0x412e_847f_ffff_ffff;

/// A number of 53 digits, with its point anywhere up to so many digits after the first.
fn long(rng: &mut Rng, most: u64) -> f64 {
    let exponent = rng.between(1, 1023 + most);
    f64::from_bits(exponent << 52 | rng.bits() >> 12)
}

/// A coefficient that is accepted.
pub fn coefficient(rng: &mut Rng) -> f64 {
    match rng.below(12) {
        0 => rng.between(0, 20) as f64,
        1 => rng.between(0, 1_000_000) as f64,
        2 => rng.between(0, 2_000_000) as f64 / 2.0,
        3 => rng.between(0, 4_000) as f64 / (1 << rng.below(12)) as f64,
        4 => rng.between(0, 1_000_000) as f64 / rng.pick(&[10.0, 100.0, 1_000.0]),
        5 => long(rng, 18),
        6 | 7 => f64::from_bits(rng.between(1013, 1023 + 18) << 52 | rng.bits() >> 12),
        8 => f64::from_bits(rng.bits() >> rng.between(12, 63)),
        9 => rng.pick(&[1_000_000.0, f64::from_bits(BELOW), 999_999.5, 500_000.25]),
        10 => rng.pick(&[0.5, 1.5, 2.5, f64::from_bits(1), f64::from_bits(1 << 52), 0.1]),
        _ => rng.pick(&[0.0, -0.0]),
    }
}

/// A coefficient that is not accepted.
fn refused(rng: &mut Rng) -> f64 {
    let payload = rng.bits() >> 12 | 1;
    match rng.below(9) {
        0 => f64::from_bits(0x7ff << 52 | payload),
        1 => f64::from_bits(0xfff << 52 | payload),
        2 => f64::INFINITY,
        3 => f64::NEG_INFINITY,
        4 => -coefficient(rng).abs().max(f64::from_bits(1)),
        5 => f64::from_bits(1 << 63 | 1),
        6 => f64::from_bits(ABOVE),
        7 => f64::from_bits(rng.between(1043, 2046) << 52 | rng.bits() >> 12),
        _ => f64::from_bits(rng.bits() | 1 << 63),
    }
}

/// A kind, and the curve that has a coefficient of `draw` where the kind uses one and 0 or minus 0 elsewhere.
fn of_kind(rng: &mut Rng, mut draw: impl FnMut(&mut Rng, usize) -> f64) -> Drawn {
    let kind = rng.pick(&[FLAT, STRAIGHT, CURVED, CURVED]);
    let mut coefficients = [0; 3].map(|_| if rng.once_in(4) { -0.0 } else { 0.0 });
    for (place, coefficient) in coefficients.iter_mut().enumerate().take(usize::from(kind) + 1) {
        *coefficient = draw(rng, place);
    }
    (kind, curve(coefficients))
}

/// A curve that is accepted: of any coefficients, of whole ones, of halves, or of long ones of about one size, whose
/// costs are so large that each rounding counts once in a while.
pub fn accepted(rng: &mut Rng) -> Drawn {
    match rng.below(5) {
        _ if rng.once_in(100) => of_kind(rng, |_, _| 1_000_000.0),
        0 => of_kind(rng, |rng, _| rng.between(0, 1_000_000) as f64),
        1 => of_kind(rng, |rng, _| rng.between(0, 4_000) as f64 / 2.0),
        2 => {
            let exponent = rng.pick(&[1021, 1025, 1038, 1041]);
            of_kind(rng, |rng, _| f64::from_bits(exponent << 52 | rng.bits() >> 12))
        }
        _ => of_kind(rng, |rng, _| coefficient(rng)),
    }
}

/// Mostly a curve that is accepted, else one with a fault: a refused coefficient in its place or in one that is not
/// used, a used one in a place that is not, or another kind.
pub fn any(rng: &mut Rng) -> Drawn {
    let (kind, mut curve) = accepted(rng);
    if !rng.once_in(3) {
        return (kind, curve);
    }
    match rng.below(6) {
        0 => (rng.pick(&[3, 4, 255, 256, 257, 258, 32_768, 65_535]), curve),
        1 => (rng.pick(&[FLAT, STRAIGHT]), curve),
        place => {
            let number = if place == 5 { coefficient(rng) } else { refused(rng) };
            let coefficients = [&mut curve.a, &mut curve.b, &mut curve.c];
            *coefficients.into_iter().nth(rng.place(0, 2)).expect("three coefficients") = number;
            (kind, curve)
        }
    }
}

/// An accepted curve of about the costs of a case: those of F and A themselves, or near them, with a bend or without.
pub fn of_case(rng: &mut Rng, case: &Case) -> Drawn {
    let (fixed, variable) = (2.0 * f64::from(case.a), f64::from(case.f));
    let near = |rng: &mut Rng, number: f64| match rng.below(4) {
        0 => number,
        1 => number + rng.between(0, 8) as f64 / 8.0,
        2 => number * (rng.between(0, 2_000) as f64 / 1_000.0),
        _ => number + rng.between(0, 100) as f64 / 10.0,
    };
    match rng.below(8) {
        0 => accepted(rng),
        1 => (FLAT, curve([near(rng, fixed), 0.0, 0.0])),
        2 => (STRAIGHT, curve([fixed, variable, 0.0])),
        3 => (STRAIGHT, curve([near(rng, fixed), near(rng, variable), 0.0])),
        _ => {
            let bend = rng.between(1, 1_000) as f64 / rng.pick(&[10.0, 1_000.0, 100_000.0, 1024.0]);
            (CURVED, curve([near(rng, fixed), near(rng, variable), bend]))
        }
    }
    .within()
}

/// What brings a curve within the limits.
trait Within {
    fn within(self) -> Drawn;
}

impl Within for Drawn {
    /// The curve with coefficients above 1,000,000 at it.
    fn within(self) -> Drawn {
        (self.0, curve(self.1.coefficients().map(|number| if number > 1e6 { 1e6 } else { number })))
    }
}
