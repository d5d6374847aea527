//! Cost curves (request F-7) worked out by hand: entries of tables, faults, and days of the unit of the known days by a
//! curve.

use crate::answers::{Schedule, Verdict};
use crate::by_curve::Lent;
use crate::case::{Case, ON_LINE};
use crate::curve::{Curve, Fault, CURVED, FLAT, STRAIGHT};
use crate::curves::curve;
use crate::days::{known_unit, with_orders};

/// How many of each there are.
pub const ENTRIES: u64 = 48;
pub const FAULTS: u64 = 48;
pub const DAYS: u64 = 38;

/// An entry of a table.
pub struct KnownEntry {
    pub kind: u16,
    pub curve: Curve,
    pub n: u64,
    pub cost: i64,
}

/// The curves of the three kinds.
fn flat(a: f64) -> (u16, Curve) {
    (FLAT, curve([a, 0.0, 0.0]))
}
fn straight(a: f64, b: f64) -> (u16, Curve) {
    (STRAIGHT, curve([a, b, 0.0]))
}
fn curved(a: f64, b: f64, c: f64) -> (u16, Curve) {
    (CURVED, curve([a, b, c]))
}

/// 2 to the power of a number from -1074 to 0.
fn power(exponent: i32) -> f64 {
    match exponent {
        -1074..=-1023 => f64::from_bits(1 << (exponent + 1074)),
        _ => f64::from_bits(((exponent + 1023) as u64) << 52),
    }
}

/// Entries of tables. A tenth as a float is 3,602,879,701,896,397 / 2^55, so that five of them are 1/2 + 2^-55 and are
/// rounded to 1/2.
pub fn known_entries() -> Vec<KnownEntry> {
    let rows = [
        // a tie goes to the even number
        (flat(0.5), 0, 0),
        (flat(0.5), 800, 0),
        (flat(1.5), 7, 2),
        (flat(2.5), 800, 2),
        (flat(3.5), 1, 4),
        (flat(999_999.5), 3, 1_000_000),
        (flat(999_998.5), 3, 999_998),
        // next to a tie
        (flat(0.5 - power(-54)), 0, 0),
        (flat(0.5 + power(-53)), 0, 1),
        (flat(2.5 - power(-51)), 0, 2),
        (flat(2.5 + power(-51)), 0, 3),
        // whole numbers and zeros
        (flat(0.0), 5, 0),
        (flat(-0.0), 5, 0),
        (flat(1_000_000.0), 800, 1_000_000),
        (flat(power(-1074)), 800, 0),
        (flat(power(-1022)), 800, 0),
        (straight(0.5, 1.0), 0, 0),
        (straight(0.5, 1.0), 1, 2),
        (straight(0.5, 1.0), 2, 2),
        (straight(0.5, 1.0), 3, 4),
        (straight(0.5, 1.0), 800, 800),
        (straight(200_000.0, 38_000.0), 588, 22_544_000),
        (straight(1_000_000.0, 1_000_000.0), 800, 801_000_000),
        (straight(0.0, power(-1074)), 800, 0),
        // a product that is rounded onto a tie
        (straight(0.0, 0.1), 5, 0),
        (straight(0.0, 0.1), 10, 1),
        (straight(0.0, 0.1), 15, 2),
        (straight(0.0, 0.1), 25, 2),
        (straight(0.0, 0.1), 6, 1),
        (straight(0.0, 0.1), 800, 80),
        (straight(-0.0, 0.1), 5, 0),
        // two roundings, where one would give 1
        (straight(power(-54), 0.1), 5, 0),
        (curved(power(-54), 0.1, 0.0), 5, 0),
        (curved(power(-54), 0.1, -0.0), 5, 0),
        (straight(power(-53), 0.1), 5, 1),
        // the bend
        (curved(0.0, 0.0, 0.5), 1, 0),
        (curved(0.0, 0.0, 0.5), 2, 2),
        (curved(0.0, 0.0, 0.5), 3, 4),
        (curved(0.0, 0.0, 0.5), 5, 12),
        (curved(0.0, 0.0, 0.5), 7, 24),
        (curved(3.0, 2.0, 1.0), 0, 3),
        (curved(3.0, 2.0, 1.0), 800, 641_603),
        (curved(1_000_000.0, 1_000_000.0, 1_000_000.0), 800, 640_801_000_000),
        (curved(1_000_000.0, 1_000_000.0, 1_000_000.0), 799, 639_201_000_000),
        (curved(0.5, 0.25, 0.25), 1, 1),
        (curved(0.5, 0.25, 0.25), 2, 2),
        (curved(0.0, 0.0, power(-1074)), 800, 0),
        (curved(0.0, -0.0, 0.0), 800, 0),
    ];
    rows.map(|((kind, curve), n, cost)| KnownEntry { kind, curve, n, cost }).into()
}

/// Curves with the first fault that they have, or none.
pub fn known_faults() -> Vec<(u16, Curve, Option<Fault>)> {
    let quiet = f64::from_bits(0x7ff8 << 48);
    let least = f64::from_bits(1);
    let above = f64::from_bits(1_000_000f64.to_bits() + 1);
    let mut rows = Vec::new();
    for place in 0..3 {
        let mut with = |number: f64, fault: Option<Fault>| {
            let mut coefficients = [1.0; 3];
            coefficients[place] = number;
            rows.push((CURVED, curve(coefficients), fault));
        };
        with(quiet, Some(Fault::NotANumber));
        with(f64::from_bits(0x7ff << 52 | 1), Some(Fault::NotANumber));
        with(-quiet, Some(Fault::NotANumber));
        with(f64::INFINITY, Some(Fault::Above));
        with(f64::NEG_INFINITY, Some(Fault::Negative));
        with(-least, Some(Fault::Negative));
        with(-1.0, Some(Fault::Negative));
        with(above, Some(Fault::Above));
        with(f64::from_bits(0x7fe << 52), Some(Fault::Above));
        with(1_000_000.0, None);
    }
    for (kind, coefficients, fault) in [
        (FLAT, [1.0, -0.0, -0.0], None),
        (FLAT, [1.0, least, 0.0], Some(Fault::Unused)),
        (FLAT, [1.0, -1.0, 0.0], Some(Fault::Unused)),
        (FLAT, [1.0, 0.0, 1.0], Some(Fault::Unused)),
        (FLAT, [1.0, 0.0, quiet], Some(Fault::Unused)),
        (FLAT, [1.0, f64::INFINITY, 0.0], Some(Fault::Unused)),
        (FLAT, [quiet, 1.0, 0.0], Some(Fault::NotANumber)),
        (STRAIGHT, [1.0, 1.0, -0.0], None),
        (STRAIGHT, [1.0, 1.0, least], Some(Fault::Unused)),
        (STRAIGHT, [1.0, 1.0, quiet], Some(Fault::Unused)),
        (STRAIGHT, [1.0, quiet, 0.0], Some(Fault::NotANumber)),
        (STRAIGHT, [-0.0, -0.0, 0.0], None),
        (3, [1.0, 1.0, 1.0], Some(Fault::Kind)),
        (3, [0.0, 0.0, 0.0], Some(Fault::Kind)),
        (256, [1.0, 0.0, 0.0], Some(Fault::Kind)),
        (257, [1.0, 1.0, 0.0], Some(Fault::Kind)),
        (258, [1.0, 1.0, 1.0], Some(Fault::Kind)),
        (65_535, [0.0, 0.0, 0.0], Some(Fault::Kind)),
    ] {
        rows.push((kind, curve(coefficients), fault));
    }
    rows
}

/// What is asked of a day by a curve.
#[derive(Clone, Debug)]
pub enum Question {
    /// The best list in so much lent memory, and its answer.
    Best(Lent, Schedule),
    /// The check of a list with so many numbers lent for the table, and its answer.
    Check(Vec<u16>, usize, Verdict),
}

/// A day by a curve.
pub struct KnownDay {
    pub case: Case,
    pub kind: u16,
    pub curve: Curve,
    pub question: Question,
    /// Whether the table is filled.
    pub filled: bool,
}

/// Memory that is just enough for a day of so many hours with short minimum times.
fn enough(hours: usize) -> Lent {
    Lent { table: 801, numbers: 8_192, outputs: hours }
}

/// A day whose best list by a curve is this one.
fn found(case: Case, (kind, curve): (u16, Curve), list: &[u16], profit: i64) -> KnownDay {
    let answer = Schedule { number: 0, profit, list: list.to_vec() };
    KnownDay { case, kind, curve, question: Question::Best(enough(case.t), answer), filled: true }
}

/// A search that is refused in this memory.
fn refused(case: Case, (kind, curve): (u16, Curve), lent: Lent, number: u32) -> KnownDay {
    let answer = Schedule { number, profit: 0, list: Vec::new() };
    KnownDay { case, kind, curve, question: Question::Best(lent, answer), filled: number == 11 }
}

/// A check with this answer.
fn checked(case: Case, (kind, curve): (u16, Curve), list: &[u16], lent: usize, answer: Verdict) -> KnownDay {
    let filled = answer.number == 0;
    KnownDay { case, kind, curve, question: Question::Check(list.to_vec(), lent, answer), filled }
}

/// The verdict of a list that passes, breaks a rule, or is refused.
fn passes(profit: i64) -> Verdict {
    Verdict { number: 0, hour: 0, rule: 0, profit }
}
fn breaks(hour: u32, rule: u32) -> Verdict {
    Verdict { number: 0, hour, rule, profit: 0 }
}
fn refusal(number: u32) -> Verdict {
    Verdict { number, hour: 0, rule: 0, profit: 0 }
}

/// Days by a curve. The unit of the known days has F 10 and A 1, which is the straight curve of 2 and 10; a start costs
/// 6 and a stop 4 half-mills.
pub fn known_days() -> Vec<KnownDay> {
    let as_plain = straight(2.0, 10.0);
    let off = |prices: &[i32]| known_unit(0, prices);
    let none = Case { h: 1, min_down: 2, ..with_orders(known_unit(0, &[10]), &[ON_LINE]) };
    let negative = flat(-1.0);
    let lent = enough(1);
    let late = Case { min_up: 9, ..off(&[10]) };
    vec![
        // the curve of F and A gives the known days
        found(off(&[10]), as_plain, &[0], 0),
        found(off(&[18]), as_plain, &[0], 0),
        found(off(&[19]), as_plain, &[1], 1),
        found(known_unit(3, &[5, 5, 5]), as_plain, &[2, 1, 0], -53),
        found(off(&[19]), curved(2.0, 10.0, 0.0), &[1], 1),
        found(off(&[19]), curved(2.0, 10.0, -0.0), &[1], 1),
        // F and A do not count
        found(Case { f: 1_000_000, a: 100_000_000, ..off(&[19]) }, as_plain, &[1], 1),
        found(Case { f: 0, a: 0, ..off(&[18]) }, as_plain, &[0], 0),
        // an off-line hour costs nothing at 0 MW, whatever the entry for 0 is
        found(off(&[0]), flat(7.0), &[0], 0),
        found(off(&[0, 0, 0]), flat(1_000_000.0), &[0, 0, 0], 0),
        // the hour of a stop has the entry for 0 taken off: -7 - 4 against -14 on-line
        found(known_unit(2, &[0, 0]), flat(7.0), &[1, 0], -11),
        checked(known_unit(2, &[0, 0]), flat(7.0), &[1, 0], 801, passes(-11)),
        checked(known_unit(2, &[0, 0]), flat(7.0), &[2, 2], 801, passes(-14)),
        // and keeps what its energy costs: 1 half-megawatt-hour at 3
        checked(known_unit(2, &[0, 0]), straight(7.0, 3.0), &[1, 0], 801, passes(-23)),
        checked(known_unit(2, &[0, 0]), curved(7.0, 3.0, 2.0), &[1, 0], 801, passes(-43)),
        // a bend draws the output down: 2 n n at price 20
        found(known_unit(3, &[20]), curved(0.0, 0.0, 2.0), &[2], 50),
        found(known_unit(2, &[20]), curved(0.0, 0.0, 2.0), &[3], 50),
        checked(known_unit(3, &[20]), curved(0.0, 0.0, 2.0), &[3], 801, passes(48)),
        checked(known_unit(3, &[20]), curved(0.0, 0.0, 2.0), &[4], 802, passes(42)),
        // a tie of the rounding decides: 5 half-megawatt-hours cost 0 and not 1
        checked(known_unit(2, &[0]), straight(0.0, 0.1), &[3], 801, passes(0)),
        // a list that breaks a rule fills the table, also where no entry is
        checked(known_unit(3, &[20]), as_plain, &[65_535], 801, breaks(1, 3)),
        checked(known_unit(3, &[20]), as_plain, &[0], 801, breaks(0, 4)),
        checked(off(&[10]), as_plain, &[2], 900, breaks(1, 3)),
        // refusals in their order
        refused(none, as_plain, lent, 11),
        refused(none, as_plain, Lent { table: 800, ..lent }, 10),
        refused(none, as_plain, Lent { numbers: 8_191, ..lent }, 10),
        refused(none, as_plain, Lent { outputs: 0, ..lent }, 10),
        refused(off(&[10]), as_plain, Lent { table: 0, ..lent }, 10),
        refused(late, as_plain, Lent { numbers: 8_192, ..lent }, 10),
        refused(off(&[10]), negative, lent, 16),
        refused(Case { ud: 0, ..off(&[10]) }, negative, Lent { table: 0, numbers: 0, outputs: 0 }, 16),
        refused(Case { ud: 0, ..off(&[10]) }, as_plain, Lent { table: 0, numbers: 0, outputs: 0 }, 2),
        refused(Case { f: 1_000_001, ..off(&[10]) }, as_plain, lent, 5),
        checked(off(&[10]), negative, &[0, 0], 0, refusal(16)),
        checked(Case { ud: 0, ..off(&[10]) }, as_plain, &[0, 0], 0, refusal(2)),
        checked(off(&[10_000_001]), as_plain, &[0, 0], 0, refusal(13)),
        checked(off(&[10]), as_plain, &[0, 0], 800, refusal(9)),
        checked(off(&[10]), as_plain, &[0], 800, refusal(10)),
    ]
}
