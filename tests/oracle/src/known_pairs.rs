//! Pairs of lists on the unit of the known days, with the answer that request F-1 gives, worked out by hand. An on-line
//! hour costs 2 A = 2, a start 2 B = 6 and a stop 2 C = 4 half-mills; the margin of an hour is its price less F = 10.

use crate::case::Case;
use crate::days::{known_unit, refused_cases};
use crate::opening::Opening;
use crate::pair::Choice;

/// A pair with its answer.
#[derive(Clone, Debug)]
pub struct KnownPair {
    pub name: &'static str,
    pub case: Case,
    pub first: Vec<u16>,
    pub second: Vec<u16>,
    pub choice: Choice,
}

/// The tie that trying every list of the known unit from 2 MW at prices 13, 10, 8 has found: no list earns more than 3,
/// and these two alone earn 3. Margins 3, 0, -2. The first shuts down: 3 (1 + 2) - 2 = 7, then 0 - 4 = -4, then 0. The
/// second stays on-line and closes on PD(2): 3 (3 + 2) - 2 = 13, then 0 - 2 = -2, then -2 (1 + 2) - 2 = -8.
pub const TIED_PRICES: [i32; 3] = [13, 10, 8];
pub const TIED_LISTS: [[u16; 3]; 2] = [[1, 0, 0], [3, 2, 1]];
pub const TIED_PROFIT: i64 = 3;

/// How many pairs there are.
pub const COUNT: u64 = 109;

/// All pairs, by the sentences of the request.
pub fn known_pairs() -> Vec<KnownPair> {
    let tested = [one_passes(), higher_profit(), equal_profit(), identical(), neither(), lengths()].concat();
    [tested, refusals(), prices_below_zero(), inside_a_sequence()].concat()
}

/// A list that passes beats one that doesn't, whatever that one would earn. One hour from 2 MW: 2 and 3 pass, since RU
/// is 1; 4 breaks 5. At price 10 the margin is 0, so 2 earns -2. At price 20 it is 10: 2 earns 10 (2 + 2) - 2 = 38, and
/// 4 would earn 10 (4 + 2) - 2 = 58. At price 5 it is -5: 2 earns -5 (2 + 2) - 2 = -22, and 0 would earn
/// -5 (0 + 2) - 4 = -14, but breaks 4 at hour 0, where a stop at hour 1 asks for PD(2) = 1.
fn one_passes() -> Vec<KnownPair> {
    let (even, high, low) = (known_unit(2, &[10]), known_unit(2, &[20]), known_unit(2, &[5]));
    vec![
        first("the first passes", even, &[2], &[4], -2),
        second("the second passes", even, &[4], &[2], -2),
        first("the first passes, the second would earn more", high, &[2], &[4], 38),
        second("the second passes, the first would earn more", high, &[4], &[2], 38),
        first("the first passes, the second is lower and would earn more", low, &[2], &[0], -22),
        second("the second passes, the first is lower and would earn more", low, &[0], &[2], -22),
        first("the first passes, the second has any output", high, &[2], &[65_535], 38),
        second("the second passes, the first has any output", high, &[65_535], &[2], 38),
    ]
}

/// Then the higher profit wins, be the list higher or lower. One hour at price 20 from 2 MW: 2 earns 38, and 3 earns
/// 10 (3 + 2) - 2 = 48. At price 5 from 3 MW: 2 earns -5 (2 + 3) - 2 = -27, and 4 earns -5 (4 + 3) - 2 = -37. From 0 MW
/// at price 19, case 3 of the known days: 0 earns 0, and 1 earns 9 (1 + 0) - 2 - 6 = 1; at price 17, 1 earns
/// 7 (1 + 0) - 2 - 6 = -1. At prices 13, 10, 8 from 2 MW: 3, 2, 1 earns 3, and 2, 1, 0 earns 3 (2 + 2) - 2 = 10, then
/// 0 - 2 = -2, then -2 (0 + 1) - 4 = -6, that is 2.
fn higher_profit() -> Vec<KnownPair> {
    let (high, low, start) = (known_unit(2, &[20]), known_unit(3, &[5]), known_unit(0, &[19]));
    let (tied, lost) = (known_unit(2, &TIED_PRICES), known_unit(0, &[17]));
    vec![
        second("the second earns more", high, &[2], &[3], 48),
        first("the first earns more", high, &[3], &[2], 48),
        first("the first loses less", low, &[2], &[4], -27),
        second("the second loses less", low, &[4], &[2], -27),
        second("the second earns one half-mill more", start, &[0], &[1], 1),
        first("the first earns one half-mill more", start, &[1], &[0], 1),
        first("the first earns nothing and the second loses", lost, &[0], &[1], 0),
        second("the second earns nothing and the first loses", lost, &[1], &[0], 0),
        first("the first earns more and is the higher list", tied, &[3, 2, 1], &[2, 1, 0], 3),
        second("the second earns more and is the higher list", tied, &[2, 1, 0], &[3, 2, 1], 3),
    ]
}

/// Then the lower output at the first hour where they differ. With margins 0 every list that stays on-line earns -2 for
/// each hour: one hour from 2 MW, 2 and 3; three hours, 2, 3, 4 and 3, 2, 2, of which the first is lower at hour 1 and
/// higher after it, and 2, 3, 4 and 2, 3, 3, which differ at hour 3 alone. Case 2 of the known days, from 0 MW at price
/// 18: 0 earns 0, and 1 earns 8 (1 + 0) - 2 - 6 = 0.
fn equal_profit() -> Vec<KnownPair> {
    let (even, long, start) = (known_unit(2, &[10]), known_unit(2, &[10; 3]), known_unit(0, &[18]));
    let (tied, [lower, higher]) = (known_unit(2, &TIED_PRICES), TIED_LISTS);
    vec![
        first("equal profit, the first is lower", even, &[2], &[3], -2),
        second("equal profit, the second is lower", even, &[3], &[2], -2),
        first(
            "equal profit, the first is lower at hour 1 and higher later",
            long,
            &[2, 3, 4],
            &[3, 2, 2],
            -6,
        ),
        second(
            "equal profit, the second is lower at hour 1 and higher later",
            long,
            &[3, 2, 2],
            &[2, 3, 4],
            -6,
        ),
        first("equal profit, the first is lower at hour 3", long, &[2, 3, 3], &[2, 3, 4], -6),
        second("equal profit, the second is lower at hour 3", long, &[2, 3, 4], &[2, 3, 3], -6),
        first("equal profit 0, the first is lower", start, &[0], &[1], 0),
        second("equal profit 0, the second is lower", start, &[1], &[0], 0),
        first("the tie found, the first is lower", tied, &lower, &higher, TIED_PROFIT),
        second("the tie found, the second is lower", tied, &higher, &lower, TIED_PROFIT),
    ]
}

/// Identical lists give the first. Case 7 of the known days earns -53.
fn identical() -> Vec<KnownPair> {
    let (even, falling) = (known_unit(2, &[10]), known_unit(3, &[5; 3]));
    vec![
        first("identical lists", even, &[2], &[2], -2),
        first("identical lists of three hours", falling, &[2, 1, 0], &[2, 1, 0], -53),
    ]
}

/// If neither passes: at price 10 from 2 MW, 4 breaks 5 and 0 breaks 4 at hour 0.
fn neither() -> Vec<KnownPair> {
    let even = known_unit(2, &[10]);
    vec![
        unchosen("neither passes", even, &[4], &[0], 0),
        unchosen("neither passes, the other way round", even, &[0], &[4], 0),
        unchosen("neither passes of two that are identical", even, &[4], &[4], 0),
    ]
}

/// A length other than T gives 9, also where the other list passes or breaks a rule, where the T outputs in front
/// pass, and where the two lengths are equal.
fn lengths() -> Vec<KnownPair> {
    let two = known_unit(2, &[10; 2]);
    vec![
        unchosen("the first is short", two, &[2], &[2, 2], 9),
        unchosen("the first is long", two, &[2, 2, 2], &[2, 2], 9),
        unchosen("the first is empty", two, &[], &[2, 2], 9),
        unchosen("the second is short", two, &[2, 2], &[2], 9),
        unchosen("the second is long", two, &[2, 2], &[2, 2, 2], 9),
        unchosen("the second is empty", two, &[2, 2], &[], 9),
        unchosen("the first is short, the second breaks 5", two, &[2], &[4, 4], 9),
        unchosen("the first breaks 5, the second is short", two, &[4, 4], &[2], 9),
        unchosen("both are short", two, &[2], &[2], 9),
        unchosen("both are long", two, &[2, 2, 2], &[2, 2, 2], 9),
        unchosen("both are empty", two, &[], &[], 9),
        unchosen("one is short and one is long", two, &[2], &[2, 2, 2], 9),
    ]
}

/// The refusals of the case come before 9, those of the refusal list's examples and of request F-2.
fn refusals() -> Vec<KnownPair> {
    let cases = refused_cases(known_unit(2, &[10; 2]));
    let lists: [(&[u16], &[u16]); 4] = [(&[2, 2], &[2, 2]), (&[2], &[2, 2]), (&[2, 2], &[2]), (&[], &[])];
    let rows = |(name, case, number)| lists.map(|(one, other)| unchosen(name, case, one, other, number));
    cases.into_iter().flat_map(rows).collect()
}

/// Prices below zero and above 65,535 mills (request F-2). At price -5 the margin is -15. From 3 MW, 2 earns
/// -15 (2 + 3) - 2 = -77, and 4 earns -15 (4 + 3) - 2 = -107. From 0 MW, 0 earns 0, and 1 earns
/// -15 (1 + 0) - 2 - 6 = -23. At price 10,000,000 the margin is 9,999,990: from 2 MW, 3 earns
/// 9,999,990 (3 + 2) - 2 = 49,999,948, and 2 earns 9,999,990 (2 + 2) - 2 = 39,999,958. At prices -5 and 25, margins -15
/// and 15, from 2 MW: 2, 2 earns -15 (2 + 2) - 2 = -62, then 15 (2 + 2) - 2 = 58, that is -4; 3, 2 earns
/// -15 (3 + 2) - 2 = -77, then 15 (2 + 3) - 2 = 73, that is -4 too.
fn prices_below_zero() -> Vec<KnownPair> {
    let (low, off, spike) = (known_unit(3, &[-5]), known_unit(0, &[-5]), known_unit(2, &[10_000_000]));
    let even = known_unit(2, &[-5, 25]);
    vec![
        first("the first loses less below zero", low, &[2], &[4], -77),
        second("the second loses less below zero", low, &[4], &[2], -77),
        first("the first stays off-line below zero", off, &[0], &[1], 0),
        second("the second stays off-line below zero", off, &[1], &[0], 0),
        first("the first earns more at the highest price", spike, &[3], &[2], 49_999_948),
        second("the second earns more at the highest price", spike, &[2], &[3], 49_999_948),
        first("equal profit below and above zero, the first is lower", even, &[2, 2], &[3, 2], -4),
        second("equal profit below and above zero, the second is lower", even, &[3, 2], &[2, 2], -4),
    ]
}

/// Days inside a sequence (request F-5). At price 10 from 2 MW, 1 is PD(2) and passes: it earns -2, as 2 does, and is
/// lower. At price 5 it earns -5 (1 + 2) - 2 = -17, and 2 earns -22. With a minimum up time of 8 its stop at hour 2 is
/// h + 1 = 3 hours after the start, and 1 breaks 21. From PU(1) with stage 1, 2 alone passes, and earns -2 without B;
/// from PD(2) with stage 2, 0 alone, and earns -4. A stage that is not in order is 7, before 9.
fn inside_a_sequence() -> Vec<KnownPair> {
    let (even, low) = (known_unit(2, &[10]), known_unit(2, &[5]));
    let opened = |p0, h, up_stage, down_stage| Opening { p0, h, up_stage, down_stage }.set(&even);
    let (rising, falling) = (opened(1, 1, 1, 0), opened(1, 3, 0, 2));
    vec![
        first("equal profit, the first closes on PD(2)", even, &[1], &[2], -2),
        second("equal profit, the second closes on PD(2)", even, &[2], &[1], -2),
        first("the first closes on PD(2) and loses less", low, &[1], &[2], -17),
        second("the second closes on PD(2) and loses less", low, &[2], &[1], -17),
        second("the first breaks 21 after T", Case { min_up: 8, ..low }, &[1], &[2], -22),
        first("the second breaks 21 after T", Case { min_up: 8, ..low }, &[2], &[1], -22),
        first("the first goes on with a start", rising, &[2], &[1], -2),
        second("the second goes on with a start", rising, &[1], &[2], -2),
        first("the first goes on with a stop", falling, &[0], &[1], -4),
        unchosen("neither goes on with a stop", falling, &[1], &[2], 0),
        unchosen("both stages", opened(1, 1, 1, 2), &[2], &[], 7),
        unchosen("a shut-down stage with h too low", opened(1, 2, 0, 2), &[0], &[0], 7),
    ]
}

/// A row whose first list is the better one.
fn first(name: &'static str, case: Case, one: &[u16], other: &[u16], profit: i64) -> KnownPair {
    row(name, case, one, other, Choice { number: 0, which: 1, profit })
}

/// A row whose second list is the better one.
fn second(name: &'static str, case: Case, one: &[u16], other: &[u16], profit: i64) -> KnownPair {
    row(name, case, one, other, Choice { number: 0, which: 2, profit })
}

/// A row without a better list: number 0 if neither passes, or a refusal.
fn unchosen(name: &'static str, case: Case, one: &[u16], other: &[u16], number: u32) -> KnownPair {
    row(name, case, one, other, Choice { number, which: 0, profit: 0 })
}

/// A row.
fn row(name: &'static str, case: Case, one: &[u16], other: &[u16], choice: Choice) -> KnownPair {
    KnownPair { name, case, first: one.to_vec(), second: other.to_vec(), choice }
}
