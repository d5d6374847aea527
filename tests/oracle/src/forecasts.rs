//! Random rows of prices for a case (request F-8): two rows whose sum is even in every hour, so that there is a row
//! half-way. They are alike or lie near each other, one is no lower, higher by one amount or in one hour alone, or they
//! have little to do with each other; some lie below zero, some at the limits. A price half-way differs from both by
//! any number of mills, odd or even.

use crate::case::Case;
use crate::known_forecasts::two_run_unit;
use crate::random::Rng;
use crate::refusals::PRICES;
use crate::units::{set_below_zero, set_one_price};

/// Changes the prices of a case once in a while, and draws a second row beside them.
pub fn second_row(rng: &mut Rng, case: &mut Case) -> Vec<i32> {
    match rng.below(16) {
        0 | 1 => set_below_zero(rng, case),
        2 => case.prices[..case.t].fill_with(|| rng.pick(&[*PRICES.start(), *PRICES.end()])),
        3 => set_one_price(case),
        _ => {}
    }
    let first = &case.prices[..case.t];
    let (most, hour) = (half_rise(rng, case), rng.place(0, case.t - 1));
    let far = *PRICES.end();
    let way = rng.below(16);
    let moves = first.iter().enumerate().map(|(k, &price)| match way {
        0 => 0,
        1..=4 => rng.between32(-most, most),
        5 => rng.between32(0, most),
        6 | 7 => rng.pick(&[0, 0, most]),
        8 | 9 => most,
        10 | 11 => most * i32::from(k == hour),
        12 | 13 => case.f - price,
        14 => rng.pick(&[-far, far]),
        _ => (first[case.t - 1 - k] - price) / 2,
    });
    let moves: Vec<i32> = moves.collect();
    first.iter().zip(moves).map(|(&price, half)| moved(price, half)).collect()
}

/// A price that is moved by twice so many mills, as far as the limits allow.
fn moved(price: i32, half: i32) -> i32 {
    price + 2 * half.clamp((PRICES.start() - price) / 2, (PRICES.end() - price) / 2)
}

/// Half of a rise of a price: a few mills, about what the costs of a case are, or more.
fn half_rise(rng: &mut Rng, case: &Case) -> i32 {
    let costs = 1 + case.f + (case.a + case.b) / i32::from(case.minimum);
    match rng.below(6) {
        0 => 1,
        1 | 2 => rng.between32(1, 4),
        3 => rng.between32(1, 1 + case.f),
        4 => rng.between32(1, costs),
        _ => rng.pick(&[100, 10_000, 1_000_000]),
    }
}

/// A day of four hours with two runs of which one stands, and a second row that may bring the other. The unit opens at
/// 10 MW; hour 3 is so low that it is off-line there or on its way up, and hours 2 and 4 are so high that it stops
/// after the one or starts before the other, which earn nearly the same. Where hour 2 alone rises, its output may fall
/// from 1 MW to 0 as its energy rises from 1 to 10.
pub fn two_runs(rng: &mut Rng) -> (Case, Vec<i32>) {
    let high = rng.between32(50, 70);
    let margins = [0, high - 20 + rng.between32(-8, 8), rng.between32(-95, -85), high];
    let case = two_run_unit(&margins.map(|margin| 10 + margin));
    let (rise, which) = (2 * rng.between32(1, 8), rng.below(3));
    let is_raised = |k: usize| [k == 1, k == 3, true][which as usize];
    let second = (0..case.t).map(|k| case.prices[k] + if is_raised(k) { rise } else { 0 }).collect();
    (case, second)
}
