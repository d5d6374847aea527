//! Random days inside a sequence (request F-5): they open inside a start or a stop, or low prices at their end lead the
//! best list to close inside a stop.

use crate::case::{Case, FREE, ON_LINE};
use crate::random::Rng;
use crate::refusals::PRICES;
use crate::units::{
    full_day, full_day_of, longer_day, open_inside, open_on_line, set_orders, small_unit, smaller_unit,
};

/// A unit small enough to try every list.
pub fn small_staged(rng: &mut Rng) -> Case {
    staged(rng, |rng| if rng.once_in(8) { small_unit(rng) } else { smaller_unit(rng) })
}

/// A longer day, for trying every commitment.
pub fn longer_staged(rng: &mut Rng) -> Case {
    staged(rng, longer_day)
}

/// A day of any size within the limits, once in eight times of few hours.
pub fn full_staged(rng: &mut Rng) -> Case {
    staged(rng, |rng| {
        let few = rng.place(1, 8);
        if rng.once_in(8) {
            full_day_of(rng, few)
        } else {
            full_day(rng)
        }
    })
}

/// A drawn day that opens inside a start or a stop, or is to close inside a stop, or both.
fn staged(rng: &mut Rng, draw: impl Fn(&mut Rng) -> Case) -> Case {
    let opens = !rng.once_in(5);
    let closes = !opens || rng.once_in(3);
    let mut case = draw(rng);
    while (opens && case.ud.max(case.dd) == 1) || (closes && case.dd == 1) {
        case = draw(rng);
    }
    if opens {
        open_inside(rng, &mut case);
    } else {
        open_on_line(rng, &mut case);
        case.p0 = rng.pick(&[case.p0, case.minimum]);
    }
    case.orders[..case.t].fill(FREE);
    if !closes || rng.once_in(4) {
        set_orders(rng, &mut case);
    }
    if closes {
        set_low_end(rng, &mut case);
    }
    case
}

/// Leads the best list to close on PD(i), for an i from 2 to DD: an hour after the one at PD(1) loses, and one before
/// earns more at the minimum output, so that the stop neither comes earlier nor stays away; the last hour is ordered
/// on-line or free.
fn set_low_end(rng: &mut Rng, case: &mut Case) {
    let stage = rng.place(2, case.dd);
    let first = (case.t + 1).saturating_sub(stage);
    let loss = rng.pick(&[1, 1 + case.f / 4, 1 + case.f]);
    let earning = (case.f + case.a / i32::from(case.minimum) + 8 * loss).min(*PRICES.end());
    case.prices[..first].iter_mut().for_each(|price| *price = (*price).max(earning));
    case.prices[first..case.t].fill(case.f - loss);
    case.orders[first..case.t].fill(FREE);
    case.orders[case.t - 1] = rng.pick(&[FREE, ON_LINE]);
}
