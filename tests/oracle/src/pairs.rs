//! Random pairs of lists to be compared: lists that keep the rules, near misses of those, lists that earn the same,
//! identical ones, a broken one that would earn more, and other lengths than T.

use crate::case::Case;
use crate::dp::{best_list, KeptLists};
use crate::lists::{any_list, change_length, disturb, walk};
use crate::random::Rng;
use crate::refusals::PRICES;
use crate::units::{full_day, long_day, longer_day, set_no_margin, set_one_price, short_day, small_unit};
use crate::weeks::{locked_week, small_locked};

/// A case within the limits; in two of five an output earns nothing, in one all hours have one price.
pub fn case_of_pairs(rng: &mut Rng) -> Case {
    let mut case = match rng.below(300) {
        0 => full_day(rng),
        1..=10 => short_day(rng),
        11..=37 => long_day(rng),
        38..=40 => locked_week(rng),
        41..=110 => longer_day(rng),
        111..=130 => small_locked(rng),
        _ => small_unit(rng),
    };
    match rng.below(5) {
        0 | 1 => set_no_margin(rng, &mut case),
        2 => set_one_price(&mut case),
        _ => {}
    }
    case
}

/// The lists of a case to draw pairs from.
pub struct Pairs<'a> {
    case: &'a Case,
    kept: KeptLists<'a>,
    /// The best list, and the best one at other prices.
    best: Option<Vec<u16>>,
    elsewhere: Option<Vec<u16>>,
}

impl<'a> Pairs<'a> {
    /// The lists of a case within the limits.
    pub fn new(rng: &mut Rng, case: &'a Case) -> Pairs<'a> {
        let kept = KeptLists::new(case);
        let best = kept.best().map(|plan| plan.list);
        let mut changed = *case;
        let mut any_price = || rng.between32(*PRICES.start(), *PRICES.end());
        changed.prices[..case.t].iter_mut().for_each(|price| *price = any_price());
        let elsewhere = best_list(&changed).map(|plan| plan.list);
        Pairs { case, kept, best, elsewhere }
    }

    /// A pair of lists, either way round, once in a while of other lengths.
    pub fn pair(&self, rng: &mut Rng) -> (Vec<u16>, Vec<u16>) {
        let (mut first, mut second) = self.whole_pair(rng);
        if rng.once_in(2) {
            (first, second) = (second, first);
        }
        match rng.below(36) {
            0 => change_length(rng, &mut first),
            1 => change_length(rng, &mut second),
            2 => {
                change_length(rng, &mut first);
                change_length(rng, &mut second);
            }
            _ => {}
        }
        (first, second)
    }

    /// A pair of T outputs each.
    fn whole_pair(&self, rng: &mut Rng) -> (Vec<u16>, Vec<u16>) {
        let one = self.one(rng);
        let other = match rng.below(16) {
            0 => one.clone(),
            1 | 2 => self.disturbed(rng, &one),
            3 => self.of_t(any_list(rng, self.case)),
            4 | 5 => moved(rng, &one),
            6 | 7 => self.earning_more(rng, &one),
            8..=10 => self.one(rng),
            _ => self.beginning_alike(rng, &one),
        };
        let one = if rng.once_in(10) { self.disturbed(rng, &one) } else { one };
        (one, other)
    }

    /// A list that keeps the rules if there is one: the best one, the best one at other prices, or a random one.
    pub fn one(&self, rng: &mut Rng) -> Vec<u16> {
        let found = match rng.below(6) {
            0 => self.best.clone(),
            1 => self.elsewhere.clone(),
            _ => self.kept.draw(rng, &[]),
        };
        found.unwrap_or_else(|| walk(rng, self.case))
    }

    /// A list that keeps the rules, begins as another one does and differs from it; the same, if none is met.
    fn beginning_alike(&self, rng: &mut Rng, list: &[u16]) -> Vec<u16> {
        for alike in (0..list.len()).rev() {
            match self.kept.draw(rng, &list[..alike]) {
                Some(drawn) if drawn != list && !rng.once_in(3) => return drawn,
                _ => {}
            }
        }
        list.to_vec()
    }

    /// A near miss.
    fn disturbed(&self, rng: &mut Rng, list: &[u16]) -> Vec<u16> {
        let mut list = list.to_vec();
        disturb(rng, self.case, &mut list);
        list
    }

    /// The list with an output beyond the capacity at an hour that sells above F, if there is one.
    fn earning_more(&self, rng: &mut Rng, list: &[u16]) -> Vec<u16> {
        let mut list = list.to_vec();
        let sells = |&k: &usize| self.case.prices[k] > self.case.f;
        let hours: Vec<usize> = (0..list.len()).filter(sells).collect();
        if !hours.is_empty() {
            list[rng.pick(&hours)] = rng.pick(&[self.case.capacity + 1, 2 * self.case.capacity, 65_535]);
        }
        list
    }

    /// A list brought to T outputs.
    fn of_t(&self, mut list: Vec<u16>) -> Vec<u16> {
        list.resize(self.case.t, 0);
        list
    }
}

/// The list with a megawatt taken from one hour to another: at one price, and before the last hour, it earns the same.
fn moved(rng: &mut Rng, list: &[u16]) -> Vec<u16> {
    let mut list = list.to_vec();
    let (from, to) = (rng.place(0, list.len() - 1), rng.place(0, list.len() - 1));
    list[from] = list[from].saturating_sub(1);
    list[to] = list[to].saturating_add(1);
    list
}
