//! Random calendars with a case each: lists that order parts of a day which the unit can run or nearly can, windows
//! about the edges of the day and of the year, lists and days that are not as laid down, records that are refused.

use crate::calendar::{Calendar, DAY_HOURS, YEAR_HOURS};
use crate::case::{Case, FREE, MOST_HOURS, OFF_LINE, ON_LINE};
use crate::random::Rng;
use crate::units::{full_day_of, long_day_of};
use crate::weeks::long_time;
use crate::wild::{change_count, fill_past_counts, set_near_limit};

/// How large what is drawn is.
#[derive(Clone, Copy, Debug, PartialEq, Eq)]
pub enum Size {
    /// A small unit and lists of few windows.
    Small,
    /// A unit of any size and lists of few windows.
    FullUnit,
    /// A small unit and lists of up to 100,000 numbers.
    LongLists,
}

/// A calendar and a case.
#[derive(Clone, Debug)]
pub struct Drawn {
    pub case: Case,
    pub on: Vec<u16>,
    pub off: Vec<u16>,
    pub first: u16,
    pub hours: u16,
    /// Where in the memory of the on-line list the off-line one begins, if they are in one memory.
    pub begins: Option<usize>,
}

impl Drawn {
    /// The calendar itself.
    pub fn calendar(&self) -> Calendar<'_> {
        Calendar { on: &self.on, off: &self.off, first: self.first, hours: self.hours }
    }
}

/// A window as its first hour and the hour after its last.
type Window = (usize, usize);

/// Windows from an hour on that end by another one.
type Gap = fn(&mut Rng, usize, usize) -> Vec<Window>;

/// Most numbers of a list.
const MOST_NUMBERS: usize = 100_000;

/// A calendar and a case.
pub fn drawn(rng: &mut Rng, size: Size) -> Drawn {
    let hours = rng.pick(&DAY_HOURS);
    let first = first_hour(rng, hours);
    let mut case = match size {
        Size::FullUnit => full_day_of(rng, hours.into()),
        Size::Small | Size::LongLists => long_day_of(rng, hours.into(), 16),
    };
    let gap = if size == Size::LongLists { hourly } else { few };
    let (on, off) = lists(rng, &case.orders[..hours.into()], first, gap);
    set_own_orders(rng, &mut case);
    if rng.once_in(16) {
        set_long_time(rng, &mut case);
    }
    let mut drawn = Drawn { case, on, off, first, hours, begins: None };
    if rng.once_in(12) {
        put_in_one(rng, &mut drawn);
    } else if rng.once_in(if size == Size::LongLists { 2 } else { 4 }) {
        damage(rng, &mut drawn, size);
    }
    change_record(rng, &mut drawn.case);
    drawn
}

/// Gives the unit a minimum time above 8 hours.
fn set_long_time(rng: &mut Rng, case: &mut Case) {
    let time = long_time(rng);
    if rng.once_in(2) {
        case.min_up = time;
    } else {
        case.min_down = time;
    }
}

/// The first hour of a day: that of the year, the last that the day can have, one near either, or any.
fn first_hour(rng: &mut Rng, hours: u16) -> u16 {
    let last = YEAR_HOURS as u16 - hours;
    match rng.below(6) {
        0 => rng.pick(&[0, 1, 24]),
        1 | 2 => last - rng.pick(&[0, 0, 0, 1, 2, 24]),
        _ => rng.between16(0, last),
    }
}

/// Two lists whose windows give the hours of the day these orders; once in twelve times all hours are in one of the
/// two, once in ten times an hour or two are in both.
fn lists(rng: &mut Rng, orders: &[u8], first: u16, gap: Gap) -> (Vec<u16>, Vec<u16>) {
    let held = |wanted| orders.iter().map(|&order| order == wanted).collect::<Vec<bool>>();
    let (mut on, mut off) = (held(ON_LINE), held(OFF_LINE));
    if rng.once_in(12) {
        let is_on = rng.once_in(2);
        on.fill(is_on);
        off.fill(!is_on);
    }
    if rng.once_in(10) {
        let last = orders.len() - 1;
        for _ in 0..rng.place(1, 2) {
            let any = rng.place(0, last);
            let k = rng.pick(&[0, last, any, any]);
            (on[k], off[k]) = (true, true);
        }
    }
    (windows(rng, first.into(), &on, gap), windows(rng, first.into(), &off, gap))
}

/// A list whose windows hold these hours of the day and no others of it. Windows at an edge of the day may reach past
/// it, some are split into two that touch, and there are others in the gaps before and after.
fn windows(rng: &mut Rng, first: usize, held: &[bool], gap: Gap) -> Vec<u16> {
    let mut runs = runs(first, held);
    let (mut low, mut high) = (first, first + held.len());
    let reach = |rng: &mut Rng| rng.pick(&[0, 0, 1, 2, 24, YEAR_HOURS]);
    if let Some(window) = runs.first_mut().filter(|window| window.0 == low) {
        low = low.saturating_sub(reach(rng));
        window.0 = low;
    }
    if let Some(window) = runs.last_mut().filter(|window| window.1 == high) {
        high = (high + reach(rng)).min(YEAR_HOURS);
        window.1 = high;
    }
    let runs = runs.into_iter().flat_map(|window| split(rng, window)).collect();
    let all = [gap(rng, 0, low), runs, gap(rng, high, YEAR_HOURS)].concat();
    all.into_iter().flat_map(|(begin, end)| [begin as u16, (end - begin) as u16]).collect()
}

/// The windows of the hours that are held, none touching another.
fn runs(first: usize, held: &[bool]) -> Vec<Window> {
    let mut runs: Vec<Window> = Vec::new();
    for hour in (0..held.len()).filter(|&k| held[k]).map(|k| first + k) {
        match runs.last_mut() {
            Some(window) if window.1 == hour => window.1 = hour + 1,
            _ => runs.push((hour, hour + 1)),
        }
    }
    runs
}

/// The window, or once in three times two that touch and hold the same hours.
fn split(rng: &mut Rng, (begin, end): Window) -> Vec<Window> {
    if end - begin < 2 || !rng.once_in(3) {
        return vec![(begin, end)];
    }
    let middle = rng.place(begin + 1, end - 1);
    vec![(begin, middle), (middle, end)]
}

/// Up to four windows in a gap, some of which touch each other or reach to its ends.
fn few(rng: &mut Rng, low: usize, high: usize) -> Vec<Window> {
    let count = rng.pick(&[0, 0, 0, 1, 1, 2, 4]);
    let mut cuts: Vec<usize> = (0..2 * count).map(|_| near(rng, low, high)).collect();
    cuts.sort_unstable();
    for i in (2..cuts.len()).step_by(2) {
        if rng.once_in(4) {
            cuts[i] = cuts[i - 1];
        }
    }
    if let (Some(last), true) = (cuts.last_mut(), rng.once_in(3)) {
        *last = high;
    }
    if let (Some(first), true) = (cuts.first_mut(), rng.once_in(3)) {
        *first = low;
    }
    cuts.chunks(2).map(|cut| (cut[0], cut[1])).filter(|(begin, end)| begin < end).collect()
}

/// A place from `low` to `high`, often near one of the two.
fn near(rng: &mut Rng, low: usize, high: usize) -> usize {
    let beside = rng.place(0, 3);
    match rng.below(4) {
        0 => (low + beside).min(high),
        1 => high.saturating_sub(beside).max(low),
        _ => rng.place(low, high),
    }
}

/// Windows of one hour in a gap: at every hour, at every second one, or at those near its end.
fn hourly(rng: &mut Rng, low: usize, high: usize) -> Vec<Window> {
    let low = if rng.once_in(4) { high.saturating_sub(100).max(low) } else { low };
    (low..high).step_by(rng.pick(&[1, 1, 1, 2])).map(|hour| (hour, hour + 1)).collect()
}

/// Orders of the case's own: those that the lists give the day, none, others, or one that is refused.
fn set_own_orders(rng: &mut Rng, case: &mut Case) {
    let t = case.t;
    match rng.below(4) {
        0 => {}
        1 => case.orders[..t].fill(FREE),
        _ => {
            let share = rng.pick(&[1, 4]);
            for order in &mut case.orders[..t] {
                *order = if rng.once_in(share) { rng.pick(&[FREE, ON_LINE, OFF_LINE]) } else { FREE };
            }
        }
    }
    if rng.once_in(24) {
        case.orders[rng.place(0, t - 1)] = rng.pick(&[3, 4, 128, 255]);
    }
}

/// Changes the record so that it is refused, or nearly: a field at or past its limit, counts, a T that is not the day's
/// number of hours, numbers past the counts.
fn change_record(rng: &mut Rng, case: &mut Case) {
    if rng.once_in(8) {
        fill_past_counts(rng, case);
    }
    if rng.once_in(8) {
        set_near_limit(rng, case);
    }
    match rng.below(40) {
        0..=2 => case.t = rng.pick(&[22, 23, 24, 25, 26]),
        3 => case.t = rng.pick(&[1, 48, MOST_HOURS, 65_536 + case.t, (1 << 32) + case.t]),
        4 => change_count(rng, case),
        _ => {}
    }
}

/// Puts both lists in one memory, that of the on-line one, mostly by whole windows.
fn put_in_one(rng: &mut Rng, drawn: &mut Drawn) {
    let count = drawn.on.len();
    let begins = rng.pick(&[0, 0, 0, 2, 2, 4, 1, count]).min(count);
    drawn.off = drawn.on[begins..].to_vec();
    if rng.once_in(3) {
        drawn.on.truncate(rng.pick(&[2, 4, begins]).max(begins));
    }
    drawn.begins = Some(begins);
}

/// Damages a list, both lists or the day.
fn damage(rng: &mut Rng, drawn: &mut Drawn, size: Size) {
    let damage = if size == Size::LongLists { damage_long_list } else { damage_list };
    match rng.below(8) {
        0..=2 => damage(rng, &mut drawn.on),
        3..=5 => damage(rng, &mut drawn.off),
        6 => {
            damage(rng, &mut drawn.on);
            damage(rng, &mut drawn.off);
        }
        _ => damage_day(rng, drawn),
    }
}

/// Damages a list in one way, mostly next to what is accepted.
fn damage_list(rng: &mut Rng, list: &mut Vec<u16>) {
    if list.len() < 4 {
        let first = rng.between16(0, 8_000);
        *list = vec![first, rng.between16(1, 100), first + 100, rng.between16(1, 600)];
    }
    let window = 2 * rng.place(0, list.len() / 2 - 1);
    let before_last = 2 * rng.place(0, list.len() / 2 - 2);
    match rng.below(10) {
        0 if rng.once_in(2) => list.truncate(list.len() - 1),
        0 => list.push(rng.pick(&[0, 1, 8_783, 65_535])),
        1 => list[window + 1] = 0,
        2 => exchange(list, before_last),
        3 => list[before_last + 1] = list[before_last + 2] + 1 - list[before_last],
        4 => list[before_last + 2] = list[before_last],
        5 => *last(list) = (YEAR_HOURS as u16 + 1).saturating_sub(last_first(list)),
        6 => wrap(rng, &mut list[window..]),
        7 => list[window] = rng.bits() as u16,
        8 => list[window + rng.place(0, 1)] = 65_535,
        _ => {
            let number = window + rng.place(0, 1);
            list[number] = rng.pick(&[list[number].wrapping_add(1), list[number].wrapping_sub(1)]);
        }
    }
}

/// Exchanges a window with the next.
fn exchange(list: &mut [u16], window: usize) {
    list.swap(window, window + 2);
    list.swap(window + 1, window + 3);
}

/// The length of the last window, and its first hour.
fn last(list: &mut [u16]) -> &mut u16 {
    let place = list.len() - 1;
    &mut list[place]
}
fn last_first(list: &[u16]) -> u16 {
    list[list.len() - 2]
}

/// Gives a window a first hour and a length whose sum is 65,536 or a little more.
fn wrap(rng: &mut Rng, window: &mut [u16]) {
    let length = rng.pick(&[1, 24, 100, 32_768, 60_000, 65_535]);
    window[1] = length;
    window[0] = (u16::MAX - length + 1).saturating_add(rng.between16(0, 100));
}

/// Makes a list longer, up to as many numbers as a list may have here, or damages it in one place: it is refused at
/// once, after many windows or at its end.
fn damage_long_list(rng: &mut Rng, list: &mut Vec<u16>) {
    match rng.below(5) {
        0 => list.splice(0..0, [5_000, 0]).for_each(drop),
        1 => list.push(0),
        2 => list.extend([8_783, 2]),
        3 => list.resize(MOST_NUMBERS - rng.place(0, 1), rng.pick(&[0, 1, 65_535])),
        _ => {
            let window = [8_783, 1];
            let repeated = if list.is_empty() { &window[..] } else { &list[..] };
            *list = repeated.iter().copied().cycle().take(MOST_NUMBERS).collect();
        }
    }
}

/// Gives the day another number of hours, or another first hour so that it ends past the year.
fn damage_day(rng: &mut Rng, drawn: &mut Drawn) {
    let past = YEAR_HOURS as u16 + 1 - drawn.hours;
    if rng.once_in(2) {
        drawn.first =
            rng.pick(&[past, past, past + 1, YEAR_HOURS as u16, u16::MAX - drawn.hours + 1, u16::MAX]);
    } else {
        drawn.hours = rng.pick(&[22, 22, 26, 26, 0, 1, 48, MOST_HOURS as u16, 256 + 24, u16::MAX]);
        if rng.once_in(2) && (1..=MOST_HOURS as u16).contains(&drawn.hours) {
            drawn.case.t = drawn.hours.into();
        }
    }
}
