//! Days of up to 168 hours and minimum times of up to 24 (request F-6), worked out by hand. On the unit of
//! the known days an on-line hour costs 2 A = 2, a start 2 B = 6 and a stop 2 C = 4 half-mills; the margin of
//! an hour is its price less F = 10, and is 0 at price 10. A start takes 1, 2 and a stop 2, 1, 0, so that N
//! hours on-line are 1, N - 2 hours at 2, and 1.

use crate::answers::Schedule;
use crate::case::{Case, FREE, OFF_LINE, ON_LINE};
use crate::days::{breaks, found, known_unit, passes, refused, with_orders, KnownDay};
use crate::opening::Opening;

/// How many days there are, how many searches in lent memory, and how many records with the numbers that they
/// ask for.
pub const COUNT: u64 = 77;
pub const SEARCHES: u64 = 144;
pub const ASKED: u64 = 20;

/// All days.
pub fn known_weeks() -> Vec<KnownDay> {
    [
        hours(),
        hours_at_the_limits(),
        minimum_times(),
        just_on_line(),
        just_off_line(),
        opening_locks(),
        over_at_the_end(),
        there_and_back(),
    ]
    .concat()
}

/// A list of runs: so many hours of each output.
fn list(runs: &[(usize, u16)]) -> Vec<u16> {
    runs.iter().flat_map(|&(hours, output)| vec![output; hours]).collect()
}

/// The day with these orders, each at its hour.
fn ordered(mut case: Case, orders: &[(usize, u8)]) -> Case {
    orders.iter().for_each(|&(k, order)| case.orders[k - 1] = order);
    case
}

/// The day with this minimum up time, or down time.
fn up(time: u16, case: Case) -> Case {
    Case { min_up: time, ..case }
}
fn down(time: u16, case: Case) -> Case {
    Case { min_down: time, ..case }
}

/// The record with this T.
fn counted(case: Case, t: usize) -> Case {
    Case { t, ..case }
}

/// The unit of the known days at price 10 for so many hours, from 0 MW after 24 hours off-line.
fn off(hours: usize) -> Case {
    Case { h: 24, ..known_unit(0, &vec![10; hours]) }
}

/// T may be 168. Off-line all week nothing is earned. From 4 MW at price 20, margin 10, each hour earns
/// 10 (4 + 4) - 2 = 78, and 168 hours 13,104; 49 hours earn 3,822 and 167 hours 13,026. At price 10 ordered
/// on-line the week costs 2 for each hour, 336, and its last hour may be at PD(2) = 1. A start at hour 168
/// costs 2 + 6 = 8. At a price of 19 in hour 168 alone, margin 9, the unit starts in time for 4 MW at the end
/// of hour 167: 1, 2, 3, 4, 4 earns 9 (4 + 4) - 5 * 2 - 6 = 56, an hour less 9 (4 + 3) - 4 * 2 - 6 = 49, an
/// hour more 54. A run from hour 144 to a stop at hour 168 is of 24 hours, and costs 24 * 2 + 6 + 4 = 58; from
/// hour 145 it is too short for a minimum of 24. T 169 is 2, and so is a larger T.
fn hours() -> Vec<KnownDay> {
    let week = known_unit(0, &[10; 168]);
    let high = |hours: usize| known_unit(4, &vec![20; hours]);
    let last = known_unit(0, &[[10; 167].as_slice(), &[19]].concat());
    let to_168 = |hour| up(24, ordered(off(168), &[(hour, OFF_LINE), (167, ON_LINE), (168, OFF_LINE)]));
    vec![
        found("a week off-line", week, &[0; 168], 0),
        found("a week on-line", high(168), &[4; 168], 13_104),
        found("49 hours on-line", high(49), &[4; 49], 3_822),
        found("167 hours on-line", high(167), &[4; 167], 13_026),
        found(
            "a week ordered on-line",
            with_orders(known_unit(2, &[10; 168]), &[ON_LINE; 168]),
            &list(&[(167, 2), (1, 1)]),
            -336,
        ),
        found("a start at hour 168", ordered(week, &[(168, ON_LINE)]), &list(&[(167, 0), (1, 1)]), -8),
        found("a price at hour 168", last, &list(&[(163, 0), (1, 1), (1, 2), (1, 3), (2, 4)]), 56),
        passes("a list of 168 outputs", high(168), &[4; 168], 13_104),
        breaks("3 at hour 168", week, &list(&[(167, 0), (1, 2)]), 168, 3),
        breaks("23 at hour 168", ordered(week, &[(168, ON_LINE)]), &[0; 168], 168, 23),
        refused("T 169", counted(week, 169), 2),
        refused("T 170", counted(week, 170), 2),
        refused("T 256", counted(week, 256), 2),
        refused("T 424, which is 168 in 8 bits", counted(week, 424), 2),
        refused("order 3 at hour 168", ordered(week, &[(168, 3)]), 8),
        found("a run to hour 168", to_168(143), &list(&[(143, 0), (1, 1), (22, 2), (1, 1), (1, 0)]), -58),
        refused("no run to hour 168", to_168(144), 11),
    ]
}

/// Sums of money of a week at the limits: capacity and minimum output are 400, F is 1,000,000, A is
/// 100,000,000. At 10,000,000 each hour earns 9,000,000 * 800 - 200,000,000 = 7,000,000,000, the week
/// 1,176,000,000,000. Ordered on-line at -10,000,000 each hour costs
/// 11,000,000 * 800 + 200,000,000 = 9,000,000,000, the week 1,512,000,000,000.
fn hours_at_the_limits() -> Vec<KnownDay> {
    let unit = |price: i32| {
        let known = known_unit(400, &[price; 168]);
        let (pu, pd) = ([400, 0, 0, 0, 0, 0, 0, 0], [400, 0, 0, 0, 0, 0, 0, 0]);
        let limits = Case { capacity: 400, minimum: 400, f: 1_000_000, a: 100_000_000, ..known };
        Case { pu, pd, ud: 1, dd: 1, ..limits }
    };
    let (high, low) = (unit(10_000_000), with_orders(unit(-10_000_000), &[ON_LINE; 168]));
    vec![
        found("a week at the highest price", high, &[400; 168], 1_176_000_000_000),
        found("a week at the lowest price", low, &[400; 168], -1_512_000_000_000),
    ]
}

/// Both minimum times may be 24, and are 4 above it. One hour at price 19 from 0 MW, margin 9: a start earns
/// 1, if the unit has been off-line for the minimum down time; the run reaches T and needs no minimum length.
fn minimum_times() -> Vec<KnownDay> {
    let unit = |h: u16| Case { h, ..known_unit(0, &[19]) };
    vec![
        found("minimum up time 8", up(8, unit(2)), &[1], 1),
        found("minimum up time 9", up(9, unit(2)), &[1], 1),
        found("minimum up time 24", up(24, unit(2)), &[1], 1),
        refused("minimum up time 25", up(25, unit(2)), 4),
        refused("minimum up time 0", up(0, unit(2)), 4),
        refused("minimum up time 264, which is 8 in 8 bits", up(264, unit(2)), 4),
        refused("minimum up time 65,535", up(65_535, unit(2)), 4),
        found("minimum down time 8 after 8 hours", down(8, unit(8)), &[1], 1),
        found("minimum down time 9 after 8 hours", down(9, unit(8)), &[0], 0),
        found("minimum down time 9 after 9 hours", down(9, unit(9)), &[1], 1),
        found("minimum down time 24 after 23 hours", down(24, unit(23)), &[0], 0),
        found("minimum down time 24 after 24 hours", down(24, unit(24)), &[1], 1),
        refused("minimum down time 25", down(25, unit(25)), 4),
        refused("minimum down time 0", down(0, unit(2)), 4),
        refused("minimum down time 280, which is 24 in 8 bits", down(280, unit(300)), 4),
        found("both minimum times 24", up(24, down(24, unit(24))), &[1], 1),
        refused("both minimum times 25", up(25, down(25, unit(25))), 4),
    ]
}

/// A minimum up time of 20 keeps a unit on-line for 20 hours. At price 10, ordered on-line at hour 1, it
/// stops as soon as it may: on-line for hours 1 to 20, off-line from hour 21 on, for 20 * 2 + 6 + 4 = 50.
/// With a minimum of 19 it stops an hour earlier, for 48, and with 24 at hour 25, for 24 * 2 + 10 = 58. A
/// list that stops at hour 20, after 19 hours, breaks 21 there. In a week the same holds of a start at hour
/// 100, which stops at hour 120. Ordered off-line at hour 20 there is no list.
fn just_on_line() -> Vec<KnownDay> {
    let day = |hours| ordered(off(hours), &[(1, ON_LINE)]);
    let run = |hours: usize, rest: usize| list(&[(1, 1), (hours - 2, 2), (1, 1), (rest, 0)]);
    let week = ordered(off(168), &[(99, OFF_LINE), (100, ON_LINE)]);
    let in_week = |hours: usize| [list(&[(99, 0)]), run(hours, 69 - hours)].concat();
    vec![
        found("20 hours of a minimum of 20", up(20, day(24)), &run(20, 4), -50),
        found("19 hours of a minimum of 19", up(19, day(24)), &run(19, 5), -48),
        found("9 hours of a minimum of 9", up(9, day(24)), &run(9, 15), -28),
        found("24 hours of a minimum of 24", up(24, day(30)), &run(24, 6), -58),
        breaks("19 hours of a minimum of 20", up(20, day(24)), &run(19, 5), 20, 21),
        passes("20 hours of a minimum of 20, checked", up(20, day(24)), &run(20, 4), -50),
        passes("21 hours of a minimum of 20", up(20, day(24)), &run(21, 3), -52),
        breaks("8 hours of a minimum of 9", up(9, day(24)), &run(8, 16), 9, 21),
        breaks("23 hours of a minimum of 24", up(24, day(30)), &run(23, 7), 24, 21),
        refused("off-line after 19 hours", ordered(up(20, day(24)), &[(20, OFF_LINE)]), 11),
        found("off-line after 20 hours", ordered(up(20, day(24)), &[(21, OFF_LINE)]), &run(20, 4), -50),
        found("20 hours within a week", up(20, week), &in_week(20), -50),
        breaks("19 hours within a week", up(20, week), &in_week(19), 119, 21),
    ]
}

/// A minimum down time of 24. From 2 MW, ordered off-line at hour 2 and on-line at hour 26, the unit is at 1,
/// off-line for 24 hours, and at 1 again, for 2 + 4 + 2 + 6 = 14; ordered on-line at hour 25 there is no
/// list, and a start there breaks 22. After 10 hours off-line a start at hour 15 is the first that there may
/// be: at price 100, margin 90, it earns 90 - 2 - 6 = 82, and hour 16 earns 90 (2 + 1) - 2 = 268. In a week
/// the unit is ordered on-line at hour 49, off-line at hour 50 and on-line from hour 74 on. With a minimum up
/// time of 20 it stops at hour 50 alone, since the first stop by h is at hour 19 and a start after it at hour
/// 43, too late for a run to hour 50: 49 * 2 + 4, then 6 + 95 * 2, of which the last hour is at PD(2), that
/// is 298.
fn just_off_line() -> Vec<KnownDay> {
    let stopped = |hours: usize, start: usize| {
        let case = known_unit(2, &vec![10; hours]);
        down(24, ordered(case, &[(2, OFF_LINE), (start, ON_LINE)]))
    };
    let since = |time: u16| down(time, Case { h: 10, ..known_unit(0, &[100; 16]) });
    let mut week = ordered(known_unit(2, &[10; 168]), &[(49, ON_LINE), (50, OFF_LINE)]);
    week.orders[73..].fill(ON_LINE);
    let in_week = list(&[(48, 2), (1, 1), (24, 0), (1, 1), (93, 2), (1, 1)]);
    vec![
        found("24 hours off-line", stopped(26, 26), &list(&[(1, 1), (24, 0), (1, 1)]), -14),
        refused("23 hours off-line", stopped(26, 25), 11),
        passes("24 hours off-line, checked", stopped(26, 26), &list(&[(1, 1), (24, 0), (1, 1)]), -14),
        breaks("23 hours off-line, checked", stopped(25, 25), &list(&[(1, 1), (23, 0), (1, 1)]), 25, 22),
        found("off-line for 10 hours before", since(24), &list(&[(14, 0), (1, 1), (1, 2)]), 350),
        passes("off-line for 10 and 14 hours", since(24), &list(&[(14, 0), (1, 1), (1, 2)]), 350),
        breaks("off-line for 10 and 13 hours", since(24), &list(&[(13, 0), (1, 1), (2, 2)]), 14, 22),
        refused("on-line at hour 14", ordered(since(24), &[(14, ON_LINE)]), 11),
        found("24 hours off-line within a week", up(20, down(24, week)), &in_week, -298),
        refused("23 hours off-line within a week", ordered(down(24, week), &[(73, ON_LINE)]), 11),
    ]
}

/// Locks that a day opens in. At price 5, margin -5, from 4 MW with h 2 and a minimum up time of 20, the
/// first stop is at hour 19, since 2 + 19 - 1 = 20. The unit goes down to 2 MW and waits:
/// -5 (3 + 4) - 2 = -37, -5 (2 + 3) - 2 = -27, 15 hours of -5 (2 + 2) - 2 = -22, then -5 (1 + 2) - 2 = -17 and
/// -5 - 4 = -9, that is -420. From PU(1) the start stands at hour 0, and the first stop is at hour 20: at price
/// 10, 19 hours on-line cost 38, and the stop 4. From PD(2) the stop is at hour 1, h hours after the start.
fn opening_locks() -> Vec<KnownDay> {
    let on = up(20, known_unit(4, &[5; 24]));
    let waits = |hours: usize, rest: usize| list(&[(1, 3), (hours, 2), (1, 1), (rest, 0)]);
    let opened = |p0, h, up_stage, down_stage| Opening { p0, h, up_stage, down_stage };
    let rising = up(20, opened(1, 1, 1, 0).set(&known_unit(0, &[10; 24])));
    let falling = |h: u16| up(20, opened(1, h, 0, 2).set(&known_unit(0, &[10])));
    vec![
        found("on-line for 2 hours before", on, &waits(16, 6), -420),
        breaks("on-line for 2 and 17 hours", on, &waits(15, 7), 18, 21),
        refused("off-line at hour 18", ordered(on, &[(18, OFF_LINE)]), 11),
        found("from PU(1)", rising, &list(&[(18, 2), (1, 1), (5, 0)]), -42),
        breaks("from PU(1) for 19 hours", rising, &list(&[(17, 2), (1, 1), (6, 0)]), 19, 21),
        found("from PD(2) after 20 hours", falling(20), &[0], -4),
        refused("from PD(2) after 19 hours", falling(19), 11),
        breaks("from PD(2) after 19 hours, checked", falling(19), &[0], 1, 21),
    ]
}

/// A start whose minimum up time of 20 is over at the end of the day. At price 10, ordered on-line at hour 1:
/// of 20 hours the last is at PD(2), whose stop at hour 21 is 20 hours after the start, for 20 * 2 + 6 = 46;
/// of 19 hours it stays at 2, for 44, and PD(2) breaks 21 at hour 20. A stop at hour 20 of 20 comes too
/// early. In a week the start is at hour 149, and at hour 150 it is too late for PD(2).
fn over_at_the_end() -> Vec<KnownDay> {
    let day = |hours| up(20, ordered(off(hours), &[(1, ON_LINE)]));
    let week = |start: usize| up(20, ordered(off(168), &[(start - 1, OFF_LINE), (start, ON_LINE)]));
    vec![
        found("over at T", day(20), &list(&[(1, 1), (18, 2), (1, 1)]), -46),
        found("over an hour after T", day(19), &list(&[(1, 1), (18, 2)]), -44),
        breaks("over an hour after T, checked", day(19), &list(&[(1, 1), (17, 2), (1, 1)]), 20, 21),
        refused("off-line at T", ordered(day(20), &[(20, OFF_LINE)]), 11),
        found("over at T of a week", week(149), &list(&[(148, 0), (1, 1), (18, 2), (1, 1)]), -46),
        found("over after T of a week", week(150), &list(&[(149, 0), (1, 1), (18, 2)]), -44),
        breaks("21 at hour 169", week(150), &list(&[(149, 0), (1, 1), (17, 2), (1, 1)]), 169, 21),
    ]
}

/// Both minimum times 24: by orders the unit starts at hours 1, 49, 97 and 145, and stops at hours 25, 73 and
/// 121; in hour 168 it is at PD(2), whose stop at hour 169 is 24 hours after the start. The four runs of 24
/// hours cost 192, the starts 24 and the stops 12. An order an hour earlier leaves no list.
fn there_and_back() -> Vec<KnownDay> {
    let orders = [
        (1, ON_LINE),
        (25, OFF_LINE),
        (49, ON_LINE),
        (73, OFF_LINE),
        (97, ON_LINE),
        (121, OFF_LINE),
        (145, ON_LINE),
    ];
    let week = up(24, down(24, ordered(off(168), &orders)));
    let day = list(&[(1, 1), (22, 2), (1, 1)]);
    let night = vec![0; 24];
    let cycle = [&day[..], &night, &day, &night, &day, &night, &day].concat();
    vec![
        found("four runs in a week", week, &cycle, -228),
        refused("a start at hour 48", ordered(week, &[(48, ON_LINE), (49, FREE)]), 11),
        refused("a stop at hour 72", ordered(week, &[(72, OFF_LINE)]), 11),
    ]
}

/// A search in lent memory, and how many of the numbers are zeroed.
#[derive(Clone, Debug)]
pub struct KnownSearch {
    pub case: Case,
    pub numbers: usize,
    pub outputs: usize,
    pub answer: Schedule,
    pub zeroed: usize,
}

/// Minimum up and down times, with the working numbers that a search of them asks for.
const NUMBERS: [(u16, u16, usize); 9] = [
    (1, 1, 8_192),
    (8, 8, 8_192),
    (9, 8, 32_768),
    (8, 9, 32_768),
    (9, 9, 32_768),
    (24, 1, 32_768),
    (1, 24, 32_768),
    (24, 8, 32_768),
    (24, 24, 32_768),
];

/// Searches of one hour of the known unit at price 10 in memory of all lengths. From 0 MW it stays off-line
/// and earns nothing; from 2 MW it cannot be off-line, as an order wants, and there is no list. With fewer
/// numbers than asked for, or without an output, both are 10; with as many or more, what was asked for is
/// zeroed and the rest is left.
pub fn known_searches() -> Vec<KnownSearch> {
    let mut rows = Vec::new();
    for (min_up, min_down, asked) in NUMBERS {
        let of = |case: Case| Case { min_up, min_down, ..case };
        let free = of(known_unit(0, &[10]));
        let none = of(with_orders(known_unit(2, &[10]), &[OFF_LINE]));
        for (case, number) in [(free, 0), (none, 11)] {
            for lent in [0, 8_191, 8_192, 8_193, 32_767, 32_768, 32_769] {
                rows.push(search(case, lent, 1, if lent < asked { 10 } else { number }, asked));
            }
            rows.push(search(case, asked, 0, 10, asked));
        }
    }
    rows
}

/// A row with this number: the list of an off-line hour, if it is 0.
fn search(case: Case, numbers: usize, outputs: usize, number: u32, asked: usize) -> KnownSearch {
    let list = if number == 0 { vec![0] } else { Vec::new() };
    let zeroed = if number == 10 { 0 } else { asked };
    KnownSearch { case, numbers, outputs, answer: Schedule { number, profit: 0, list }, zeroed }
}

/// Records with the numbers that a search of them asks for, which go by the minimum times alone: those above,
/// and records that are refused by 4, by another number and by all zeros.
pub fn known_asked() -> Vec<(Case, usize)> {
    let of = |min_up: u16, min_down: u16| Case { min_up, min_down, ..known_unit(0, &[10]) };
    let accepted = NUMBERS.map(|(min_up, min_down, asked)| (of(min_up, min_down), asked));
    let refused = [
        (of(0, 0), 8_192),
        (of(0, 8), 8_192),
        (of(0, 9), 32_768),
        (of(25, 8), 32_768),
        (of(8, 25), 32_768),
        (of(65_535, 1), 32_768),
        (of(264, 264), 32_768),
        (Case { t: 169, ..of(8, 8) }, 8_192),
        (Case { t: 0, capacity: 401, ..of(8, 9) }, 32_768),
        (Case::ZERO, 8_192),
        (Case { min_up: 9, ..Case::ZERO }, 32_768),
    ];
    accepted.into_iter().chain(refused).collect()
}
