//! Days that open and close inside a sequence (request F-5), worked out by hand. The unit has minimum 4, capacity 6, RU
//! and RD 1, minimum times 1, PU 1, 2, 4 and PD 4, 2, 1, so that PU(1) = PD(3) and PU(2) = PD(2). An on-line hour costs
//! 2 A = 2, a start 2 B = 6 and a stop 2 C = 4 half-mills; the margin of an hour is its price less F = 10.

use crate::case::{Case, OFF_LINE, ON_LINE};
use crate::days::{breaks, found, known_unit, passes, refused, with_orders, KnownDay};
use crate::opening::Opening;

/// How many days there are.
pub const COUNT: u64 = 97;

/// All days, by the sentences of the request.
pub fn known_stages() -> Vec<KnownDay> {
    [
        opening_starts(),
        opening_stops(),
        closings(),
        both_trajectories(),
        minimum_up_time(),
        opening_stop_too_early(),
        in_one_stop(),
        on_line_through_a_start(),
        refusals_of_starts(),
        refusals_of_stops(),
        refusals_of_both(),
    ]
    .concat()
}

/// The unit with this state before hour 1.
fn unit(opening: Opening, prices: &[i32]) -> Case {
    let case = Case { capacity: 6, minimum: 4, ud: 3, dd: 3, ..known_unit(0, prices) };
    let mut case = opening.set(&case);
    case.pu[..3].copy_from_slice(&[1, 2, 4]);
    case.pd[..3].copy_from_slice(&[4, 2, 1]);
    case
}

/// The unit with this output before hour 1, in no sequence.
fn outside(p0: u16, h: u16, prices: &[i32]) -> Case {
    unit(Opening { p0, h, up_stage: 0, down_stage: 0 }, prices)
}

/// The unit with this start-up stage, or shut-down stage, and what else is asked for.
fn starting(up_stage: u8, p0: u16, h: u16, prices: &[i32]) -> Case {
    unit(Opening { p0, h, up_stage, down_stage: 0 }, prices)
}
fn stopping(down_stage: u8, p0: u16, h: u16, prices: &[i32]) -> Case {
    unit(Opening { p0, h, up_stage: 0, down_stage }, prices)
}

/// A start goes on with its next stage, and its B is not this day's. At margin 0 an hour earns -2. From PU(1) hour 1 is
/// at 2, and from PU(2) at 4. Three hours from PU(1) are 2, 4 and then 2, 4 or 5, which earn the same -6: 2 is the
/// lowest, and the stop that it belongs to, at 3 + 3 + 1 - 2 = 5, meets the start in hour 2 alone. At margin 5 they are
/// 2, 4, 5: 5 (2 + 1) - 2 = 13, 5 (4 + 2) - 2 = 28 and 5 (5 + 4) - 2 = 43, that is 84. An hour off-line breaks 3, since
/// v(1) is 0 and the start still counts: 0 is above 2 - 6. At 4 hour 1 is above PU(2), and so is 3: 3 again; 1 is below
/// it: 1. Ordered off-line there is no list.
fn opening_starts() -> Vec<KnownDay> {
    let (first, second) = (starting(1, 1, 1, &[10]), starting(2, 2, 2, &[10]));
    vec![
        found("stage 1 of a start", first, &[2], -2),
        found("stage 2 of a start", second, &[4], -2),
        found("through a start into a stop", starting(1, 1, 1, &[10; 3]), &[2, 4, 2], -6),
        found("through a start", starting(1, 1, 1, &[15; 3]), &[2, 4, 5], 84),
        passes("a start and a stop that meet", starting(2, 2, 2, &[10; 4]), &[4, 2, 1, 0], -10),
        breaks("a start left off-line", first, &[0], 1, 3),
        breaks("a start run ahead", first, &[4], 1, 3),
        breaks("a start one above", first, &[3], 1, 3),
        breaks("a start that waits", first, &[1], 1, 1),
        refused("a start ordered off-line", with_orders(first, &[OFF_LINE]), 11),
    ]
}

/// A stop goes on with its next stage, and C is charged in its hour: from PD(2) hour 1 is at 1, which costs 2, and hour
/// 2 off-line, which costs 4; from PD(3) hour 1 is off-line. Margins 0, 0, 0, 20 from PD(2) then allow a start at hour
/// 3: -2, -4, -2 - 6 = -8 and 20 (2 + 1) - 2 = 58, that is 44; a start at hour 4 earns -2, -4, 0 and 20 - 2 - 6 = 12,
/// that is 6. (2) and (4) at hour 0 hold the list to the stop: 4 at hour 1 has no stop, and p(0) is below the minimum
/// output, 2; 2 at hour 1 is PD(2) and asks for PD(1) = 4 at hour 0, 2 again; a stop at hour 1 asks for PD(3) = 1
/// there, 4.
fn opening_stops() -> Vec<KnownDay> {
    let second = stopping(2, 2, 4, &[10]);
    vec![
        found("stage 2 of a stop", second, &[1], -2),
        found("stage 3 of a stop", stopping(3, 1, 5, &[10]), &[0], -4),
        found("through a stop", stopping(2, 2, 4, &[10; 2]), &[1, 0], -6),
        found("through a stop into a start", stopping(2, 2, 4, &[10, 10, 10, 30]), &[1, 0, 1, 2], 44),
        passes("a start after a stop", stopping(2, 2, 4, &[10, 10, 10, 30]), &[1, 0, 0, 1], 6),
        breaks("a stop that waits", second, &[2], 0, 2),
        breaks("a stop taken back", second, &[4], 0, 2),
        breaks("a stop run ahead", second, &[0], 0, 4),
        breaks("stage 3 of a stop taken back", stopping(3, 1, 5, &[10]), &[4], 0, 2),
        breaks("stage 3 of a stop, and PD(2)", stopping(3, 1, 5, &[10]), &[2], 0, 2),
        refused("a stop ordered on-line", with_orders(stopping(3, 1, 5, &[10]), &[ON_LINE]), 11),
        found("a stop ordered on-line in time", with_orders(second, &[ON_LINE]), &[1], -2),
    ]
}

/// A day may close on PD(2) or PD(3), and C of the stop is not this day's. From 4 MW at margin 0 all on-line lists of
/// an hour earn -2: 2 is the lowest. Of two hours 2, 1 is. Of three, 2, 1, 0 earns -8, and 4, 2, 1 is the lowest that
/// earns -6. At margins 10 and -5, 4, 2 earns 10 (4 + 4) - 2 = 78 and -5 (2 + 4) - 2 = -32, that is 46; 2, 1 earns
/// 58 - 17 = 41, 4, 4 earns 78 - 42 = 36, and 5, 4 earns 88 - 47 = 41. At margin -5 ordered on-line, an hour at 2 earns
/// -5 (2 + 4) - 2 = -32, and at 4 it earns -42. Ordered off-line there is no list. From 4 MW, 1 is PD(3) and asks for 2
/// at hour 0: 4. From 5 MW, 2 asks for 4 there: 4 too. 3 is on no trajectory, so there is no stop, and it is below the
/// minimum output: 1. 2 twice asks for PD(1) = 4 at hour 1: 2.
fn closings() -> Vec<KnownDay> {
    let one = outside(4, 3, &[10]);
    vec![
        found("closed on PD(2)", one, &[2], -2),
        found("closed on PD(3)", outside(4, 3, &[10; 2]), &[2, 1], -4),
        found("closed on PD(3) of three hours", outside(4, 3, &[10; 3]), &[4, 2, 1], -6),
        found("closed on PD(2) of two hours", outside(4, 3, &[20, 5]), &[4, 2], 46),
        found("closed on PD(2) by an order", with_orders(outside(4, 3, &[5]), &[ON_LINE]), &[2], -32),
        refused("no stop within an hour", with_orders(one, &[OFF_LINE]), 11),
        passes("closed at the minimum output", one, &[4], -2),
        passes("closed on PD(2), C not charged", outside(4, 3, &[10; 2]), &[4, 2], -4),
        passes("stopped within the day, C charged", outside(4, 3, &[10; 3]), &[2, 1, 0], -8),
        breaks("closed on PD(3) from PD(1)", one, &[1], 0, 4),
        breaks("closed on PD(2) from 5 MW", outside(5, 3, &[10]), &[2], 0, 4),
        breaks("closed on no stage", one, &[3], 1, 1),
        breaks("PD(2) twice", outside(4, 3, &[10; 2]), &[2, 2], 1, 2),
    ]
}

/// An output that is PU(j) and PD(i) closes inside a stop only where hour T lies in no start sequence. From 0 MW at
/// price 100, margin 90: 1 earns 90 - 2 - 6 = 82, and 1, 2 then 90 (2 + 1) - 2 = 268, that is 350. A start at hour 2 is
/// at PU(1) in it. From PU(2), hour 1 is the last of the start, and 2 is no stage of a stop: 1, and not 11. After the
/// start, hour 2 may be at PD(2).
fn both_trajectories() -> Vec<KnownDay> {
    let high = outside(0, 2, &[100; 2]);
    vec![
        found("PU(1) = PD(3) in a start", outside(0, 2, &[100]), &[1], 82),
        found("PU(2) = PD(2) in a start", high, &[1, 2], 350),
        passes("PU(1) = PD(3) at the last hour", high, &[0, 1], 82),
        breaks("PD(2) in the last hour of a start", starting(2, 2, 2, &[10]), &[2], 1, 1),
        passes("PD(2) in the hour after a start", starting(2, 2, 2, &[10; 2]), &[4, 2], -4),
        passes("PD(2) = PU(2) after a run", outside(4, 3, &[10; 2]), &[4, 2], -4),
        breaks("PD(3) = PU(1) after a run at 4 MW", outside(4, 3, &[10; 2]), &[4, 1], 1, 4),
    ]
}

/// Rule 21 holds for a stop after T, and is reported at its hour. From 4 MW, 2 at hour 1 stops at 1 + 3 + 1 - 2 = 3,
/// which is h + 2 hours after the start: of a minimum of 8, h of 6 is enough and 5 is not. A start at hour 1 and the
/// list 1, 2, 4, 2, 1 stop at 5 + 3 + 1 - 3 = 6, five hours after it: -2 - 6 and four times -2, that is -16. A start at
/// hour -1 and the list 4, 2 stop at 2 + 3 + 1 - 2 = 4, five hours after it. Where 2 is not allowed, the best list at
/// margin -5 stays at 4: -42. The earliest hour is reported: 23 at hour 1 comes before 21 at hour 3.
fn minimum_up_time() -> Vec<KnownDay> {
    let up = |minimum, case: Case| Case { min_up: minimum, ..case };
    let run = [1, 2, 4, 2, 1];
    let early = up(8, outside(4, 5, &[5]));
    vec![
        breaks("21 two hours after T", early, &[2], 3, 21),
        passes("the minimum up time after T", up(8, outside(4, 6, &[5])), &[2], -32),
        found("no stop before the minimum up time", early, &[4], -42),
        found("a stop at the minimum up time", up(8, outside(4, 6, &[5])), &[2], -32),
        breaks("21 one hour after T", up(8, outside(4, 5, &[10; 2])), &[2, 1], 3, 21),
        breaks("21 after a start of the day", up(6, outside(0, 2, &[10; 5])), &run, 6, 21),
        passes("the minimum after a start of the day", up(5, outside(0, 2, &[10; 5])), &run, -16),
        breaks("21 after a start before the day", up(6, starting(2, 2, 2, &[10; 2])), &[4, 2], 4, 21),
        passes("the minimum after a start before the day", up(5, starting(2, 2, 2, &[10; 2])), &[4, 2], -4),
        breaks("23 before 21 after T", with_orders(early, &[OFF_LINE]), &[2], 1, 23),
    ]
}

/// A shut-down stage whose stop comes too early is accepted by 7, and no list keeps rule 21. From PD(2) the stop is at
/// hour 2, which is h + 1 hours after the start: of a minimum of 8, h of 7 is enough.
fn opening_stop_too_early() -> Vec<KnownDay> {
    let of = |h, prices: &[i32]| Case { min_up: 8, ..stopping(2, 2, h, prices) };
    vec![
        refused("an opening stop too early", of(4, &[10]), 11),
        refused("an opening stop an hour too early", of(6, &[10; 2]), 11),
        found("an opening stop in time", of(7, &[10]), &[1], -2),
        found("an opening stop in time, within the day", of(7, &[10; 2]), &[1, 0], -6),
        breaks("21 of an opening stop after T", of(6, &[10]), &[1], 2, 21),
        breaks("21 of an opening stop within the day", of(6, &[10; 2]), &[1, 0], 2, 21),
    ]
}

/// A unit of 8 MW alone, UD 1 and PD 8, 6, 4, 2, from a stage of a stop that ends after the day. From PD(2) with h 2,
/// two hours are at 4 and 2, and the stop is at hour 3; at margin 10 they earn 10 (4 + 6) - 2 = 98 and
/// 10 (2 + 4) - 2 = 58. From PD(3) one hour is at 2, for 58; from PD(4) it is off-line, for 10 (0 + 2) - 4 = 16. From
/// PD(2), off-line at hour 2 and 2 at hour 1 stop at hour 2, and ask for PD(3) = 4 at hour 0: 4.
fn in_one_stop() -> Vec<KnownDay> {
    let of = |stage: u8, p0, prices: &[i32]| {
        let mut case = stopping(stage, p0, stage.into(), prices);
        (case.capacity, case.minimum, case.ud, case.dd) = (8, 8, 1, 4);
        (case.pu, case.pd) = ([8, 0, 0, 0, 0, 0, 0, 0], [8, 6, 4, 2, 0, 0, 0, 0]);
        case
    };
    vec![
        found("one stop, from PD(2) to PD(3)", of(2, 6, &[20]), &[4], 98),
        found("one stop, from PD(2) to PD(4)", of(2, 6, &[20; 2]), &[4, 2], 156),
        found("one stop, from PD(3) to PD(4)", of(3, 4, &[20]), &[2], 58),
        found("one stop, from PD(4)", of(4, 2, &[20]), &[0], 16),
        breaks("one stop, ended early", of(2, 6, &[20; 2]), &[4, 0], 0, 4),
        breaks("one stop, a stage left out", of(2, 6, &[20]), &[2], 0, 4),
    ]
}

/// Rule 8 where a start before the day is left off-line and no other rule breaks. Minimum and capacity are 2, PU is 1,
/// 2 and PD 2, 1; the day opens at PU(1) = PD(2), and 0 stops at hour 1. At hour 0, (4) asks for PD(2) = 1. At hour 1
/// both sides of (1), (3) and (4) are 0; 8 asks that v be 1.
fn on_line_through_a_start() -> Vec<KnownDay> {
    let case = Opening { p0: 1, h: 1, up_stage: 1, down_stage: 0 }.set(&known_unit(0, &[10]));
    let narrow = Case { capacity: 2, ..case };
    vec![breaks("8 by a start before the day", narrow, &[0], 1, 8), breaks("3 above it", case, &[0], 1, 3)]
}

/// 7 by a start-up stage: not from 1 to UD - 1, p(0) not PU(stage), h not the stage; each with all else in order. The
/// neighbours are the days that open at stage 1 and 2, and the one at 4 MW without a stage.
fn refusals_of_starts() -> Vec<KnownDay> {
    let price = [10];
    vec![
        refused("start-up stage UD", starting(3, 4, 3, &price), 7),
        found("no stage at PU(UD)", outside(4, 3, &price), &[2], -2),
        refused("start-up stage UD + 1", starting(4, 4, 4, &price), 7),
        refused("start-up stage 255", starting(255, 4, 255, &price), 7),
        refused("start-up stage 1, p(0) PU(2)", starting(1, 2, 1, &price), 7),
        refused("start-up stage 2, p(0) PU(1)", starting(2, 1, 2, &price), 7),
        refused("start-up stage 1, p(0) 0", starting(1, 0, 1, &price), 7),
        refused("start-up stage 2, p(0) at the minimum output", starting(2, 4, 2, &price), 7),
        refused("start-up stage 2, p(0) and h of a run", starting(2, 4, 3, &price), 7),
        refused("start-up stage 1, h 2", starting(1, 1, 2, &price), 7),
        refused("start-up stage 1, h 0", starting(1, 1, 0, &price), 7),
        refused("start-up stage 2, h 1", starting(2, 2, 1, &price), 7),
        refused("start-up stage 2, h 3", starting(2, 2, 3, &price), 7),
        refused("start-up stage 1, h 10,000", starting(1, 1, 10_000, &price), 7),
    ]
}

/// 7 by a shut-down stage: not from 2 to DD, p(0) not PD(stage), h below UD + stage - 1 or above 10,000; each with all
/// else in order, and with the neighbour that passes.
fn refusals_of_stops() -> Vec<KnownDay> {
    let price = [10];
    vec![
        refused("shut-down stage 1", stopping(1, 4, 3, &price), 7),
        refused("shut-down stage DD + 1", stopping(4, 1, 6, &price), 7),
        refused("shut-down stage 255", stopping(255, 1, 10_000, &price), 7),
        refused("shut-down stage 2, p(0) PD(1)", stopping(2, 4, 4, &price), 7),
        refused("shut-down stage 2, p(0) PD(3)", stopping(2, 1, 4, &price), 7),
        refused("shut-down stage 3, p(0) 0", stopping(3, 0, 5, &price), 7),
        refused("shut-down stage 2, h 3", stopping(2, 2, 3, &price), 7),
        refused("shut-down stage 3, h 4", stopping(3, 1, 4, &price), 7),
        found("shut-down stage 2, h 10,000", stopping(2, 2, 10_000, &price), &[1], -2),
        refused("shut-down stage 2, h 10,001", stopping(2, 2, 10_001, &price), 7),
        refused("shut-down stage 2, h 65,535", stopping(2, 2, 65_535, &price), 7),
    ]
}

/// 7 by both stages, of which either alone is in order, and by outputs of a stage without the stage.
fn refusals_of_both() -> Vec<KnownDay> {
    let of = |up_stage, down_stage, p0, h| unit(Opening { p0, h, up_stage, down_stage }, &[10]);
    vec![
        refused("both stages, the start-up in order", of(2, 2, 2, 2), 7),
        refused("both stages, the shut-down in order", of(2, 2, 2, 4), 7),
        refused("both stages, neither in order", of(3, 1, 4, 3), 7),
        refused("no stage at PU(2) = PD(2)", of(0, 0, 2, 4), 7),
        refused("no stage at PU(1) = PD(3)", of(0, 0, 1, 1), 7),
        refused("no stage, h below UD", of(0, 0, 4, 2), 7),
    ]
}

/// A list that keeps the rules, with the state that it leaves for the next day.
pub type Left = (&'static str, Case, Vec<u16>, Opening);

/// What lists leave. On-line hours count from the start on, which may stand before the day, off-line hours from the
/// stop; without either they go on from h, and stop at 10,000. A start-up stage is below UD, and a shut-down stage
/// belongs to a stop after T.
pub fn left_by() -> Vec<Left> {
    let row = |name, case: Case, list: &[u16], (p0, h, up_stage, down_stage)| {
        (name, Case { t: list.len(), ..case }, list.to_vec(), Opening { p0, h, up_stage, down_stage })
    };
    let prices = [10; 5];
    let (off, on) = (outside(0, 2, &prices), outside(4, 3, &prices));
    let (rising, falling) = (starting(1, 1, 1, &prices), stopping(2, 2, 4, &prices));
    vec![
        row("off-line", off, &[0], (0, 3, 0, 0)),
        row("off-line for long", outside(0, 9_998, &prices), &[0, 0], (0, 10_000, 0, 0)),
        row("off-line for longer", outside(0, 9_999, &prices), &[0, 0], (0, 10_000, 0, 0)),
        row("on-line for longest", outside(4, 10_000, &prices), &[4], (4, 10_000, 0, 0)),
        row("stage 1 of a start", off, &[1], (1, 1, 1, 0)),
        row("stage 1 of a start after an hour", off, &[0, 1], (1, 1, 1, 0)),
        row("stage 2 of a start", off, &[1, 2], (2, 2, 2, 0)),
        row("stage UD of a start", off, &[1, 2, 4], (4, 3, 0, 0)),
        row("after a start", off, &[1, 2, 4, 5], (5, 4, 0, 0)),
        row("stage 2 of a stop after a start", off, &[1, 2, 4, 2], (2, 4, 0, 2)),
        row("stage 3 of a stop after a start", off, &[1, 2, 4, 2, 1], (1, 5, 0, 3)),
        row("on-line", on, &[5], (5, 4, 0, 0)),
        row("at the minimum output", on, &[4], (4, 4, 0, 0)),
        row("stage 2 of a stop", on, &[2], (2, 4, 0, 2)),
        row("stage 3 of a stop", on, &[2, 1], (1, 5, 0, 3)),
        row("after a stop", on, &[2, 1, 0], (0, 1, 0, 0)),
        row("an hour after a stop", on, &[2, 1, 0, 0], (0, 2, 0, 0)),
        row("stage 1 of a start after a stop", on, &[2, 1, 0, 1], (1, 1, 1, 0)),
        row("stage 2 of a start before the day", rising, &[2], (2, 2, 2, 0)),
        row("stage UD of a start before the day", rising, &[2, 4], (4, 3, 0, 0)),
        row("stage 2 of a stop after a start before the day", rising, &[2, 4, 2], (2, 4, 0, 2)),
        row("stage 3 of a stop before the day", falling, &[1], (1, 5, 0, 3)),
        row("after a stop before the day", falling, &[1, 0], (0, 1, 0, 0)),
    ]
}
