//! The refusal list (scope, "Refusal list"), numbers 1 to 10, with 12 and 13 of request F-2, the stages of
//! request F-5 in 7, and the hours, minimum times and working numbers of request F-6. The order of the tests
//! is 1, 2, 12, 3 to 8, 13, 9, 10. Number 11 is the answer of a search that found nothing, and stands in
//! `answers`; 14 and 15 of request F-3 stand in `calendar`.

use crate::case::{Case, MOST_HOURS, MOST_STAGES, OFF_LINE};
use std::ops::RangeInclusive;

/// Nothing, or the number of the refusal that applies.
pub type Test = Result<(), u32>;

/// Longest minimum times, in hours: with which the fewer working numbers do, and of any unit.
pub const SHORT_TIME: u16 = 8;
pub const LONGEST_TIME: u16 = 24;

/// Working numbers that a search may ask for: where both minimum times are short, and where one is longer.
pub const WORKING_NUMBERS: usize = 8_192;
pub const MOST_WORKING_NUMBERS: usize = 32_768;

/// Most hours that the unit has been on-line or off-line before hour 1.
pub const HOURS_IN_STATE: u16 = 10_000;

/// Bytes of a pair at the head of a file, and of the form's section.
pub const PAIR_BYTES: usize = 4;
pub const FORM_BYTES: usize = 2;

/// Bytes of the unit's section: form 3 has the two stages, form 2 and the old form have not.
pub const UNIT_BYTES: usize = 34;
pub const OLD_UNIT_BYTES: usize = 32;

/// Fewest bytes of a file: those of four pairs.
pub const LEAST_BYTES: usize = 4 * PAIR_BYTES;

/// Bytes of an hour's entry: a 16-bit price and an order in a file of four pairs, a 32-bit price and an order in one of
/// five.
pub const OLD_HOUR_BYTES: usize = 3;
pub const HOUR_BYTES: usize = 5;

/// The number of the form that is written, and of the one before it, which is read.
pub const FORM: u16 = 3;
pub const FORM_BEFORE: u16 = 2;

/// Prices that are not refused, in mills per MWh.
pub const PRICES: RangeInclusive<i32> = -10_000_000..=10_000_000;

/// Refuses with `number` where `condition` holds.
fn refuse_if(condition: bool, number: u32) -> Test {
    if condition {
        Err(number)
    } else {
        Ok(())
    }
}

/// Refusal 1: the chain of pairs. The first offset is where the pairs end, each next one is where the section before
/// ends, the last section ends with the file. Sums are plain sums of whole numbers.
pub fn pairs(pairs: &[(usize, usize)], file_bytes: usize) -> Test {
    let mut expected_offset = PAIR_BYTES * pairs.len();
    for &(offset, length) in pairs {
        refuse_if(offset != expected_offset, 1)?;
        expected_offset = offset + length;
    }
    refuse_if(expected_offset != file_bytes, 1)
}

/// Refusal 2 of a file of four pairs: its hours have 3 bytes.
pub fn old_lengths([unit, start_up, shut_down, hours]: [usize; 4]) -> Test {
    refuse_if(unit != OLD_UNIT_BYTES, 2)?;
    trajectory_lengths([start_up, shut_down])?;
    refuse_if(!is_entries(hours, OLD_HOUR_BYTES, MOST_HOURS), 2)
}

/// Refusal 2 of a file of five pairs by its form section, without whose 2 bytes there is no form number.
pub fn form_length(form: usize) -> Test {
    refuse_if(form != FORM_BYTES, 2)
}

/// Refusal 2 of a file of five pairs with this form number: its hours have 5 bytes, its unit 32 in form 2 and else 34.
/// An unknown form is measured as the newest one.
pub fn lengths(form: u16, [unit, start_up, shut_down, hours]: [usize; 4]) -> Test {
    let unit_bytes = if form == FORM_BEFORE { OLD_UNIT_BYTES } else { UNIT_BYTES };
    refuse_if(unit != unit_bytes, 2)?;
    trajectory_lengths([start_up, shut_down])?;
    refuse_if(!is_entries(hours, HOUR_BYTES, MOST_HOURS), 2)
}

/// Refusal 2 by what every form has: 1 to 8 entries of 2 bytes in each trajectory.
fn trajectory_lengths([start_up, shut_down]: [usize; 2]) -> Test {
    refuse_if(!is_entries(start_up, 2, MOST_STAGES), 2)?;
    refuse_if(!is_entries(shut_down, 2, MOST_STAGES), 2)
}

/// Whether `bytes` is the length of 1 to `most` entries of `size` bytes.
fn is_entries(bytes: usize, size: usize, most: usize) -> bool {
    bytes.is_multiple_of(size) && (1..=most).contains(&(bytes / size))
}

/// Refusal 12: a form number that is neither 2 nor 3. It is a file's alone.
pub fn form(number: u16) -> Test {
    refuse_if(number != FORM_BEFORE && number != FORM, 12)
}

/// Refusals 2 to 8 of a record, from the top, and 13 right after 8.
pub fn record(case: &Case) -> Test {
    counts(case)?;
    output_limits(case)?;
    ramps_and_times(case)?;
    costs(case)?;
    trajectories(case)?;
    opening(case)?;
    orders(case)?;
    prices(case)
}

/// Refusal 2 of a record: a count outside its range.
fn counts(case: &Case) -> Test {
    refuse_if(!(1..=MOST_STAGES).contains(&case.ud), 2)?;
    refuse_if(!(1..=MOST_STAGES).contains(&case.dd), 2)?;
    refuse_if(!(1..=MOST_HOURS).contains(&case.t), 2)
}

/// Refusal 3: minimum output 0 or above capacity, or capacity above 400.
fn output_limits(case: &Case) -> Test {
    refuse_if(case.minimum == 0 || case.minimum > case.capacity || case.capacity > 400, 3)
}

/// Refusal 4: RU or RD outside 1 to 400, or a minimum time outside 1 to 24.
fn ramps_and_times(case: &Case) -> Test {
    for ramp in [case.ramp_up, case.ramp_down] {
        refuse_if(!(1..=400).contains(&ramp), 4)?;
    }
    for time in [case.min_up, case.min_down] {
        refuse_if(!(1..=LONGEST_TIME).contains(&time), 4)?;
    }
    Ok(())
}

/// Refusal 5: F above 1,000,000, or A, B or C above 100,000,000; or any of them below zero, which is a number of 2^31
/// or more in a file.
fn costs(case: &Case) -> Test {
    refuse_if(!(0..=1_000_000).contains(&case.f), 5)?;
    for cost in [case.a, case.b, case.c] {
        refuse_if(!(0..=100_000_000).contains(&cost), 5)?;
    }
    Ok(())
}

/// Refusal 6: PU not strictly rising from 1 or more to the minimum output, or PD not strictly
/// falling from the minimum output to 1 or more.
fn trajectories(case: &Case) -> Test {
    let start_up = &case.pu[..case.ud];
    let shut_down = &case.pd[..case.dd];
    let rising = start_up.windows(2).all(|pair| pair[0] < pair[1]);
    let falling = shut_down.windows(2).all(|pair| pair[0] > pair[1]);
    let start_up_ends = start_up[0] >= 1 && start_up[case.ud - 1] == case.minimum;
    let shut_down_ends = shut_down[0] == case.minimum && shut_down[case.dd - 1] >= 1;
    refuse_if(!(rising && start_up_ends && falling && shut_down_ends), 6)
}

/// Refusal 7: h outside 1 to 10,000; both stages set; what is asked of the stage that is set, or of a day with none.
fn opening(case: &Case) -> Test {
    refuse_if(!(1..=HOURS_IN_STATE).contains(&case.h), 7)?;
    match (usize::from(case.up_stage), usize::from(case.down_stage)) {
        (0, 0) => opening_outside_sequences(case),
        (stage, 0) => opening_start(case, stage),
        (0, stage) => opening_stop(case, stage),
        _ => Err(7),
    }
}

/// 7 with no stage set: p(0) neither 0 nor from minimum to capacity; p(0) above 0 with h below UD.
fn opening_outside_sequences(case: &Case) -> Test {
    let on_line = case.p0 > 0;
    refuse_if(on_line && !(case.minimum..=case.capacity).contains(&case.p0), 7)?;
    refuse_if(on_line && usize::from(case.h) < case.ud, 7)
}

/// 7 of a start-up stage: it is not below UD; p(0) is not PU(stage); h is not the stage.
fn opening_start(case: &Case, stage: usize) -> Test {
    refuse_if(stage >= case.ud, 7)?;
    refuse_if(case.p0 != case.pu[stage - 1], 7)?;
    refuse_if(usize::from(case.h) != stage, 7)
}

/// 7 of a shut-down stage: it is not from 2 to DD; p(0) is not PD(stage); h is below UD + stage - 1.
fn opening_stop(case: &Case, stage: usize) -> Test {
    refuse_if(stage < 2 || stage > case.dd, 7)?;
    refuse_if(case.p0 != case.pd[stage - 1], 7)?;
    refuse_if(usize::from(case.h) < case.ud + stage - 1, 7)
}

/// Refusal 8: an order byte above 2.
fn orders(case: &Case) -> Test {
    refuse_if(case.orders[..case.t].iter().any(|&order| order > OFF_LINE), 8)
}

/// Refusal 13: a price of hours 1 to T outside its range.
fn prices(case: &Case) -> Test {
    refuse_if(case.prices[..case.t].iter().any(|price| !PRICES.contains(price)), 13)
}

/// Refusal 9: a checked list not of T outputs.
pub fn list_length(case: &Case, outputs: usize) -> Test {
    refuse_if(outputs != case.t, 9)
}

/// Working numbers that a search of this record may ask for, by its minimum times alone.
pub fn working_numbers(case: &Case) -> usize {
    if case.min_up <= SHORT_TIME && case.min_down <= SHORT_TIME {
        WORKING_NUMBERS
    } else {
        MOST_WORKING_NUMBERS
    }
}

/// Refusal 10 of a search: fewer working numbers than it may ask for, or fewer than T outputs.
pub fn search_memory(case: &Case, lent_numbers: usize, outputs: usize) -> Test {
    refuse_if(lent_numbers < working_numbers(case) || outputs < case.t, 10)
}

/// Refusal 10 of writing: fewer bytes than the written file has.
pub fn file_memory(file_bytes: usize, lent_bytes: usize) -> Test {
    refuse_if(lent_bytes < file_bytes, 10)
}
