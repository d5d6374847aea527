//! Random lists to be checked: days that a unit can run or nearly can, and anything else.

use crate::case::{Case, MOST_HOURS};
use crate::random::Rng;
use crate::refusals::SHORT_TIME;

/// A list of T outputs, or once in a while of another number of outputs.
pub fn any_list(rng: &mut Rng, case: &Case) -> Vec<u16> {
    let mut list = match rng.below(8) {
        0 => (0..case.t).map(|_| rng.bits() as u16).collect(),
        1 => (0..case.t).map(|_| rng.between16(0, case.capacity.saturating_add(1))).collect(),
        _ => walk(rng, case),
    };
    if rng.once_in(2) {
        disturb(rng, case, &mut list);
    }
    if rng.once_in(20) {
        change_length(rng, &mut list);
    }
    list
}

/// A list of any outputs for a record that may break every limit; of T outputs where T is a count
/// of hours.
pub fn wild_list(rng: &mut Rng, case: &Case) -> Vec<u16> {
    let count = if case.t <= MOST_HOURS + 12 { case.t } else { rng.place(0, MOST_HOURS + 12) };
    let mut list: Vec<u16> = (0..count).map(|_| rng.bits() as u16 >> rng.below(16)).collect();
    if rng.once_in(4) {
        change_length(rng, &mut list);
    }
    list
}

/// A day in runs: off-line hours, the start-up trajectory, on-line hours within the ramps, the
/// shut-down trajectory; first the rest of a start or a stop in which it opens. Minimum times, orders and the end of
/// the day are not looked at.
pub fn walk(rng: &mut Rng, case: &Case) -> Vec<u16> {
    let (mut list, mut output) = rest_of_opening(case);
    while list.len() < case.t {
        if output == 0 {
            list.resize(list.len() + hours_of_run(rng, 6, case.min_down), 0);
            list.extend(&case.pu[..case.ud]);
            output = case.minimum;
        } else {
            output = on_line_run(rng, case, output, &mut list);
            if output == case.minimum {
                list.extend(&case.pd[1..case.dd]);
                list.push(0);
                output = 0;
            }
        }
    }
    list.truncate(case.t);
    list
}

/// The outputs that a start or a stop goes on with where the day opens inside it, and the output after them.
fn rest_of_opening(case: &Case) -> (Vec<u16>, u16) {
    match (usize::from(case.up_stage), usize::from(case.down_stage)) {
        (0, 0) => (Vec::new(), case.p0),
        (0, stage) => ([&case.pd[stage..case.dd], &[0]].concat(), 0),
        (stage, _) => (case.pu[stage..case.ud].to_vec(), case.minimum),
    }
}

/// On-line hours within the ramps, which end the day or end at the minimum output; gives the last
/// output. The run may have no hour at all, so that a start and a stop meet.
fn on_line_run(rng: &mut Rng, case: &Case, first: u16, list: &mut Vec<u16>) -> u16 {
    let mut output = first;
    for _ in 0..hours_of_run(rng, 8, case.min_up) {
        let lowest = output.saturating_sub(case.ramp_down).max(case.minimum);
        let highest = output.saturating_add(case.ramp_up).min(case.capacity);
        output = rng.between16(lowest, highest);
        list.push(output);
    }
    while output > case.minimum && list.len() < case.t {
        output = output.saturating_sub(case.ramp_down).max(case.minimum);
        list.push(output);
    }
    output
}

/// Hours of a run: few, or up to a few more than a long minimum time.
fn hours_of_run(rng: &mut Rng, few: usize, time: u16) -> usize {
    rng.place(0, if time > SHORT_TIME { usize::from(time) + 2 } else { few })
}

/// Changes one to three outputs: by one, to 0, to a limit or to any 16-bit number.
pub fn disturb(rng: &mut Rng, case: &Case, list: &mut [u16]) {
    if list.is_empty() {
        return;
    }
    for _ in 0..rng.place(1, 3) {
        let k = rng.place(0, list.len() - 1);
        list[k] = match rng.below(8) {
            0 | 1 => list[k].saturating_add(1),
            2 | 3 => list[k].saturating_sub(1),
            4 => 0,
            5 => rng.pick(&[case.minimum, case.capacity, case.minimum.saturating_sub(1), 65_535]),
            6 => rng.between16(0, case.capacity.saturating_add(2)),
            _ => rng.bits() as u16,
        };
    }
}

/// Changes one of the first two outputs or of the last two: to an output of a trajectory, by one, to 0 or to the
/// minimum output.
pub fn disturb_ends(rng: &mut Rng, case: &Case, list: &mut [u16]) {
    let last = list.len().saturating_sub(1);
    let k = rng.pick(&[0, 1.min(last), last.saturating_sub(1), last, last, last]);
    let stages = [&case.pu[..case.ud], &case.pd[..case.dd], &case.pd[..case.dd]].concat();
    if let Some(output) = list.get_mut(k) {
        *output = match rng.below(8) {
            0 => output.saturating_add(1),
            1 => output.saturating_sub(1),
            2 => 0,
            3 => case.minimum,
            _ => rng.pick(&stages),
        };
    }
}

/// Makes the list longer or shorter, mostly by one.
pub fn change_length(rng: &mut Rng, list: &mut Vec<u16>) {
    match rng.below(4) {
        0 => list.truncate(list.len().saturating_sub(1)),
        1 => list.push(0),
        2 => list.clear(),
        _ => list.resize(rng.place(0, 2 * MOST_HOURS), 7),
    }
}
