//! The best list of a full-size day by a dynamic programme. It renders the source's section II-A
//! in words instead of constraints: a unit is off-line, on its start-up trajectory, on-line between
//! minimum output and capacity, or on its shut-down trajectory; a day may open and close in any of these
//! (request F-5), and its hours may cost what a table says (request F-7). It must be held against `best`.

use crate::best::Plan;
use crate::case::{Case, MOST_STAGES, OFF_LINE, ON_LINE};
use crate::profit::{hour_profit, Costs};
use crate::random::Rng;
use crate::refusals::LONGEST_TIME;
use std::collections::VecDeque;

/// What the rest of the day depends on at the end of an hour.
#[derive(Clone, Copy, Debug, PartialEq, Eq)]
enum State {
    /// Off-line for so many hours, counted up to the minimum down time.
    Off(usize),
    /// At PU(i), for i from 1 to UD - 1.
    Rising(usize),
    /// On-line for so many hours, counted up to `hours_before_fall`, at this output. PU(UD) and
    /// PD(1) are such hours too, at the minimum output: this is where a start and a stop may meet.
    On(usize, u16),
    /// At PD(j), for j from 2 to DD.
    Falling(usize),
}

/// On-line hours, the one at PD(1) included, after which the fall to PD(2) keeps rule 21. If hour k
/// is the u-th on-line hour and stands at PD(1), the stop is at k + DD, which is u - 1 + DD hours
/// after the start; so u must be at least the minimum up time + 1 - DD.
fn hours_before_fall(case: &Case) -> usize {
    (usize::from(case.min_up) + 1).saturating_sub(case.dd).max(1)
}

/// The state at the end of hour 0; none if p(0) is on a shut-down trajectory whose stop comes before the minimum up
/// time. At PD(j) in hour 0 the stop is at DD + 1 - j, which is h + DD - j hours after the start.
fn opening(case: &Case) -> Option<State> {
    let hours = usize::from(case.h);
    match (usize::from(case.up_stage), usize::from(case.down_stage)) {
        (0, 0) if case.p0 == 0 => Some(State::Off(hours.min(usize::from(case.min_down)))),
        (0, 0) => Some(State::On(hours.min(hours_before_fall(case)), case.p0)),
        (0, j) => (hours + case.dd - j >= usize::from(case.min_up)).then_some(State::Falling(j)),
        (i, _) => Some(State::Rising(i)),
    }
}

/// The output in a state.
fn output(case: &Case, state: State) -> u16 {
    match state {
        State::Off(_) => 0,
        State::Rising(i) => case.pu[i - 1],
        State::On(_, output) => output,
        State::Falling(j) => case.pd[j - 1],
    }
}

/// Visits the states that may follow, lowest output first. No two of them have the same output.
fn for_each_next(case: &Case, state: State, mut visit: impl FnMut(State)) {
    match state {
        State::Off(hours) => {
            let needed = usize::from(case.min_down);
            visit(State::Off((hours + 1).min(needed)));
            if hours >= needed {
                visit(start_stage(case, 1));
            }
        }
        State::Rising(i) => visit(start_stage(case, i + 1)),
        State::On(hours, output) => {
            let needed = hours_before_fall(case);
            if output == case.minimum && hours >= needed {
                visit(stop_stage(case, 2));
            }
            let lowest = output.saturating_sub(case.ramp_down).max(case.minimum);
            let highest = (output + case.ramp_up).min(case.capacity);
            for next in lowest..=highest {
                visit(State::On((hours + 1).min(needed), next));
            }
        }
        State::Falling(j) => visit(stop_stage(case, j + 1)),
    }
}

/// The i-th hour of a start-up; the last one is at the minimum output.
fn start_stage(case: &Case, i: usize) -> State {
    if i < case.ud {
        State::Rising(i)
    } else {
        State::On(case.ud.min(hours_before_fall(case)), case.minimum)
    }
}

/// The j-th hour of a shut-down, for j from 2; after DD hours the unit is off-line.
fn stop_stage(case: &Case, j: usize) -> State {
    if j <= case.dd {
        State::Falling(j)
    } else {
        State::Off(1)
    }
}

/// All states of a unit but those on-line between minimum output and capacity.
fn states_beside(case: &Case) -> impl Iterator<Item = State> {
    let off = (1..=usize::from(case.min_down)).map(State::Off);
    let (rising, falling) = ((1..case.ud).map(State::Rising), (2..=case.dd).map(State::Falling));
    off.chain(rising).chain(falling)
}

/// For one hour, the most that the hours after it can earn from each state; none if no list keeps
/// the rules from there.
struct Values {
    minimum: u16,
    outputs: usize,
    off: [Option<i64>; LONGEST_TIME as usize + 1],
    rising: [Option<i64>; MOST_STAGES + 1],
    falling: [Option<i64>; MOST_STAGES + 1],
    on: Vec<Option<i64>>,
}

impl Values {
    /// A table with the same value in every state, or none.
    fn filled(case: &Case, value: Option<i64>) -> Values {
        let outputs = usize::from(case.capacity - case.minimum) + 1;
        Values {
            minimum: case.minimum,
            outputs,
            off: [value; LONGEST_TIME as usize + 1],
            rising: [value; MOST_STAGES + 1],
            falling: [value; MOST_STAGES + 1],
            on: vec![value; outputs * (hours_before_fall(case) + 1)],
        }
    }

    /// The values at the end of hour T: a start or a stop may be cut by the end of the day.
    fn at_end(case: &Case) -> Values {
        Values::filled(case, Some(0))
    }

    /// The values at the end of hour k - 1, from those at the end of hour k.
    fn before(case: &Case, costs: Costs, k: usize, after: &Values) -> Values {
        let mut values = Values::filled(case, None);
        for state in states_beside(case) {
            values.set(state, value_before(case, costs, k, state, after));
        }
        let needed = hours_before_fall(case);
        for hours in 1..=needed {
            let on_line = values_on_line(case, costs, k, (hours + 1).min(needed), after);
            let row = values.place(hours, case.minimum);
            values.on[row..row + on_line.len()].copy_from_slice(&on_line);
        }
        let lowest = State::On(needed, case.minimum);
        let falls = value_of_step(case, costs, k, (lowest, stop_stage(case, 2)), after);
        values.set(lowest, values.get(lowest).max(falls));
        values
    }

    /// The place of an on-line state.
    fn place(&self, hours: usize, output: u16) -> usize {
        hours * self.outputs + usize::from(output - self.minimum)
    }

    /// The value in a state.
    fn get(&self, state: State) -> Option<i64> {
        match state {
            State::Off(hours) => self.off[hours],
            State::Rising(i) => self.rising[i],
            State::On(hours, output) => self.on[self.place(hours, output)],
            State::Falling(j) => self.falling[j],
        }
    }

    /// Changes the value in a state.
    fn set(&mut self, state: State, value: Option<i64>) {
        let place = match state {
            State::Off(hours) => &mut self.off[hours],
            State::Rising(i) => &mut self.rising[i],
            State::On(hours, output) => {
                let place = self.place(hours, output);
                &mut self.on[place]
            }
            State::Falling(j) => &mut self.falling[j],
        };
        *place = value;
    }
}

/// Whether the order of hour k allows this output.
fn keeps_order(case: &Case, k: usize, output: u16) -> bool {
    match case.orders[k - 1] {
        ON_LINE => output > 0,
        OFF_LINE => output == 0,
        _ => true,
    }
}

/// What the hours from k on earn if hour k goes from one state to the other.
fn value_of_step(
    case: &Case,
    costs: Costs,
    k: usize,
    (from, to): (State, State),
    after: &Values,
) -> Option<i64> {
    let (before, now) = (output(case, from), output(case, to));
    if !keeps_order(case, k, now) {
        return None;
    }
    after.get(to).map(|rest| hour_profit(case, costs, k, before, now) + rest)
}

/// The most that the hours from k on can earn from a state at the end of hour k - 1.
fn value_before(case: &Case, costs: Costs, k: usize, from: State, after: &Values) -> Option<i64> {
    let mut best = None;
    for_each_next(case, from, |to| best = best.max(value_of_step(case, costs, k, (from, to), after)));
    best
}

/// The most that the hours from k on can earn from each on-line output at the end of hour k - 1, if the unit
/// stays on-line between minimum output and capacity in hour k, which is then the on-line hour of this
/// number.
fn values_on_line(case: &Case, costs: Costs, k: usize, hours: usize, after: &Values) -> Vec<Option<i64>> {
    if !keeps_order(case, k, case.minimum) {
        return vec![None; after.outputs];
    }
    let row = after.place(hours, case.minimum);
    let rest = &after.on[row..row + after.outputs];
    match costs {
        Costs::Plain => by_two_parts(case, k, rest),
        Costs::Table(_) => by_every_pair(case, costs, k, rest),
    }
}

/// The values on-line by a table: every pair of outputs that the ramps allow is tried.
fn by_every_pair(case: &Case, costs: Costs, k: usize, rest: &[Option<i64>]) -> Vec<Option<i64>> {
    let (below, above) = (usize::from(case.ramp_down), usize::from(case.ramp_up));
    let values = (case.minimum..=case.capacity).zip(0usize..).map(|(before, place)| {
        let (low, high) = (place.saturating_sub(below), (place + above).min(rest.len() - 1));
        let outputs = rest[low..=high].iter().zip(case.minimum + low as u16..);
        outputs.filter_map(|(&rest, now)| Some(rest? + hour_profit(case, costs, k, before, now))).max()
    });
    values.collect()
}

/// The values on-line by F and A.
///
/// What hour k earns from one output to another is a sum of two parts, one of each output alone: from an
/// output to the minimum, and the margin for each megawatt above it. So the most of the second part and of
/// what the rest earns is found once for every output that the ramps lead to, by `most_about`.
fn by_two_parts(case: &Case, k: usize, rest: &[Option<i64>]) -> Vec<Option<i64>> {
    let margin = i64::from(case.prices[k - 1]) - i64::from(case.f);
    let places = rest.iter().zip(0..);
    let gains: Vec<Option<i64>> =
        places.map(|(rest, above)| rest.map(|rest| rest + margin * above)).collect();
    let most = most_about(&gains, case.ramp_down.into(), case.ramp_up.into());
    let to_minimum = |before: u16| hour_profit(case, Costs::Plain, k, before, case.minimum);
    most.into_iter().zip(case.minimum..).map(|(gain, before)| Some(gain? + to_minimum(before))).collect()
}

/// For each place, the most among those from `below` places before it to `above` places after it. Places that
/// come before a greater or equal one are left out as long as that one is in reach, so those that are kept
/// fall.
fn most_about(gains: &[Option<i64>], below: usize, above: usize) -> Vec<Option<i64>> {
    let (mut kept, mut next) = (VecDeque::new(), 0);
    let mut most = Vec::with_capacity(gains.len());
    for place in 0..gains.len() {
        while next < gains.len() && next <= place + above {
            while kept.back().is_some_and(|&last: &usize| gains[last] <= gains[next]) {
                kept.pop_back();
            }
            kept.push_back(next);
            next += 1;
        }
        while kept[0] + below < place {
            kept.pop_front();
        }
        most.push(gains[kept[0]]);
    }
    most
}

/// The values at the ends of hours 0 to T.
fn all_values(case: &Case, costs: Costs) -> Vec<Values> {
    let mut backwards = vec![Values::at_end(case)];
    for k in (1..=case.t).rev() {
        let values = Values::before(case, costs, k, &backwards[case.t - k]);
        backwards.push(values);
    }
    backwards.reverse();
    backwards
}

/// The lists that keep every rule of a case. The case has passed the refusals.
pub struct KeptLists<'a> {
    case: &'a Case,
    costs: Costs<'a>,
    values: Vec<Values>,
}

impl<'a> KeptLists<'a> {
    /// The lists of this case, with F and A for its costs.
    pub fn new(case: &'a Case) -> KeptLists<'a> {
        KeptLists::by(case, Costs::Plain)
    }

    /// The lists of this case with these costs.
    pub fn by(case: &'a Case, costs: Costs<'a>) -> KeptLists<'a> {
        KeptLists { case, costs, values: all_values(case, costs) }
    }

    /// The best list with its profit, the lowest list among equal earners; none if no list keeps every
    /// rule.
    pub fn best(&self) -> Option<Plan> {
        let profit = self.values[0].get(opening(self.case)?)?;
        let list = self.walk(|steps, wanted| steps.iter().copied().find(|&(_, value)| value == wanted));
        Some(Plan { profit, list: list.expect("a state with a value has a step that reaches it") })
    }

    /// A list that begins with these outputs and goes on at random; none if no list that keeps the rules
    /// begins so.
    pub fn draw(&self, rng: &mut Rng, beginning: &[u16]) -> Option<Vec<u16>> {
        let mut given = beginning.iter();
        self.walk(|steps, _| match given.next() {
            Some(&wanted) => steps.iter().copied().find(|&(to, _)| output(self.case, to) == wanted),
            None => steps.get(rng.below(steps.len().max(1) as u64) as usize).copied(),
        })
    }

    /// The list of the steps that are chosen hour by hour, from those after which the day can be ended,
    /// lowest output first, each with what it earns, and from the most that can be earned.
    fn walk(&self, mut choose: impl FnMut(&[Step], i64) -> Option<Step>) -> Option<Vec<u16>> {
        let mut state = opening(self.case)?;
        let mut list = Vec::new();
        for k in 1..=self.case.t {
            let wanted = self.values[k - 1].get(state)?;
            (state, _) = choose(&self.steps(k, state), wanted)?;
            list.push(output(self.case, state));
        }
        Some(list)
    }

    /// The steps of hour k from a state after which the day can be ended, lowest output first.
    fn steps(&self, k: usize, from: State) -> Vec<Step> {
        let mut steps = Vec::new();
        for_each_next(self.case, from, |to| {
            let value = value_of_step(self.case, self.costs, k, (from, to), &self.values[k]);
            steps.extend(value.map(|value| (to, value)));
        });
        steps
    }
}

/// The state that a step leads to, and the most that its hour and those after it can earn.
type Step = (State, i64);

/// The best list with its profit, the lowest list among equal earners; none if no list keeps every
/// rule. The case has passed the refusals.
pub fn best_list(case: &Case) -> Option<Plan> {
    best_list_by(case, Costs::Plain)
}

/// The same with these costs.
pub fn best_list_by(case: &Case, costs: Costs) -> Option<Plan> {
    KeptLists::by(case, costs).best()
}
