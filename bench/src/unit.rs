//! The unit of a case, its states from hour to hour, and what an hour earns: what each programme of the
//! recurrence needs.

use giqapsun::boundary::{HOURS, STAGES};
use giqapsun::Case;

/// The most outputs that a unit has.
pub const OUTPUTS: usize = 400;

/// The longest minimum time.
pub const TIME: usize = 24;

/// The hours whose rows are kept at once while the plan goes forward: half of those of the longest lock.
pub const PLACES: usize = 11;

/// No list keeps the rules from here.
pub const NONE: i64 = i64::MIN / 4;

/// Below every worth, and below none with whatever a day adds to it.
pub const LEAST: i64 = 2 * NONE;

/// Numbers for the states off-line and in a sequence: hours off-line from 0, the start-up, the shut-down.
pub const SIDE: usize = TIME + 1 + 2 * STAGES;

/// Hours of a day and its end.
pub const ENDS: usize = HOURS + 1;

/// What does not change from hour to hour.
pub struct Unit<'a> {
    /// The case itself.
    pub case: &'a Case,
    /// The minimum output.
    pub low: usize,
    /// The outputs from minimum to capacity.
    pub cells: usize,
    /// The hours to go before a stop may begin, just after a start.
    pub lock: usize,
    /// The minimum down time.
    pub rest: usize,
    /// Entries of the start-up trajectory.
    pub rises: usize,
    /// Entries of the shut-down trajectory.
    pub falls: usize,
}

/// Where the unit stands at the end of an hour.
#[derive(Clone, Copy)]
pub enum State {
    /// Off-line for so many hours, counted up to the minimum down time.
    Off(usize),
    /// At an entry of the start-up trajectory before its last.
    Rise(usize),
    /// At an output, counted from the minimum, with so many hours to go before a stop may begin.
    Run(usize, usize),
    /// At an entry of the shut-down trajectory from its second.
    Fall(usize),
}

impl<'a> Unit<'a> {
    /// The unit of a case.
    pub fn of(case: &'a Case) -> Unit<'a> {
        let (rises, falls) = (case.rises, case.falls);
        Unit {
            case,
            low: usize::from(case.minimum),
            cells: usize::from(case.capacity - case.minimum) + 1,
            lock: (usize::from(case.minup) + 1).saturating_sub(rises + falls),
            rest: usize::from(case.mindown),
            rises,
            falls,
        }
    }

    /// The state in which the day opens; none in a stop that comes before the minimum up time.
    pub fn opening(&self) -> Option<State> {
        let (initial, elapsed) = (usize::from(self.case.initial), usize::from(self.case.elapsed));
        let (up, down) = (usize::from(self.case.upstage), usize::from(self.case.downstage));
        let minup = usize::from(self.case.minup);
        if up > 0 {
            return Some(State::Rise(up - 1));
        }
        if down > 0 {
            return (elapsed + self.falls - down >= minup).then_some(State::Fall(down - 1));
        }
        if initial == 0 {
            return Some(State::Off(elapsed.min(self.rest)));
        }
        Some(State::Run(initial - self.low, (minup + 1).saturating_sub(elapsed + self.falls)))
    }

    /// The state at the start-up's entry i.
    pub fn risen(&self, i: usize) -> State {
        if i + 1 < self.rises {
            State::Rise(i)
        } else {
            State::Run(0, self.lock)
        }
    }

    /// The state at the shut-down's entry i, or past its end.
    pub fn fallen(&self, i: usize) -> State {
        if i < self.falls {
            State::Fall(i)
        } else {
            State::Off(1)
        }
    }

    /// The output at the shut-down's entry i, 0 past its end.
    pub fn sunk(&self, i: usize) -> usize {
        if i < self.falls {
            usize::from(self.case.fall[i])
        } else {
            0
        }
    }

    /// The state after an output.
    pub fn follow(&self, state: State, p: usize) -> State {
        match state {
            State::Off(d) if p == 0 => State::Off((d + 1).min(self.rest)),
            State::Off(_) => self.risen(0),
            State::Rise(i) => self.risen(i + 1),
            State::Run(_, j) if p >= self.low => State::Run(p - self.low, j.saturating_sub(1)),
            State::Run(..) => self.fallen(1),
            State::Fall(i) => self.fallen(i + 1),
        }
    }

    /// What a half-megawatt-hour earns in hour k.
    pub fn margin(&self, k: usize) -> i64 {
        i64::from(self.case.prices[k]) - i64::from(self.case.variable)
    }

    /// What an hour on-line costs beside its energy.
    pub fn hold(&self) -> i64 {
        2 * i64::from(self.case.fixed)
    }

    /// What hour k earns from output q to p.
    pub fn gain(&self, k: usize, q: usize, p: usize) -> i64 {
        let charge = match (q, p) {
            (0, 0) => 0,
            (_, 0) => 2 * i64::from(self.case.stopcost),
            (0, _) => self.hold() + 2 * i64::from(self.case.startcost),
            _ => self.hold(),
        };
        self.margin(k) * (q + p) as i64 - charge
    }

    /// Whether the order of hour k allows the output.
    pub fn allowed(&self, k: usize, p: usize) -> bool {
        match self.case.orders[k] {
            1 => p > 0,
            2 => p == 0,
            _ => true,
        }
    }
}

/// The hours to go before a stop may begin, before each hour of a list that keeps the rules.
pub fn locks(unit: &Unit, list: &[u16]) -> Vec<usize> {
    let mut state = unit.opening().expect("a day with a list opens");
    let mut locks = Vec::with_capacity(list.len());
    for &p in list {
        locks.push(if let State::Run(_, j) = state { j } else { 0 });
        state = unit.follow(state, usize::from(p));
    }
    locks
}
