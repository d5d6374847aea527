//! The row steps of a search, counted by the loops of crates `search`, `layers`, `kept`, `locks` and `slots`;
//! and the most that any day within the limits can take, over every width, lock and length and every walk
//! through starts and stops.

use crate::unit::{locks, Unit, OUTPUTS, PLACES, SIDE};
use giqapsun::{working_numbers, Case, HOURS, SHORT_TIME, WORK, WORK_MOST};

/// The fewest hours from the end of a lock to the beginning of the next: a stop and a start.
const GAP: usize = 2;

/// What the loops look at.
struct Loops {
    /// The hours of the day.
    hours: usize,
    /// From one layer that has a slot to the next.
    stride: usize,
    /// The hours to go before a stop may begin, just after a start.
    lock: usize,
}

/// What is kept of the hours ahead.
#[derive(Default)]
struct Held {
    /// The end of the lock whose rows they are; 0 where they are layers.
    end: usize,
    /// The hour before which they end.
    to: usize,
}

impl Loops {
    /// Those of a day of so many hours and outputs, in so many working numbers.
    fn of(hours: usize, cells: usize, lock: usize, room: usize) -> Loops {
        Loops { hours, stride: hours.div_ceil((room / (cells + SIDE)).min(hours)), lock }
    }

    /// Back from the end of the day, with the worth of a start in each hour.
    fn back(&self) -> usize {
        self.hours + self.lock.min(self.hours) + self.hours.saturating_sub(self.lock) * self.lock
    }

    /// The first hour from this one on whose layer has a slot, or the end of the day.
    fn base(&self, hour: usize) -> usize {
        hour.next_multiple_of(self.stride).min(self.hours)
    }

    /// The choice of hour k with so many hours to go. Inside a lock it looks at a row of the lock, outside at
    /// the layer after the hour, which may have a slot. Where it is not there, those of as many hours as have
    /// places are made, down from the next layer that has a slot, in place of what is kept.
    fn choice(&self, k: usize, lock: usize, held: &mut Held) -> usize {
        let after = k + 1;
        let end = (k + lock.max(1)).min(self.hours);
        let base = self.base(end);
        let (kind, last) = if after < end { (end, end) } else { (0, base) };
        if last == after || held.end == kind && after < held.to {
            return 0;
        }
        *held = Held { end: kind, to: last.min(after + PLACES) };
        base - after
    }

    /// A lock of so many hours from hour k on, or hour k outside a lock where they are 0: row steps, the hour
    /// after it, and whether layers are there then, as they may be before. There are places for all that lie
    /// between two slots, so those that are there go up to the next slot, or the end of the day.
    fn pass(&self, k: usize, lock: usize, there: bool) -> (usize, usize, bool) {
        assert!(self.stride <= PLACES + 1, "more layers between two slots than places");
        let end = (k + lock.max(1)).min(self.hours);
        let mut held = Held { end: 0, to: if there { self.base(k + 1) } else { 0 } };
        let steps = (k..end).map(|h| self.choice(h, k + lock - h, &mut held)).sum();
        (steps, end, held.end == 0 && end + 1 < held.to)
    }

    /// The most of a walk that opens with at least an hour before its first lock, the last of a start, or in
    /// a lock.
    fn walk(&self) -> usize {
        // the most from each hour on, outside a lock, with so many hours to wait before the next may begin,
        // where layers are not there and where they are
        let mut most = [[[0; 2]; GAP + 1]; HOURS + 1];
        let from = |most: &[[[usize; 2]; GAP + 1]], k: usize, lock: usize, there: bool, wait: usize| {
            let (steps, end, there) = self.pass(k, lock, there);
            steps + most[end][wait][usize::from(there)]
        };
        for k in (0..self.hours).rev() {
            for there in [false, true] {
                for wait in 0..=GAP {
                    most[k][wait][usize::from(there)] = from(&most, k, 0, there, wait.saturating_sub(1));
                }
                if self.lock > 0 {
                    let locked = from(&most, k, self.lock, there, GAP);
                    let free = &mut most[k][0][usize::from(there)];
                    *free = locked.max(*free);
                }
            }
        }
        (1..=self.lock).map(|lock| from(&most, 0, lock, false, GAP)).fold(most[0][1][0], usize::max)
    }
}

/// The row steps of the search that finds this list.
pub fn count(case: &Case, list: &[u16]) -> usize {
    let unit = Unit::of(case);
    let loops = Loops::of(case.hours, unit.cells, unit.lock, working_numbers(case));
    let mut held = Held::default();
    let forward =
        locks(&unit, list).into_iter().enumerate().map(|(k, lock)| loops.choice(k, lock, &mut held));
    loops.back() + forward.sum::<usize>()
}

/// The most row steps of any day of up to so many hours, with minimum times of up to so many. Only days with
/// trajectories of one entry each and a minimum down time of 1 are gone through: others have locks that are
/// no longer, rows that are no wider and more hours between two locks, so each of their walks is one of
/// these. Where they have a lock of up to 7 hours in the more working numbers, a day in the fewer with
/// narrower rows has slots as far apart: every distance from 1 to that of the widest row is that of some row.
/// Orders for all hours make a day take any walk, so one takes the most.
pub fn most(hours: usize, times: usize) -> usize {
    let mut most = 0;
    for minup in 1..=times {
        let room = if minup <= usize::from(SHORT_TIME) { WORK } else { WORK_MOST };
        for hours in 1..=hours {
            let mut stride = 0;
            for cells in 1..=OUTPUTS {
                let loops = Loops::of(hours, cells, minup - 1, room);
                if loops.stride > stride {
                    stride = loops.stride;
                    most = most.max(loops.back() + loops.walk());
                }
            }
        }
    }
    most
}
