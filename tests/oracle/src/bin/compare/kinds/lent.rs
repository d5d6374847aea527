//! The kinds of memory that a search is lent (request F-6): how many numbers, by the minimum times that ask
//! for them.

use super::{kind, Kind};
use oracle::case::Case;
use oracle::refusals::SHORT_TIME;

/// A search, what it was lent, its number, and whether the day has a list.
pub struct Met {
    pub case: Case,
    pub numbers: usize,
    pub outputs: usize,
    pub number: u32,
    pub has_list: bool,
}

/// Whether the minimum up time, and the minimum down time, is above 8 hours.
type Locks = (bool, bool);

/// Both minimum times at most 8; the one or the other above; both above.
const NEITHER: Locks = (false, false);
const UP: Locks = (true, false);
const DOWN: Locks = (false, true);
const BOTH: Locks = (true, true);

/// All kinds.
pub const KINDS: [Kind<Met>; 31] = [
    kind("at most 8: 8,191 numbers", |met| met.is(NEITHER, 8_191, 10) && met.has_list),
    kind("8,191 and no list", |met| met.is(NEITHER, 8_191, 10) && !met.has_list),
    kind("8,192", |met| met.is(NEITHER, 8_192, 0)),
    kind("8,192 and no list", |met| met.is(NEITHER, 8_192, 11)),
    kind("8,193", |met| met.is(NEITHER, 8_193, 0)),
    kind("32,767", |met| met.is(NEITHER, 32_767, 0)),
    kind("32,768", |met| met.is(NEITHER, 32_768, 0)),
    kind("32,769", |met| met.is(NEITHER, 32_769, 0)),
    kind("32,769 and no list", |met| met.is(NEITHER, 32_769, 11)),
    kind("both times 8, 8,192", |met| met.is(NEITHER, 8_192, 0) && met.has_times(8, 8)),
    kind("up above 8: 8,191", |met| met.is(UP, 8_191, 10)),
    kind("up: 8,192", |met| met.is(UP, 8_192, 10) && met.has_list),
    kind("up: 8,192 and no list", |met| met.is(UP, 8_192, 10) && !met.has_list),
    kind("up: 32,767", |met| met.is(UP, 32_767, 10) && met.has_list),
    kind("up: 32,767 and no list", |met| met.is(UP, 32_767, 10) && !met.has_list),
    kind("up: 32,768", |met| met.is(UP, 32_768, 0)),
    kind("up: 32,768 and no list", |met| met.is(UP, 32_768, 11)),
    kind("up: 32,769", |met| met.is(UP, 32_769, 0)),
    kind("up 9 and down 8, 32,767", |met| met.is(UP, 32_767, 10) && met.has_times(9, 8)),
    kind("down above 8: 8,192", |met| met.is(DOWN, 8_192, 10) && met.has_list),
    kind("down: 8,192 and no list", |met| met.is(DOWN, 8_192, 10) && !met.has_list),
    kind("down: 32,767", |met| met.is(DOWN, 32_767, 10)),
    kind("down: 32,768", |met| met.is(DOWN, 32_768, 0)),
    kind("down: 32,768 and no list", |met| met.is(DOWN, 32_768, 11)),
    kind("down: 32,769", |met| met.is(DOWN, 32_769, 0)),
    kind("up 8 and down 9, 32,767", |met| met.is(DOWN, 32_767, 10) && met.has_times(8, 9)),
    kind("both above 8: 8,193", |met| met.is(BOTH, 8_193, 10)),
    kind("both: 32,767", |met| met.is(BOTH, 32_767, 10)),
    kind("both: 32,768", |met| met.is(BOTH, 32_768, 0)),
    kind("outputs short alone, above 8", |met| met.is_short_of_outputs(BOTH, 32_768)),
    kind("outputs short alone, at most 8", |met| met.is_short_of_outputs(NEITHER, 8_192)),
];

impl Met {
    /// Whether minimum times above 8 are these, and so many numbers are lent.
    fn has(&self, locks: Locks, numbers: usize) -> bool {
        let met = (self.case.min_up > SHORT_TIME, self.case.min_down > SHORT_TIME);
        met == locks && self.numbers == numbers
    }

    /// Whether they gave this answer, with outputs enough.
    fn is(&self, locks: Locks, numbers: usize, number: u32) -> bool {
        self.has(locks, numbers) && self.number == number && self.outputs >= self.case.t
    }

    /// Whether fewer outputs than T are lent.
    fn is_short_of_outputs(&self, locks: Locks, numbers: usize) -> bool {
        self.has(locks, numbers) && self.number == 10 && self.outputs < self.case.t
    }

    /// Whether these are the minimum times.
    fn has_times(&self, up: u16, down: u16) -> bool {
        (self.case.min_up, self.case.min_down) == (up, down)
    }
}
