//! What the process that makes the calls tells the one that watches it, in memory that both see: how far it is, what
//! it has counted, and the call that it is making.

use crate::calls::{Call, Input, Name, Pair, Windows};
use crate::guard::{shared_bytes, Placement};
use crate::kinds::Counts;
use oracle::case::Case;
use oracle::curves::Drawn;
use std::sync::atomic::{AtomicU64, Ordering};

/// Most bytes of a file and most numbers of a list that are kept; longer ones are kept in part.
const MOST_BYTES: usize = 262_144;
const MOST_NUMBERS: usize = 32_768;

/// Counts of a group.
#[derive(Clone, Copy, Default)]
pub struct Tally {
    pub passed: u64,
    pub failed: u64,
    /// Differences that were printed.
    pub shown: u64,
    /// Verdicts by rule broken first, those broken at hour 0, and refusals by number.
    pub breaches: [u64; 24],
    pub at_hour_0: u64,
    pub refusals: [u64; 17],
    /// What was met, by kind.
    pub kinds: Counts,
    /// Nanoseconds spent in the library.
    pub library_time: u64,
}

/// The call that is being made, without references.
#[derive(Clone, Copy)]
struct Kept {
    name: Name,
    place: Placement,
    table: usize,
    work: usize,
    lent: usize,
    case: Option<Case>,
    bytes: usize,
    list: Option<usize>,
    /// The second list of a pair, and where it begins in the memory of the first.
    second: Option<usize>,
    begins: Option<usize>,
    /// First hour and number of hours of the day whose windows the pair is.
    day: Option<(u16, u16)>,
    curve: Option<Drawn>,
}

impl Kept {
    /// The input of a call that was made with a curve, and with this list if with one.
    fn input_by_curve<'a>(&'a self, list: &'a [u16]) -> Input<'a> {
        let drawn = self.curve.expect("the call was made with a curve");
        match (&self.case, self.list) {
            (None, _) => Input::Curve(drawn),
            (Some(case), None) => Input::ByCurve(case, drawn),
            (Some(case), Some(_)) => Input::ListByCurve(case, drawn, list),
        }
    }
}

/// An input by its parts.
#[derive(Default)]
struct Parts<'a> {
    case: Option<&'a Case>,
    bytes: &'a [u8],
    list: Option<&'a [u16]>,
    second: Option<&'a [u16]>,
    begins: Option<usize>,
    day: Option<(u16, u16)>,
    curve: Option<Drawn>,
}

impl<'a> Parts<'a> {
    /// The parts of this input.
    fn of(input: &Input<'a>) -> Parts<'a> {
        match *input {
            Input::File(bytes) => Parts { bytes, ..Parts::default() },
            Input::Case(case) => Parts { case: Some(case), ..Parts::default() },
            Input::List(case, list) => Parts { case: Some(case), list: Some(list), ..Parts::default() },
            Input::Pair(case, pair) => Parts::of_pair(case, pair),
            Input::Calendar(case, Windows { lists, first, hours }) => {
                Parts { day: Some((first, hours)), ..Parts::of_pair(case, lists) }
            }
            Input::Curve(drawn) => Parts { curve: Some(drawn), ..Parts::default() },
            Input::ByCurve(case, drawn) => Parts { case: Some(case), curve: Some(drawn), ..Parts::default() },
            Input::ListByCurve(case, drawn, list) => {
                Parts { case: Some(case), list: Some(list), curve: Some(drawn), ..Parts::default() }
            }
        }
    }

    /// The parts of two lists.
    fn of_pair(case: &'a Case, Pair { first, second, begins }: Pair<'a>) -> Parts<'a> {
        let (list, second) = (Some(first), Some(second));
        Parts { case: Some(case), list, second, begins, ..Parts::default() }
    }
}

/// The memory itself.
struct Shared {
    /// Counted up before a call and after it, so that it is odd while a call is made.
    steps: AtomicU64,
    index: AtomicU64,
    finished: AtomicU64,
    tally: Tally,
    kept: Kept,
    bytes: [u8; MOST_BYTES],
    list: [u16; MOST_NUMBERS],
    second: [u16; MOST_NUMBERS],
}

/// A handle on the memory.
#[derive(Clone, Copy)]
pub struct Board(*mut Shared);

impl Board {
    /// A board of zeros.
    pub fn new() -> Board {
        Board(shared_bytes(std::mem::size_of::<Shared>()).cast())
    }

    /// The counters, which both processes may use at once.
    fn counters(&self) -> &Shared {
        // SAFETY: the memory is mapped for good, and zeros are a valid beginning.
        unsafe { &*self.0 }
    }

    /// Says that a run begins, with the counts so far.
    pub fn begin(&self, tally: &Tally) {
        self.counters().steps.store(0, Ordering::SeqCst);
        self.counters().finished.store(0, Ordering::SeqCst);
        self.keep(tally);
    }

    /// Says which index runs.
    pub fn reach(&self, index: u64) {
        self.counters().index.store(index, Ordering::SeqCst);
    }

    /// Says that all indices were run.
    pub fn finish(&self) {
        self.counters().finished.store(1, Ordering::SeqCst);
    }

    /// Keeps the counts.
    pub fn keep(&self, tally: &Tally) {
        // SAFETY: only the process that makes the calls writes, and the other one reads after its end. Volatile, since
        // a call may end the process.
        unsafe { std::ptr::addr_of_mut!((*self.0).tally).write_volatile(*tally) }
    }

    /// Says that a call is made.
    pub fn enter(&self, call: &Call) {
        let Parts { case, bytes, list, second, begins, day, curve } = Parts::of(&call.input);
        let kept = Kept {
            name: call.name,
            place: call.place,
            table: call.table,
            work: call.work,
            lent: call.lent,
            case: case.copied(),
            bytes: bytes.len().min(MOST_BYTES),
            list: list.map(|list| list.len().min(MOST_NUMBERS)),
            second: second.map(|list| list.len().min(MOST_NUMBERS)),
            begins,
            day,
            curve,
        };
        // SAFETY: as for the counts; what is copied has room.
        unsafe {
            std::ptr::addr_of_mut!((*self.0).kept).write_volatile(kept);
            let room = std::ptr::addr_of_mut!((*self.0).bytes).cast::<u8>();
            room.copy_from_nonoverlapping(bytes.as_ptr(), kept.bytes);
            let room = std::ptr::addr_of_mut!((*self.0).list).cast::<u16>();
            room.copy_from_nonoverlapping(list.unwrap_or(&[]).as_ptr(), kept.list.unwrap_or(0));
            let room = std::ptr::addr_of_mut!((*self.0).second).cast::<u16>();
            room.copy_from_nonoverlapping(second.unwrap_or(&[]).as_ptr(), kept.second.unwrap_or(0));
        }
        self.counters().steps.fetch_add(1, Ordering::SeqCst);
    }

    /// Says that the call has returned.
    pub fn leave(&self) {
        self.counters().steps.fetch_add(1, Ordering::SeqCst);
    }

    /// How many times a call was entered or left; odd while one is made.
    pub fn steps(&self) -> u64 {
        self.counters().steps.load(Ordering::SeqCst)
    }

    /// The index that was reached.
    pub fn index(&self) -> u64 {
        self.counters().index.load(Ordering::SeqCst)
    }

    /// Whether all indices were run.
    pub fn finished(&self) -> bool {
        self.counters().finished.load(Ordering::SeqCst) == 1
    }

    /// The counts, once the other process has ended.
    pub fn tally(&self) -> Tally {
        self.counters().tally
    }

    /// The call that the other process ended in; none if it was making none.
    pub fn call(&self) -> Option<Call<'_>> {
        if self.steps() & 1 == 0 {
            return None;
        }
        let shared = self.counters();
        let kept = &shared.kept;
        let list = &shared.list[..kept.list.unwrap_or(0)];
        let second = &shared.second[..kept.second.unwrap_or(0)];
        let lists = Pair { first: list, second, begins: kept.begins };
        let input = match (&kept.case, kept.list, kept.second, kept.day) {
            _ if kept.curve.is_some() => kept.input_by_curve(list),
            (None, _, _, _) => Input::File(&shared.bytes[..kept.bytes]),
            (Some(case), None, _, _) => Input::Case(case),
            (Some(case), Some(_), None, _) => Input::List(case, list),
            (Some(case), Some(_), Some(_), None) => Input::Pair(case, lists),
            (Some(case), Some(_), Some(_), Some((first, hours))) => {
                Input::Calendar(case, Windows { lists, first, hours })
            }
        };
        let Kept { name, place, table, work, lent, .. } = *kept;
        Some(Call { name, place, table, work, lent, input })
    }
}
