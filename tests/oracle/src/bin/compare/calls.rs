//! Each of the ten calls, made twice in guarded memory filled with random numbers, and compared with
//! the answer of the independent scheduler: the answer itself and every lent number.

use crate::board::Board;
use crate::boundary::{
    giqapsun_best, giqapsun_best_by_calendar, giqapsun_best_by_curve, giqapsun_better, giqapsun_check,
    giqapsun_check_by_curve, giqapsun_read, giqapsun_table, giqapsun_work, giqapsun_write,
};
use crate::guard::{Lent, Placement, Region, PLACEMENTS};
use oracle::answers::{self, Reading, Schedule, Verdict};
use oracle::by_curve::{self, Filled};
use oracle::c::Plan;
use oracle::calendar::Calendar;
use oracle::case::Case;
use oracle::curve;
use oracle::curves::Drawn;
use oracle::forecast::Statement;
use oracle::pair::{self, Choice, Outcome};
use oracle::random::Rng;
use std::fmt::Debug;
use std::time::Instant;

/// The calls by name; the last two are a statement on answers of the library, and the independent scheduler where it
/// disagrees with itself.
#[derive(Clone, Copy, Debug, PartialEq, Eq)]
pub enum Name {
    Read,
    Write,
    Check,
    Work,
    Best,
    ByCalendar,
    Better,
    Table,
    CheckByCurve,
    BestByCurve,
    Statement(Statement),
    Independent,
}

impl Name {
    /// A word for titles and names of files.
    pub fn word(self) -> &'static str {
        match self {
            Name::Read => "read",
            Name::Write => "write",
            Name::Check => "check",
            Name::Work => "work",
            Name::Best => "best",
            Name::ByCalendar => "best_by_calendar",
            Name::Better => "better",
            Name::Table => "table",
            Name::CheckByCurve => "check_by_curve",
            Name::BestByCurve => "best_by_curve",
            Name::Statement(statement) => statement.word(),
            Name::Independent => "independent",
        }
    }
}

/// What a call is made with, so that it can be made again.
#[derive(Clone, Copy)]
pub enum Input<'a> {
    File(&'a [u8]),
    Case(&'a Case),
    List(&'a Case, &'a [u16]),
    Pair(&'a Case, Pair<'a>),
    Calendar(&'a Case, Windows<'a>),
    Curve(Drawn),
    ByCurve(&'a Case, Drawn),
    ListByCurve(&'a Case, Drawn, &'a [u16]),
}

impl<'a> Input<'a> {
    /// The case, if there is one.
    pub fn case(&self) -> Option<&'a Case> {
        match *self {
            Input::File(_) | Input::Curve(_) => None,
            Input::Case(case)
            | Input::List(case, _)
            | Input::Pair(case, _)
            | Input::Calendar(case, _)
            | Input::ByCurve(case, _)
            | Input::ListByCurve(case, _, _) => Some(case),
        }
    }

    /// The curve, if there is one.
    pub fn curve(&self) -> Option<Drawn> {
        match *self {
            Input::Curve(drawn) | Input::ByCurve(_, drawn) | Input::ListByCurve(_, drawn, _) => Some(drawn),
            _ => None,
        }
    }
}

/// A calendar: the on-line windows first and the off-line ones second, and the first hour of the day with its number of
/// hours.
#[derive(Clone, Copy)]
pub struct Windows<'a> {
    pub lists: Pair<'a>,
    pub first: u16,
    pub hours: u16,
}

impl<'a> Windows<'a> {
    /// A calendar whose off-line list begins there in the memory of the on-line one, or has memory of its own.
    pub fn new(calendar: &Calendar<'a>, begins: Option<usize>) -> Windows<'a> {
        let Calendar { on, off, first, hours } = *calendar;
        Windows { lists: Pair { first: on, second: off, begins }, first, hours }
    }

    /// The calendar itself.
    pub fn calendar(&self) -> Calendar<'a> {
        Calendar { on: self.lists.first, off: self.lists.second, first: self.first, hours: self.hours }
    }
}

/// Two lists, of outputs to be compared or of windows.
#[derive(Clone, Copy)]
pub struct Pair<'a> {
    pub first: &'a [u16],
    pub second: &'a [u16],
    /// Where in the memory of the first list the second begins, at its end at the latest; none if the second has
    /// memory of its own.
    pub begins: Option<usize>,
}

impl<'a> Pair<'a> {
    /// Two lists in memory of their own.
    pub fn apart(first: &'a [u16], second: &'a [u16]) -> Pair<'a> {
        Pair { first, second, begins: None }
    }

    /// So many outputs from the front of one memory, and those from a place on.
    pub fn in_one(memory: &'a [u16], count: usize, begins: usize) -> Pair<'a> {
        Pair { first: &memory[..count], second: &memory[begins..], begins: Some(begins) }
    }

    /// The memory of both lists, where the second begins so many outputs after the first.
    fn joined(&self, begins: usize) -> Vec<u16> {
        let past = self.first.len().saturating_sub(begins).min(self.second.len());
        [self.first, &self.second[past..]].concat()
    }

    /// The memory in words.
    fn words(&self, what: &str, place: &str) -> String {
        let (first, second) = (self.first.len(), self.second.len());
        match self.begins {
            None => format!("{first} and {second} {what}, each {place}"),
            Some(begins) => {
                format!("{first} and {second} {what}, the second from {begins} on in the memory of the first, {place}")
            }
        }
    }
}

/// A call and the memory that it is lent.
#[derive(Clone, Copy)]
pub struct Call<'a> {
    pub name: Name,
    pub input: Input<'a>,
    /// Numbers lent for a table and to work in, and bytes or outputs lent.
    pub table: usize,
    pub work: usize,
    pub lent: usize,
    pub place: Placement,
}

impl<'a> Call<'a> {
    /// A call that is lent no numbers to work in, before it is placed.
    pub fn new(name: Name, input: Input<'a>, lent: usize) -> Call<'a> {
        Call { name, input, table: 0, work: 0, lent, place: Placement::EndsAtGuard }
    }

    /// The call in words.
    pub fn words(&self) -> String {
        let (table, lent, place) = (self.table, self.lent, self.place.words());
        match self.name {
            Name::Read => format!("giqapsun_read of {lent} bytes {place}"),
            Name::Write => format!("giqapsun_write into {lent} bytes {place}"),
            Name::Check => format!("giqapsun_check of {lent} outputs {place}"),
            Name::Work => format!("giqapsun_work of a record {place}"),
            Name::Best => {
                format!("giqapsun_best with {} numbers and {lent} outputs, each {place}", self.work)
            }
            Name::ByCalendar => match self.input {
                Input::Calendar(_, windows) => format!(
                    "giqapsun_best_by_calendar of {}, with {} numbers and {lent} outputs",
                    windows.lists.words("numbers of windows", place),
                    self.work
                ),
                _ => unreachable!("two lists of windows fill a day"),
            },
            Name::Better => match self.input {
                Input::Pair(_, pair) => format!("giqapsun_better of {}", pair.words("outputs", place)),
                _ => unreachable!("two lists are compared"),
            },
            Name::Table => format!("giqapsun_table into {table} numbers {place}"),
            Name::CheckByCurve => {
                format!("giqapsun_check_by_curve of {lent} outputs, with {table} numbers of a table, each {place}")
            }
            Name::BestByCurve => format!(
                "giqapsun_best_by_curve with {table} numbers of a table, {} to work in and {lent} outputs, \
                 each {place}",
                self.work
            ),
            Name::Statement(statement) => format!("none: {}", statement.words()),
            Name::Independent => "none: the independent scheduler disagrees with itself".to_string(),
        }
    }
}

/// What a call did otherwise than it should, in lines of words.
pub struct Difference<'a> {
    pub call: Call<'a>,
    pub words: String,
}

/// The memory to lend from.
pub struct Memory {
    bytes: Region,
    outputs: Region,
    first: Region,
    second: Region,
    cases: Region,
    table: Region,
    work: Region,
    noise: Rng,
    board: Board,
    /// What the last search and the last check answered, as expected or not.
    pub found: Schedule,
    pub judged: Verdict,
    /// Nanoseconds spent in the library.
    pub library_time: u64,
}

impl Memory {
    /// Maps regions that hold the largest slices of any group.
    pub fn new(board: Board) -> Memory {
        Memory {
            bytes: Region::new(4),
            outputs: Region::new(1),
            first: Region::new(7),
            second: Region::new(4),
            cases: Region::new(1),
            table: Region::new(1),
            work: Region::new(5),
            noise: Rng::for_index(0, 0),
            board,
            found: Schedule { number: 0, profit: 0, list: Vec::new() },
            judged: Verdict { number: 0, hour: 0, rule: 0, profit: 0 },
            library_time: 0,
        }
    }

    /// Fills the memory of the next calls from the seed and index, so that one index alone runs in the
    /// same memory as among others.
    pub fn start(&mut self, seed: u64, index: u64) {
        self.noise = Rng::for_index(!seed, index);
    }

    /// Compares reading a file.
    pub fn read<'a>(&mut self, file: &'a [u8]) -> Result<(), Difference<'a>> {
        let expected = answers::reading(file);
        for place in PLACEMENTS {
            let call = Call { place, ..Call::new(Name::Read, Input::File(file), file.len()) };
            let lent = self.bytes.lend(file, place, &mut self.noise);
            // SAFETY: pointer and count are those of the lent slice.
            let raw = self.made(&call, || unsafe { giqapsun_read(lent.pointer(), lent.count()) });
            same(&call, Reading { number: raw.number, case: raw.case }, expected)?;
            as_wanted(&call, "the file's bytes", &lent, &[])?;
        }
        Ok(())
    }

    /// Compares writing a record into so many bytes.
    pub fn write<'a>(&mut self, case: &'a Case, count: usize) -> Result<(), Difference<'a>> {
        let expected = answers::writing(case, count);
        for place in PLACEMENTS {
            let call = Call { place, ..Call::new(Name::Write, Input::Case(case), count) };
            let noise = self.noise.bytes(count);
            let lent = self.bytes.lend(&noise, place, &mut self.noise);
            // SAFETY: pointer and count are those of the lent slice.
            let raw = self.made(&call, || unsafe { giqapsun_write(*case, lent.pointer(), lent.count()) });
            let given = Written { number: raw.number, length: raw.length };
            same(&call, given, Written { number: expected.number, length: expected.bytes.len() })?;
            as_wanted(&call, "the lent bytes", &lent, &expected.bytes)?;
        }
        Ok(())
    }

    /// Compares the check of a list.
    pub fn check<'a>(&mut self, case: &'a Case, list: &'a [u16]) -> Result<Verdict, Difference<'a>> {
        let expected = answers::verdict(case, list);
        for place in PLACEMENTS {
            let call = Call { place, ..Call::new(Name::Check, Input::List(case, list), list.len()) };
            let lent = self.first.lend(list, place, &mut self.noise);
            // SAFETY: pointer and count are those of the lent slice.
            let raw = self.made(&call, || unsafe { giqapsun_check(*case, lent.pointer(), lent.count()) });
            let (number, hour, rule, profit) = (raw.number, raw.hour, raw.rule, raw.profit);
            self.judged = Verdict { number, hour, rule, profit };
            same(&call, self.judged, expected)?;
            as_wanted(&call, "the list", &lent, &[])?;
        }
        Ok(expected)
    }

    /// Compares the working numbers that a search of a record is to be lent; the case is taken from guarded
    /// memory.
    pub fn work<'a>(&mut self, case: &'a Case) -> Result<(), Difference<'a>> {
        for place in PLACEMENTS {
            let call = Call { place, ..Call::new(Name::Work, Input::Case(case), 0) };
            let record = self.cases.lend(&[*case], place, &mut self.noise);
            // SAFETY: the record is a lent one.
            let given = self.made(&call, || unsafe { giqapsun_work(*record.pointer()) });
            same(&call, given, answers::work(case))?;
            as_wanted(&call, "the case", &record, &[])?;
        }
        Ok(())
    }

    /// Compares the search in so many working numbers and outputs with the expected schedule.
    pub fn best<'a>(
        &mut self,
        case: &'a Case,
        working_numbers: usize,
        outputs: usize,
        expected: &Schedule,
    ) -> Result<(), Difference<'a>> {
        for place in PLACEMENTS {
            let call =
                Call { work: working_numbers, place, ..Call::new(Name::Best, Input::Case(case), outputs) };
            // SAFETY: pointers and counts are those of the lent slices.
            self.search(&call, case, expected, |work, list| unsafe {
                giqapsun_best(*case, work.pointer(), work.count(), list.pointer(), list.count())
            })?;
        }
        Ok(())
    }

    /// Compares the search by a calendar in so many working numbers and outputs with the expected schedule; the case
    /// is taken from guarded memory too.
    pub fn best_by_calendar<'a>(
        &mut self,
        case: &'a Case,
        windows: Windows<'a>,
        (working_numbers, outputs): (usize, usize),
        expected: &Schedule,
    ) -> Result<(), Difference<'a>> {
        let Windows { lists: pair, first, hours } = windows;
        for place in PLACEMENTS {
            let input = Input::Calendar(case, windows);
            let call = Call { work: working_numbers, place, ..Call::new(Name::ByCalendar, input, outputs) };
            let record = self.cases.lend(&[*case], place, &mut self.noise);
            let (on, off, begins) = self.lend_pair(&pair, place);
            // SAFETY: pointers and counts are those of the lent slices, and the record is a lent one.
            self.search(&call, case, expected, |work, list| unsafe {
                giqapsun_best_by_calendar(
                    *record.pointer(),
                    on.pointer(),
                    pair.first.len(),
                    off.pointer().add(begins),
                    pair.second.len(),
                    first,
                    hours,
                    work.pointer(),
                    work.count(),
                    list.pointer(),
                    list.count(),
                )
            })?;
            as_wanted(&call, "the on-line windows", &on, &[])?;
            as_wanted(&call, "the off-line windows", &off, &[])?;
            as_wanted(&call, "the case", &record, &[])?;
        }
        Ok(())
    }

    /// Makes the call of a search in lent numbers and outputs, and compares what it answers and leaves in both.
    fn search<'a>(
        &mut self,
        call: &Call<'a>,
        case: &Case,
        expected: &Schedule,
        make: impl FnOnce(&Lent<i64>, &Lent<u16>) -> Plan,
    ) -> Result<(), Difference<'a>> {
        let noise: Vec<i64> = (0..call.work).map(|_| self.noise.bits() as i64).collect();
        let work = self.work.lend(&noise, call.place, &mut self.noise);
        let noise: Vec<u16> = (0..call.lent).map(|_| self.noise.bits() as u16).collect();
        let list = self.outputs.lend(&noise, call.place, &mut self.noise);
        let raw = self.made(call, || make(&work, &list));
        self.found = answer_with_outputs(raw.number, raw.profit, list.now(), case.t);
        same(call, &self.found, expected)?;
        as_wanted(call, "the outputs", &list, &expected.list)?;
        as_wanted(call, "the working numbers", &work, &vec![0; expected.zeroed_numbers(case)])
    }

    /// Compares the comparison of two lists; the case is taken from guarded memory too.
    pub fn better<'a>(&mut self, case: &'a Case, pair: Pair<'a>) -> Result<Outcome, Difference<'a>> {
        let outcome = pair::outcome(case, pair.first, pair.second);
        for place in PLACEMENTS {
            let input = Input::Pair(case, pair);
            let call = Call { place, ..Call::new(Name::Better, input, pair.first.len()) };
            let record = self.cases.lend(&[*case], place, &mut self.noise);
            let (first, second, begins) = self.lend_pair(&pair, place);
            // SAFETY: pointers and counts are those of the lent slices, and the record is a lent one.
            let raw = self.made(&call, || unsafe {
                let (one, other) = (first.pointer(), second.pointer().add(begins));
                giqapsun_better(*record.pointer(), one, pair.first.len(), other, pair.second.len())
            });
            let (number, which, profit) = (raw.number, raw.which, raw.profit);
            same(&call, Choice { number, which, profit }, outcome.in_numbers())?;
            as_wanted(&call, "the first list", &first, &[])?;
            as_wanted(&call, "the second list", &second, &[])?;
            as_wanted(&call, "the case", &record, &[])?;
        }
        Ok(outcome)
    }

    /// Compares filling the table of a curve in so many lent numbers.
    pub fn fill<'a>(&mut self, drawn: Drawn, count: usize) -> Result<u32, Difference<'a>> {
        let (kind, curve) = drawn;
        let (number, wanted) = curve::filling(kind, &curve, count);
        for place in PLACEMENTS {
            let call = Call { table: count, place, ..Call::new(Name::Table, Input::Curve(drawn), 0) };
            let table = self.lend_table(&call);
            // SAFETY: pointer and count are those of the lent slice.
            let given =
                self.made(&call, || unsafe { giqapsun_table(kind, curve, table.pointer(), table.count()) });
            same(&call, given, number)?;
            as_wanted(&call, "the table", &table, &wanted)?;
        }
        Ok(number)
    }

    /// Compares the check of a list by a curve with so many numbers lent for the table; the case is taken from guarded
    /// memory too.
    pub fn check_by_curve<'a>(
        &mut self,
        case: &'a Case,
        drawn: Drawn,
        list: &'a [u16],
        count: usize,
    ) -> Result<Verdict, Difference<'a>> {
        let (kind, curve) = drawn;
        let expected = by_curve::verdict(case, kind, &curve, list, count);
        for place in PLACEMENTS {
            let input = Input::ListByCurve(case, drawn, list);
            let call = Call { table: count, place, ..Call::new(Name::CheckByCurve, input, list.len()) };
            let record = self.cases.lend(&[*case], place, &mut self.noise);
            let table = self.lend_table(&call);
            let lent = self.first.lend(list, place, &mut self.noise);
            // SAFETY: pointers and counts are those of the lent slices, and the record is a lent one.
            let raw = self.made(&call, || unsafe {
                let (outputs, costs) = ((lent.pointer(), lent.count()), (table.pointer(), table.count()));
                giqapsun_check_by_curve(
                    *record.pointer(),
                    kind,
                    curve,
                    outputs.0,
                    outputs.1,
                    costs.0,
                    costs.1,
                )
            });
            let (number, hour, rule, profit) = (raw.number, raw.hour, raw.rule, raw.profit);
            self.judged = Verdict { number, hour, rule, profit };
            same(&call, self.judged, expected.answer)?;
            as_wanted(&call, "the list", &lent, &[])?;
            as_wanted(&call, "the table", &table, &expected.table)?;
            as_wanted(&call, "the case", &record, &[])?;
        }
        Ok(expected.answer)
    }

    /// Compares the search by a curve in this memory with the expected schedule and table; the case is taken from
    /// guarded memory too.
    pub fn best_by_curve<'a>(
        &mut self,
        case: &'a Case,
        drawn: Drawn,
        lent: by_curve::Lent,
        expected: &Filled<Schedule>,
    ) -> Result<(), Difference<'a>> {
        let (kind, curve) = drawn;
        for place in PLACEMENTS {
            let call = Call {
                table: lent.table,
                work: lent.numbers,
                place,
                ..Call::new(Name::BestByCurve, Input::ByCurve(case, drawn), lent.outputs)
            };
            let record = self.cases.lend(&[*case], place, &mut self.noise);
            let table = self.lend_table(&call);
            // SAFETY: pointers and counts are those of the lent slices, and the record is a lent one.
            self.search(&call, case, &expected.answer, |work, list| unsafe {
                giqapsun_best_by_curve(
                    *record.pointer(),
                    kind,
                    curve,
                    table.pointer(),
                    table.count(),
                    work.pointer(),
                    work.count(),
                    list.pointer(),
                    list.count(),
                )
            })?;
            as_wanted(&call, "the table", &table, &expected.table)?;
            as_wanted(&call, "the case", &record, &[])?;
        }
        Ok(())
    }

    /// Lends the numbers of a table, filled at random.
    fn lend_table(&mut self, call: &Call) -> Lent<i64> {
        let noise: Vec<i64> = (0..call.table).map(|_| self.noise.bits() as i64).collect();
        self.table.lend(&noise, call.place, &mut self.noise)
    }

    /// Lends two lists, and says where in the memory of the second the list begins. In one memory, both are that
    /// memory.
    fn lend_pair(&mut self, pair: &Pair, place: Placement) -> (Lent<u16>, Lent<u16>, usize) {
        match pair.begins {
            None => {
                let first = self.first.lend(pair.first, place, &mut self.noise);
                (first, self.second.lend(pair.second, place, &mut self.noise), 0)
            }
            Some(begins) => {
                let both = self.first.lend(&pair.joined(begins), place, &mut self.noise);
                (both.clone(), both, begins)
            }
        }
    }

    /// Makes a call, says so on the board, and adds the time it took.
    fn made<N>(&mut self, call: &Call, make: impl FnOnce() -> N) -> N {
        self.board.enter(call);
        let begun = Instant::now();
        let answer = make();
        self.library_time += begun.elapsed().as_nanos() as u64;
        self.board.leave();
        answer
    }
}

/// What writing answers, without the bytes.
#[derive(Debug, PartialEq)]
struct Written {
    number: u32,
    length: usize,
}

/// A given answer, with the first T outputs where the call says that it found a list.
fn answer_with_outputs(number: u32, profit: i64, outputs: &[u16], t: usize) -> Schedule {
    let stated = if number == 0 { t.min(outputs.len()) } else { 0 };
    Schedule { number, profit, list: outputs[..stated].to_vec() }
}

/// The two answers must be the same.
fn same<'a, N: PartialEq + Debug>(call: &Call<'a>, given: N, expected: N) -> Result<(), Difference<'a>> {
    if given == expected {
        return Ok(());
    }
    Err(Difference { call: *call, words: format!("  given     {given:?}\n  expected  {expected:?}") })
}

/// The lent memory must hold the wanted numbers first, and past them what was lent.
fn as_wanted<'a, N: Copy + PartialEq + Debug>(
    call: &Call<'a>,
    what: &str,
    lent: &Lent<N>,
    wanted: &[N],
) -> Result<(), Difference<'a>> {
    if lent.holds(wanted) {
        return Ok(());
    }
    let (stated, count) = (wanted.len(), lent.count());
    let found = match lent.first_wrong(wanted) {
        Some(i) => format!("{what}: number {i} of {count} is {:?}", lent.now()[i]),
        None => format!("memory beside {what} has changed"),
    };
    let expected = format!("the first {stated} as stated, all others as lent");
    Err(Difference { call: *call, words: format!("  given     {found}\n  expected  {expected}") })
}
