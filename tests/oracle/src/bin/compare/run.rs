//! A run of comparisons: what it counts, and which differences it prints.

use crate::board::{Board, Tally};
use crate::calls::{Call, Difference, Input, Memory, Name, Pair, Windows};
use crate::kinds::records::Asked;
use crate::kinds::{
    calendars, curve_days, curves, days, files, lent, lists, locked_lists, locks, pairs, records, stages,
    Family, FAMILIES,
};
use crate::report::{show, Source};
use oracle::answers::{self, Schedule, Verdict};
use oracle::best::Plan;
use oracle::by_curve::{Filled, Lent};
use oracle::case::Case;
use oracle::curves::Drawn;
use oracle::file;
use oracle::lists::{any_list, disturb, walk};
use oracle::random::Rng;
use oracle::refusals::SHORT_TIME;
use oracle::rules::RULES;
use std::fmt::Debug;

/// Most differences of a group that are printed.
pub const MOST_SHOWN: u64 = 10;

/// Everything that a running index needs and counts.
pub struct Run {
    pub memory: Memory,
    pub tally: Tally,
    board: Board,
    seed: u64,
    index: u64,
    source: Source,
    /// Calls and cases of this index whose difference was printed.
    told: Vec<(Name, String)>,
}

impl Run {
    /// A run that goes on counting.
    pub fn new(board: Board, seed: u64, tally: Tally) -> Run {
        let mut memory = Memory::new(board);
        memory.library_time = tally.library_time;
        Run { memory, tally, board, seed, index: 0, source: Source::default(), told: Vec::new() }
    }

    /// Begins an index.
    pub fn start(&mut self, index: u64, source: Source) {
        self.board.reach(index);
        self.memory.start(self.seed, index);
        (self.index, self.source) = (index, source);
        self.told.clear();
    }

    /// Random numbers of this index.
    pub fn rng(&self) -> Rng {
        Rng::for_index(self.seed, self.index)
    }

    /// Counts a comparison, and prints a difference.
    pub fn note(&mut self, result: Result<(), Difference>) {
        self.note_row(result, &[]);
    }

    /// The same of the answers at the case's prices, at a second row and half-way.
    pub fn note_row(&mut self, result: Result<(), Difference>, row: &[i32]) {
        match result {
            Ok(()) => self.tally.passed += 1,
            Err(difference) => {
                self.tally.failed += 1;
                self.tell(&difference, row);
            }
        }
        self.tally.library_time = self.memory.library_time;
        self.board.keep(&self.tally);
    }

    /// Prints a difference, once for each case and call, and the first of the group only.
    fn tell(&mut self, difference: &Difference, row: &[i32]) {
        let case = match difference.call.input {
            Input::File(bytes) => format!("{bytes:?}"),
            input => format!("{:?} {:?}", input.case(), input.curve()),
        };
        let about = (difference.call.name, case);
        if self.tally.shown < MOST_SHOWN && !self.told.contains(&about) {
            self.tally.shown += 1;
            show(&self.source, &difference.call, &difference.words, row);
            self.told.push(about);
        }
    }

    /// The independent scheduler must agree with the papers, and its searches among themselves.
    pub fn independent<N: PartialEq + Debug>(&mut self, case: &Case, given: &N, expected: &N) {
        let words = || format!("  given     {given:?}\n  expected  {expected:?}");
        let call = Call::new(Name::Independent, Input::Case(case), 0);
        let result = if given == expected { Ok(()) } else { Err(Difference { call, words: words() }) };
        self.note(result);
    }

    /// Compares the check of one list, and counts the verdict.
    pub fn check(&mut self, case: &Case, list: &[u16]) {
        let result = self.memory.check(case, list);
        if let Ok(verdict) = &result {
            self.count(verdict);
            if verdict.number == 0 {
                self.tally.kinds.list(&lists::Met::new(case, list, verdict));
            }
            if verdict.number == 0 && has_long_time(case) {
                self.tally.kinds.locked_list(&locked_lists::Met::new(case, list, verdict));
            }
        }
        self.note(result.map(|_| ()));
    }

    /// Counts a verdict by its rule or number.
    fn count(&mut self, verdict: &Verdict) {
        match verdict.number {
            0 => {
                self.tally.breaches[verdict.rule as usize] += 1;
                self.tally.at_hour_0 += u64::from(verdict.rule > 0 && verdict.hour == 0);
            }
            number => self.tally.refusals[number as usize] += 1,
        }
    }

    /// Compares the comparison of two lists, and counts the kinds of the pair.
    pub fn better(&mut self, case: &Case, pair: Pair) {
        let result = self.memory.better(case, pair);
        if let Ok(outcome) = result {
            self.tally.kinds.pair(&pairs::Met::new(case, &pair, outcome));
        }
        self.note(result.map(|_| ()));
    }

    /// Compares the search in just enough memory, and counts the kinds of the day.
    pub fn best(&mut self, case: &Case, expected: &Schedule) {
        self.tally.refusals[expected.number as usize] += 1;
        let result = self.memory.best(case, answers::work(case), case.t, expected);
        if result.is_ok() {
            self.tally.kinds.day(&days::Met::new(case, expected));
            self.tally.kinds.stage(&stages::Met::new(case, expected));
        }
        if result.is_ok() && (case.t > 48 || has_long_time(case)) {
            self.tally.kinds.lock(&locks::Met::new(case, expected));
        }
        self.note(result);
    }

    /// Compares the search in so many numbers and outputs of a day whose best list is known, and counts the
    /// kinds of what was lent.
    pub fn best_in(&mut self, case: &Case, numbers: usize, outputs: usize, found: &Option<Plan>) {
        let expected = answers::schedule(case, numbers, outputs, |_| found.clone());
        let result = self.memory.best(case, numbers, outputs, &expected);
        if result.is_ok() {
            let (number, has_list) = (expected.number, found.is_some());
            self.tally.kinds.lent(&lent::Met { case: *case, numbers, outputs, number, has_list });
        }
        self.note(result);
    }

    /// Compares the working numbers that a search of a record is to be lent.
    pub fn work(&mut self, case: &Case) {
        let result = self.memory.work(case);
        self.note(result);
    }

    /// Compares the search by a calendar in so many numbers and outputs, and counts the kinds of the calendar. A day
    /// that can be filled is searched once more with the orders written into the case, which must give the same.
    /// `own` is what the case's own orders give, where it is known.
    pub fn by_calendar(
        &mut self,
        case: &Case,
        windows: Windows,
        lent: (usize, usize),
        expected: &Schedule,
        own: Option<&Schedule>,
    ) {
        let result = self.memory.best_by_calendar(case, windows, lent, expected);
        if result.is_ok() {
            self.tally.refusals[expected.number as usize] += 1;
            self.tally.kinds.calendar(&calendars::Met::new(case, &windows, lent, expected, own));
        }
        self.note(result);
        if let Ok(filled) = windows.calendar().filled(case) {
            let result = self.memory.best(&filled, lent.0, lent.1, expected);
            self.note(result);
        }
    }

    /// Compares filling a table in so many lent numbers, and counts the kinds of the curve.
    pub fn fill(&mut self, drawn: Drawn, lent: usize) {
        let result = self.memory.fill(drawn, lent);
        if let Ok(number) = result {
            self.tally.refusals[number as usize] += 1;
            self.tally.kinds.curve(&curves::Met::new(drawn, lent, number));
        }
        self.note(result.map(|_| ()));
    }

    /// Compares the check of a list by a curve, and counts the verdict and the kinds of what was checked.
    pub fn check_by_curve(&mut self, case: &Case, drawn: Drawn, list: &[u16], lent: usize) {
        let result = self.memory.check_by_curve(case, drawn, list, lent);
        if let Ok(verdict) = &result {
            self.count(verdict);
            self.tally.kinds.curve_day(&curve_days::Met::of_check(case, drawn, list, lent, verdict));
        }
        self.note(result.map(|_| ()));
    }

    /// Compares the search by a curve in this memory, and counts the kinds of the day. `plain` is what F and A give,
    /// where it is known.
    pub fn best_by_curve(
        &mut self,
        case: &Case,
        drawn: Drawn,
        lent: Lent,
        expected: &Filled<Schedule>,
        plain: Option<&Schedule>,
    ) {
        let result = self.memory.best_by_curve(case, drawn, lent, expected);
        if result.is_ok() {
            self.tally.refusals[expected.answer.number as usize] += 1;
            self.tally.kinds.curve_day(&curve_days::Met::of_best(case, drawn, lent, expected, plain));
        }
        self.note(result);
    }

    /// Compares reading a file, and counts its kinds.
    pub fn read(&mut self, bytes: &[u8]) {
        let result = self.memory.read(bytes);
        if result.is_ok() {
            self.tally.kinds.file(&files::Met::new(bytes));
        }
        self.note(result);
    }

    /// Counts a comparison of a call that was made with a record, and the kinds of that record.
    pub fn note_record(&mut self, case: &Case, asked: Asked, number: u32, result: Result<(), Difference>) {
        if result.is_ok() {
            self.tally.refusals[number as usize] += 1;
            self.tally.kinds.record(&records::Met { case: *case, asked, number });
        }
        self.note(result);
    }

    /// Compares writing in just enough memory, reading the written file, and reading the files of form 2 and of the old
    /// form, if there are such: all are one record.
    pub fn files(&mut self, case: &Case) {
        let written = answers::writing(case, usize::MAX);
        let result = self.memory.write(case, written.bytes.len());
        self.note(result);
        self.read(&written.bytes);
        for before in [file::file_before(case), file::old_file(case)].into_iter().flatten() {
            self.independent(case, &file::read(&before), &file::read(&written.bytes));
            self.read(&before);
        }
    }

    /// Compares all calls but the calendar's on a case within the limits whose best list is known, with a few lists.
    pub fn whole_case(&mut self, case: &Case, found: Option<Plan>, rng: &mut Rng) {
        self.files(case);
        self.work(case);
        let expected = answers::schedule(case, answers::work(case), case.t, |_| found);
        self.best(case, &expected);
        let list = if expected.number == 0 { expected.list } else { walk(rng, case) };
        self.check(case, &list);
        let mut disturbed = list.clone();
        disturb(rng, case, &mut disturbed);
        self.check(case, &disturbed);
        let any = any_list(rng, case);
        self.check(case, &any);
        self.better(case, Pair::apart(&list, &disturbed));
        self.better(case, Pair::apart(&any, &list));
    }
}

/// Whether a minimum time is above 8 hours.
fn has_long_time(case: &Case) -> bool {
    case.min_up > SHORT_TIME || case.min_down > SHORT_TIME
}

/// What a group met: refusals by number, first breaches by rule, pairs by kind, and the kinds that have to come up.
pub fn remark(tally: &Tally, wanted: Option<Family>) -> String {
    let mut text = String::new();
    if tally.refusals.iter().any(|&count| count > 0) {
        text += &format!("\n  refusals 0 to 16: {:?}", tally.refusals);
    }
    if tally.breaches.iter().any(|&count| count > 0) {
        let by_rule = RULES.iter().map(|&rule| tally.breaches[rule as usize]).collect::<Vec<_>>();
        text += &format!("\n  lists passed: {}, broken by rule {RULES:?}: {by_rule:?}", tally.breaches[0]);
        text += &format!(", at hour 0: {}", tally.at_hour_0);
    }
    for family in FAMILIES {
        let kinds = tally.kinds.words(family);
        if !kinds.is_empty() && (family == Family::Pair || wanted == Some(family)) {
            text += &format!("\n  {}s: {kinds}", family.word());
        }
    }
    text
}
