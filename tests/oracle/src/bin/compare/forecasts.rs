//! The groups on price forecasts (request F-8): the library is asked at two rows of prices for one case and half-way,
//! each answer is compared, and every statement is tested on what the library answers.

use crate::calls::{Call, Difference, Input, Name, Windows};
use crate::kinds::forecasts::Met;
use crate::run::Run;
use oracle::answers::{self, Schedule, Verdict};
use oracle::by_curve::{Filled, Lent};
use oracle::calendars::{self, Size};
use oracle::case::Case;
use oracle::curve::{filling, COSTS};
use oracle::curves::{of_case, Drawn};
use oracle::dp::{best_list_by, KeptLists};
use oracle::forecast::{Asked, Broken, Forecasts, FIRST, SECOND, STATEMENTS};
use oracle::forecasts::{second_row, two_runs};
use oracle::known_forecasts::known_forecasts;
use oracle::profit::Costs;
use oracle::random::Rng;
use oracle::stages::{full_staged, small_staged};
use oracle::units::{full_day, limit_day, long_day, longer_day, small_unit, smaller_unit};
use oracle::weeks::{full_week, locked_week, small_locked};

/// Lists of a case that are drawn beside those that are found.
const DRAWN_LISTS: usize = 2;

/// How a case is searched: by F and A, by a curve, or by a calendar.
#[derive(Clone, Copy)]
pub enum Way<'a> {
    Plain,
    Curve(Drawn),
    Calendar(Windows<'a>),
}

impl<'a> Way<'a> {
    /// What a case is searched with.
    fn input(self, case: &'a Case) -> Input<'a> {
        match self {
            Way::Plain => Input::Case(case),
            Way::Curve(drawn) => Input::ByCurve(case, drawn),
            Way::Calendar(windows) => Input::Calendar(case, windows),
        }
    }

    /// The case that has the orders which its lists keep.
    fn ordered(self, case: &Case) -> Case {
        match self {
            Way::Calendar(windows) => windows.calendar().filled(case).expect("the calendar is accepted"),
            _ => *case,
        }
    }

    /// The table of the curve, if there is one.
    fn table(self) -> Option<Vec<i64>> {
        match self {
            Way::Curve((kind, curve)) => Some(filling(kind, &curve, COSTS).1),
            _ => None,
        }
    }
}

/// The library, asked in just enough memory; each answer is compared, and given as it is.
struct Library<'r, 'a> {
    run: &'r mut Run,
    way: Way<'a>,
    table: &'r Option<Vec<i64>>,
}

impl Asked for Library<'_, '_> {
    fn best(&mut self, case: &Case) -> Schedule {
        let (numbers, outputs) = (answers::work(case), case.t);
        let found = best_list_by(&self.way.ordered(case), Costs::by(self.table.as_deref()));
        let answer = answers::schedule(case, numbers, outputs, |_| found);
        let memory = &mut self.run.memory;
        let result = match self.way {
            Way::Plain => memory.best(case, numbers, outputs, &answer),
            Way::Calendar(windows) => memory.best_by_calendar(case, windows, (numbers, outputs), &answer),
            Way::Curve(drawn) => {
                let (lent, table) = (Lent { table: COSTS, numbers, outputs }, self.table.clone());
                memory.best_by_curve(case, drawn, lent, &Filled { answer, table: table.unwrap_or_default() })
            }
        };
        self.run.note(result);
        self.run.memory.found.clone()
    }

    fn check(&mut self, case: &Case, list: &[u16]) -> Verdict {
        let (case, memory) = (self.way.ordered(case), &mut self.run.memory);
        let result = match self.way {
            Way::Curve(drawn) => memory.check_by_curve(&case, drawn, list, COSTS),
            _ => memory.check(&case, list),
        };
        self.run.note(result.map(|_| ()));
        self.run.memory.judged
    }
}

/// Two rows of a case and the one half-way: every answer is compared and every statement tested, and the kinds are
/// counted where nothing differs.
fn three_rows(run: &mut Run, case: &Case, way: Way, second: &[i32], rng: &mut Rng) {
    let (table, failed) = (way.table(), run.tally.failed);
    let ordered = way.ordered(case);
    let kept = KeptLists::by(&ordered, Costs::by(table.as_deref()));
    let others = (0..DRAWN_LISTS).filter_map(|_| kept.draw(rng, &[])).collect();
    let forecasts = Forecasts::ask(case, second, others, &mut Library { run, way, table: &table });
    let tests = STATEMENTS.map(|statement| (statement, forecasts.test(statement)));
    if run.tally.failed == failed && tests.iter().all(|(_, test)| test.is_ok()) {
        run.tally.kinds.forecast(&Met::new(forecasts, way, ordered));
    }
    for (statement, test) in tests {
        let call = Call::new(Name::Statement(statement), way.input(case), 0);
        let words = |[given, expected]: Broken| format!("  given     {given}\n  expected  {expected}");
        run.note_row(test.map_err(|broken| Difference { call, words: words(broken) }), second);
    }
}

/// Known rows: their own answers, then the library.
pub fn known_forecast(run: &mut Run, index: u64) {
    let row = &known_forecasts()[index as usize];
    let given = row.answered(best_list_by);
    run.independent(&row.case, &given.rows.each_ref().map(|row| row.best.clone()), &row.best);
    if given.is_found() {
        let pairs = [(FIRST, SECOND), (SECOND, FIRST)];
        run.independent(&row.case, &pairs.map(|(from, to)| given.earns(to, from)), &row.carried.map(Some));
        run.independent(&row.case, &pairs.map(|(from, to)| given.regret(from, to)), &row.lost.map(Some));
    }
    one_forecast(run, &row.case, row.curve.map_or(Way::Plain, Way::Curve), &row.second);
}

/// Random rows: mostly of small units, some by a curve and some by a calendar.
pub fn forecasts(run: &mut Run, index: u64) {
    let mut rng = run.rng();
    if index.is_multiple_of(20) {
        return by_calendar(run, &mut rng);
    }
    if index % 50 == 5 {
        let (case, second) = two_runs(&mut rng);
        return three_rows(run, &case, Way::Plain, &second, &mut rng);
    }
    let mut case = match index % 400 {
        1 => large_day(&mut rng),
        place if place % 20 == 2 => long_day(&mut rng),
        place if place % 10 == 3 => longer_day(&mut rng),
        _ => small_day(&mut rng),
    };
    let is_by_curve = matches!(index % 120, 2..=4);
    let way = if is_by_curve { Way::Curve(of_case(&mut rng, &case)) } else { Way::Plain };
    let second = second_row(&mut rng, &mut case);
    three_rows(run, &case, way, &second, &mut rng);
}

/// A small unit, some of them inside a sequence or with a long minimum time.
fn small_day(rng: &mut Rng) -> Case {
    match rng.below(24) {
        0 => small_locked(rng),
        1..=4 => small_staged(rng),
        5..=10 => small_unit(rng),
        _ => smaller_unit(rng),
    }
}

/// A day of up to a week, mostly of any size.
fn large_day(rng: &mut Rng) -> Case {
    match rng.below(8) {
        0 => limit_day(rng),
        1 => full_week(rng),
        2 | 3 => full_staged(rng),
        4 | 5 => full_day(rng),
        _ => locked_week(rng),
    }
}

/// Random rows of a day by a calendar that is accepted, and so is the day.
fn by_calendar(run: &mut Run, rng: &mut Rng) {
    let mut drawn = calendars::drawn(rng, Size::Small);
    while drawn.calendar().filled(&drawn.case).is_err() {
        drawn = calendars::drawn(rng, Size::Small);
    }
    let second = second_row(rng, &mut drawn.case);
    let way = Way::Calendar(Windows::new(&drawn.calendar(), drawn.begins));
    three_rows(run, &drawn.case, way, &second, rng);
}

/// Runs two rows of a case that are named.
pub fn one_forecast(run: &mut Run, case: &Case, way: Way, second: &[i32]) {
    let mut rng = run.rng();
    three_rows(run, case, way, second, &mut rng);
}
