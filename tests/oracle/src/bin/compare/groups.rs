//! The groups of comparisons. Each index of a group makes its own case from the seed.

use crate::calls::{Pair, Windows};
use crate::forecasts::{forecasts, known_forecast, one_forecast, Way};
use crate::kinds::records::Asked;
use crate::kinds::Family;
use crate::report::Named;
use crate::run::Run;
use crate::wishes::{self, named};
use oracle::answers::{self, Schedule, Verdict};
use oracle::best::{by_commitment, every_list, every_list_by, Plan};
use oracle::by_curve::{self, Lent};
use oracle::calendar::{self, Calendar};
use oracle::calendars::{drawn, Drawn, Size};
use oracle::case::{Case, MOST_HOURS};
use oracle::curve::{faults, filling, COSTS};
use oracle::curves::{any, of_case, Drawn as DrawnCurve};
use oracle::damage::damaged_file;
use oracle::days::{self, Answer, KnownDay, Question};
use oracle::dp::{best_list, best_list_by, KeptLists};
use oracle::file;
use oracle::known_calendars::{self, known_calendars};
use oracle::known_curves::{self, known_entries, known_faults};
use oracle::known_files::{self, known_files};
use oracle::known_forecasts;
use oracle::known_pairs::{self, known_pairs};
use oracle::known_prices::{self, known_prices};
use oracle::known_stages::{self, known_stages};
use oracle::known_weeks::{self, known_asked, known_searches, known_weeks};
use oracle::lists::{any_list, disturb_ends, wild_list};
use oracle::pair;
use oracle::pairs::{case_of_pairs, Pairs};
use oracle::profit::Costs;
use oracle::random::Rng;
use oracle::refusals;
use oracle::stages::{full_staged, longer_staged, small_staged};
use oracle::units::{
    full_day, limit_day, long_day, longer_day, set_below_zero, set_old, small_unit, smaller_unit,
};
use oracle::weeks::{full_week, largest_week, locked_week, longer_locked, narrow_week, small_locked};
use oracle::wild::{fill_past_counts, wild_record};

/// A group: its name, how many indices it has, what one index does, and that in words.
pub struct Group {
    pub name: &'static str,
    pub count: u64,
    pub run: fn(&mut Run, u64),
    pub about: &'static str,
    /// What has to come up of every kind.
    pub every_kind: Option<Family>,
}

/// A group of the list below.
const fn group(name: &'static str, count: u64, run: fn(&mut Run, u64), about: &'static str) -> Group {
    Group { name, count, run, about, every_kind: None }
}

impl Group {
    /// The same group, in which every kind has to come up.
    const fn of_every(self, family: Family) -> Group {
        Group { every_kind: Some(family), ..self }
    }
}

/// All groups in the order in which they run.
pub const GROUPS: [Group; 37] = [
    group("known-days", 13, known_day, "the known days, all calls, every list checked"),
    group("known-prices", known_prices::COUNT, known_price, "known days below zero and at the limits"),
    group("source-day", 4, source_day, "the source's day, and its rows of 48, 96 and 168 hours"),
    group("small-units", 20_000, small_units, "small units, every list tried"),
    group("below-zero", 20_000, below_zero, "prices below zero, every list tried; the largest days")
        .of_every(Family::Day),
    group("longer-days", 2_500, longer_days, "longer days, every commitment tried"),
    group("long-days", 2_000, long_days, "up to 48 hours, by the dynamic programme"),
    group("full-days", 300, full_days, "up to 400 MW, by the dynamic programme"),
    group("known-files", known_files::COUNT, known_file, "the known files of the three forms"),
    group("hours-lengths", 65_536, hours_lengths, "an hours section of every length, in each form"),
    group("forms", 5_000, forms, "a case in the old form, in form 2 and in form 3"),
    group(
        "damaged-files",
        47_000,
        damaged_files,
        "files of the three forms with a fault, and those still accepted",
    )
    .of_every(Family::File),
    group("lists", 20_000, lists, "ten lists of a case, checked"),
    group("lengths", 2_000, lengths, "memory that is short, just enough, longer, none"),
    group("wild-records", 30_000, wild_records, "records at and past their limits").of_every(Family::Record),
    group("entries-past-counts", 2_000, entries_past_counts, "random numbers past the counts of a record"),
    group("known-pairs", known_pairs::COUNT, known_pair, "the known pairs of lists, apart and in one memory"),
    group("pairs", 40_000, pairs, "eight pairs of lists of a case or record").of_every(Family::Pair),
    group(
        "known-calendars",
        known_calendars::COUNT,
        known_calendar,
        "the known calendars, apart and in one memory",
    ),
    group("calendars", 60_000, calendars, "a calendar and a case, of small units and others; long lists")
        .of_every(Family::Calendar),
    group(
        "known-stages",
        known_stages::COUNT,
        known_stage,
        "known days that open or close inside a sequence",
    ),
    group("staged-days", 24_000, staged_days, "days that open or close inside a sequence, every list tried")
        .of_every(Family::Stage),
    group("staged-full-days", 2_600, staged_full_days, "such days up to 400 MW, by the dynamic programme")
        .of_every(Family::Stage),
    group("staged-lists", 20_000, staged_lists, "ten lists of such a day, checked").of_every(Family::List),
    group(
        "known-weeks",
        known_weeks::COUNT,
        known_week,
        "known days of up to 168 hours and 24 hours of a time",
    ),
    group(
        "known-numbers",
        known_weeks::SEARCHES + known_weeks::ASKED,
        known_numbers,
        "known searches in lent numbers, and what records ask for",
    ),
    group("weeks", 1_200, weeks, "up to 168 hours, 24 hours of a time and 400 MW, by the dynamic programme")
        .of_every(Family::Week),
    group("locked-days", 8_000, locked_days, "minimum times of 9 to 24 hours, every list tried")
        .of_every(Family::Lock),
    group("locked-lists", 2_500, locked_lists, "ten lists of such a day or week, checked")
        .of_every(Family::LockedList),
    group("lent-numbers", 700, lent_numbers, "8,191 to 32,769 numbers to work in").of_every(Family::Lent),
    group(
        "known-curves",
        known_curves::ENTRIES + known_curves::FAULTS,
        known_curve,
        "entries of tables and faults of curves",
    ),
    group("curves", 6_000, curves, "the tables of random curves, and curves with a fault")
        .of_every(Family::Curve),
    group("known-curve-days", known_curves::DAYS, known_curve_day, "known days by a curve"),
    group(
        "curve-days",
        8_000,
        curve_days,
        "days, records and lists by a curve, every list of small units tried",
    )
    .of_every(Family::CurveDay),
    group("curve-full-days", 240, curve_full_days, "days up to 400 MW by a curve, by the dynamic programme"),
    group("known-forecasts", known_forecasts::COUNT, known_forecast, "known rows of prices and half-way"),
    group("forecasts", 20_000, forecasts, "two rows of prices of a case and half-way, every statement")
        .of_every(Family::Forecast),
];

/// Most lists of a unit that are all put through the check.
const MOST_CHECKED: u64 = 300;

/// Lists that each index of the group `lists` puts through the check.
const LISTS_OF_A_CASE: usize = 10;

/// Pairs that each index of the group `pairs` compares; the last one is in one memory.
const PAIRS_OF_A_CASE: usize = 8;

/// A verdict in the words of the known days.
fn known_answer(verdict: &Verdict) -> Answer {
    match (verdict.number, verdict.rule) {
        (0, 0) => Answer::Passes { profit: verdict.profit },
        (0, rule) => Answer::Breaks { hour: verdict.hour, rule },
        (number, _) => Answer::Refused(number),
    }
}

/// A known day: the row's own answer, then all calls but the calendar's.
fn known_day(run: &mut Run, index: u64) {
    let day = &days::known_days()[index as usize];
    known_answer_of(run, day);
    let case = &day.case;
    let mut rng = run.rng();
    run.whole_case(case, every_list(case), &mut rng);
    all_lengths(run, case, every_list(case));
    every_list_checked(run, case, 10_000);
}

/// A known day below zero or at the limits, in the same way; every list is checked on the small ones.
fn known_price(run: &mut Run, index: u64) {
    known_row(run, &known_prices()[index as usize]);
}

/// A known day that opens or closes inside a sequence, or is refused for its opening, in the same way.
fn known_stage(run: &mut Run, index: u64) {
    known_or_refused(run, &known_stages()[index as usize]);
}

/// A known day of a week or of a long minimum time, in the same way.
fn known_week(run: &mut Run, index: u64) {
    known_or_refused(run, &known_weeks()[index as usize]);
}

/// A known day within the limits, or one that is refused.
fn known_or_refused(run: &mut Run, day: &KnownDay) {
    if refusals::record(&day.case).is_err() {
        known_answer_of(run, day);
        refused_row(run, &day.case);
    } else {
        known_row(run, day);
    }
}

/// A known search in lent memory, or a record with the numbers that it asks for.
fn known_numbers(run: &mut Run, index: u64) {
    let (searches, place) = (known_searches(), index as usize);
    match searches.get(place) {
        Some(row) => {
            let given = answers::schedule(&row.case, row.numbers, row.outputs, best_list);
            run.independent(&row.case, &given.zeroed_numbers(&row.case), &row.zeroed);
            run.independent(&row.case, &given, &row.answer);
            run.best_in(&row.case, row.numbers, row.outputs, &best_list(&row.case));
        }
        None => {
            let (case, asked) = known_asked()[place - searches.len()];
            run.independent(&case, &answers::work(&case), &asked);
            run.work(&case);
        }
    }
}

/// A known day within the limits.
fn known_row(run: &mut Run, day: &KnownDay) {
    known_answer_of(run, day);
    let (case, plan) = (&day.case, best_list(&day.case));
    let mut rng = run.rng();
    run.whole_case(case, plan.clone(), &mut rng);
    all_lengths(run, case, plan);
    every_list_checked(run, case, 10_000);
}

/// The answer of a known day.
fn known_answer_of(run: &mut Run, day: &KnownDay) {
    let case = &day.case;
    match (&day.question, &day.answer) {
        (Question::BestList, Answer::Found { list, profit }) => {
            run.best(case, &Schedule { number: 0, profit: *profit, list: list.clone() });
        }
        (Question::BestList, Answer::Refused(number)) => {
            run.best(case, &Schedule { number: *number, profit: 0, list: Vec::new() });
        }
        (Question::Check(list), answer) => {
            run.independent(case, &known_answer(&answers::verdict(case, list)), answer);
            run.check(case, list);
        }
        (Question::BestList, _) => unreachable!("a search finds a list or is refused"),
    }
}

/// The calls that take a refused record, but for the search.
fn refused_row(run: &mut Run, case: &Case) {
    let list = vec![case.minimum; case.t];
    run.check(case, &list);
    run.better(case, Pair::apart(&list, &list));
    run.work(case);
    let result = run.memory.write(case, 1_000);
    run.note(result);
}

/// The source's day, and its price profile two, four and seven times, with the best profit of each.
fn source_day(run: &mut Run, index: u64) {
    let longer = (index as usize).checked_sub(1).map(|row| days::TABLE_V[row]);
    let case = longer.map_or_else(days::source_day, |row| row.case());
    let plan = best_list(&case);
    let profit = plan.as_ref().map(|plan| plan.profit);
    match longer {
        None => {
            run.independent(&case, &profit, &Some(days::SOURCE_PROFIT));
            run.check(&case, &days::SOURCE_LIST);
        }
        Some(row) => {
            run.independent(&case, &profit, &Some(row.profit));
            run.independent(&case, &(profit >= Some(row.least())), &true);
        }
    }
    let mut rng = run.rng();
    run.whole_case(&case, plan.clone(), &mut rng);
    all_lengths(run, &case, plan);
}

/// Mostly a small unit with a price below zero, every list tried; once in a while a long day, or one of the largest
/// size at the limits.
fn below_zero(run: &mut Run, index: u64) {
    let mut rng = run.rng();
    let (mut case, is_small) = match index % 400 {
        0 => (limit_day(&mut rng), false),
        1..=20 => (long_day(&mut rng), false),
        _ => (smaller_unit(&mut rng), true),
    };
    if !index.is_multiple_of(400) {
        set_below_zero(&mut rng, &mut case);
    }
    let plan = best_list(&case);
    if is_small {
        run.independent(&case, &plan, &every_list(&case));
    }
    run.whole_case(&case, plan, &mut rng);
}

/// A small unit, every list tried; the smallest with every list put through the check too.
fn small_units(run: &mut Run, _index: u64) {
    let mut rng = run.rng();
    let case = small_unit(&mut rng);
    let tried = every_list(&case);
    run.independent(&case, &best_list(&case), &tried);
    run.whole_case(&case, tried, &mut rng);
    every_list_checked(run, &case, MOST_CHECKED);
}

/// Puts every list of outputs up to the capacity plus 1 through the check, if there are few.
fn every_list_checked(run: &mut Run, case: &Case, most: u64) {
    let outputs = u64::from(case.capacity) + 2;
    let count = outputs.checked_pow(case.t as u32).filter(|&count| count <= most);
    for number in 0..count.unwrap_or(0) {
        let list: Vec<u16> = (0..case.t).map(|k| (number / outputs.pow(k as u32) % outputs) as u16).collect();
        run.check(case, &list);
    }
}

/// A longer day, every commitment tried.
fn longer_days(run: &mut Run, _index: u64) {
    let mut rng = run.rng();
    let case = longer_day(&mut rng);
    let tried = by_commitment(&case);
    run.independent(&case, &best_list(&case), &tried);
    run.whole_case(&case, tried, &mut rng);
}

/// A day of up to 48 hours with a small capacity, by the dynamic programme.
fn long_days(run: &mut Run, _index: u64) {
    let mut rng = run.rng();
    let case = long_day(&mut rng);
    run.whole_case(&case, best_list(&case), &mut rng);
}

/// A full-size day by the dynamic programme.
fn full_days(run: &mut Run, _index: u64) {
    let mut rng = run.rng();
    let case = full_day(&mut rng);
    run.whole_case(&case, best_list(&case), &mut rng);
}

/// A known file: the row's own answer, then reading it and what it holds.
fn known_file(run: &mut Run, index: u64) {
    let row = &known_files()[index as usize];
    run.independent(&days::program_example(), &file::read(&row.bytes), &row.answer);
    read_and_write(run, &row.bytes);
}

/// Files of each form with an hours section of so many bytes.
fn hours_lengths(run: &mut Run, index: u64) {
    for bytes in known_files::of_length(index as usize) {
        run.tally.refusals[answers::reading(&bytes).number as usize] += 1;
        run.read(&bytes);
    }
}

/// A case that every form can hold: its three files are read as one record, and it is written again as the last.
fn forms(run: &mut Run, index: u64) {
    let mut rng = run.rng();
    let mut case = if index.is_multiple_of(4) { full_day(&mut rng) } else { small_unit(&mut rng) };
    set_old(&mut rng, &mut case);
    run.files(&case);
}

/// A damaged file; one that is still accepted is written again too.
fn damaged_files(run: &mut Run, _index: u64) {
    let file = damaged_file(&mut run.rng());
    run.tally.refusals[answers::reading(&file).number as usize] += 1;
    read_and_write(run, &file);
}

/// Reads a file; if it is accepted, its record is written, and read again in each form.
fn read_and_write(run: &mut Run, bytes: &[u8]) {
    run.read(bytes);
    if let Ok(case) = file::read(bytes) {
        run.files(&case);
    }
}

/// Random lists of one case.
fn lists(run: &mut Run, _index: u64) {
    let mut rng = run.rng();
    let case = match rng.below(3) {
        0 => small_unit(&mut rng),
        1 => longer_day(&mut rng),
        _ => full_day(&mut rng),
    };
    for _ in 0..LISTS_OF_A_CASE {
        let list = any_list(&mut rng, &case);
        run.check(&case, &list);
    }
}

/// A small unit with memory of all lengths.
fn lengths(run: &mut Run, _index: u64) {
    let mut rng = run.rng();
    let case = small_unit(&mut rng);
    all_lengths(run, &case, best_list(&case));
}

/// Lends memory that is short by one, just enough, longer than needed and none.
fn all_lengths(run: &mut Run, case: &Case, found: Option<Plan>) {
    let (t, mut rng) = (case.t, run.rng());
    let needed = answers::writing(case, usize::MAX).bytes.len();
    let more = rng.place(2, 100);
    for count in [0, needed - 1, needed, needed + 1, needed + more, 70_000] {
        let result = run.memory.write(case, count);
        run.note(result);
    }
    let asked = answers::work(case);
    for numbers in [0, asked - 1, asked, asked + 1, asked + more] {
        for outputs in [0, t - 1, t, t + 1, t + more] {
            run.best_in(case, numbers, outputs, &found);
        }
    }
    let lists = [0, t - 1, t, t + 1, t + more, 1_000]
        .map(|count| (0..count).map(|_| rng.between16(0, case.capacity)).collect::<Vec<u16>>());
    for list in &lists {
        run.check(case, list);
        run.better(case, Pair::apart(list, &lists[2]));
        run.better(case, Pair::apart(&lists[2], list));
        run.better(case, Pair::apart(list, list));
    }
}

/// A record with fields and counts at and past their limits, through all five calls that take one and
/// no calendar, in memory of random length.
fn wild_records(run: &mut Run, _index: u64) {
    let mut rng = run.rng();
    let case = wild_record(&mut rng);
    let t = if case.t <= 2 * MOST_HOURS { case.t } else { rng.place(0, 2 * MOST_HOURS) };
    let bytes = rng.pick(&[0, 19, 68, 69, 78, 79, 187, 188, 927, 928, 928, 928]);
    let number = answers::writing(&case, bytes).number;
    let result = run.memory.write(&case, bytes);
    run.note_record(&case, Asked::Write { bytes }, number, result);
    let list = wild_list(&mut rng, &case);
    let number = answers::verdict(&case, &list).number;
    let result = run.memory.check(&case, &list).map(|_| ());
    run.note_record(&case, Asked::Check { outputs: list.len() }, number, result);
    run.better(&case, Pair::apart(&list, &list));
    let number = refusals::record(&case).err().unwrap_or(0);
    let result = run.memory.work(&case);
    run.note_record(&case, Asked::Work, number, result);
    let asked = answers::work(&case);
    let numbers = rng.pick(&[0, asked - 1, asked, asked, asked, asked + 1, 8_192]);
    let outputs = rng.pick(&[t, t, t, t, t + 1, t.saturating_sub(1), 0]);
    let expected = answers::schedule(&case, numbers, outputs, best_list);
    let result = run.memory.best(&case, numbers, outputs, &expected);
    run.note_record(&case, Asked::Best { numbers, outputs }, expected.number, result);
}

/// A case with random numbers in the entries past its counts, which must change nothing.
fn entries_past_counts(run: &mut Run, _index: u64) {
    let mut rng = run.rng();
    let clean = small_unit(&mut rng);
    let mut case = clean;
    fill_past_counts(&mut rng, &mut case);
    let asked = answers::work(&clean);
    let expected = answers::schedule(&clean, asked, clean.t, best_list);
    let result = run.memory.best(&case, asked, case.t, &expected);
    run.note(result);
    let list = any_list(&mut rng, &clean);
    let result = run.memory.check(&case, &list).map(|_| ());
    run.note(result);
    run.independent(
        &case,
        &pair::choice(&case, &list, &expected.list),
        &pair::choice(&clean, &list, &expected.list),
    );
    run.better(&case, Pair::apart(&list, &expected.list));
    let result = run.memory.write(&case, answers::writing(&clean, usize::MAX).bytes.len());
    run.note(result);
}

/// A known pair: the row's own answer, then the lists apart; and the first one in one memory with itself.
fn known_pair(run: &mut Run, index: u64) {
    let row = &known_pairs()[index as usize];
    run.independent(&row.case, &pair::choice(&row.case, &row.first, &row.second), &row.choice);
    run.better(&row.case, Pair::apart(&row.first, &row.second));
    run.better(&row.case, Pair::in_one(&row.first, row.first.len(), 0));
}

/// Random pairs of one case, or once in eight times of one record; the last one in one memory.
fn pairs(run: &mut Run, _index: u64) {
    let mut rng = run.rng();
    if rng.once_in(8) {
        return wild_pairs(run, &mut rng);
    }
    let case = case_of_pairs(&mut rng);
    let pairs = Pairs::new(&mut rng, &case);
    for _ in 1..PAIRS_OF_A_CASE {
        let (first, second) = pairs.pair(&mut rng);
        run.better(&case, Pair::apart(&first, &second));
    }
    let list = pairs.one(&mut rng);
    pair_in_one(run, &case, list, &mut rng);
}

/// Random pairs of one record at and past its limits.
fn wild_pairs(run: &mut Run, rng: &mut Rng) {
    let case = wild_record(rng);
    for _ in 1..PAIRS_OF_A_CASE {
        let (first, second) = (wild_list(rng, &case), wild_list(rng, &case));
        run.better(&case, Pair::apart(&first, &second));
    }
    let list = wild_list(rng, &case);
    pair_in_one(run, &case, list, rng);
}

/// A list in the same memory twice, or overlapping the list that begins a few outputs after it and is as long.
fn pair_in_one(run: &mut Run, case: &Case, mut list: Vec<u16>, rng: &mut Rng) {
    let count = list.len();
    let begins = rng.pick(&[0, 0, 1, 1, 2, count]).min(count);
    let last = list.last().copied().unwrap_or(0);
    list.resize(count + begins, last);
    run.better(case, Pair::in_one(&list, count, begins));
}

/// A known calendar: the row's own answer, then the call with the lists apart; and with the on-line one in both places,
/// in one memory.
fn known_calendar(run: &mut Run, index: u64) {
    let row = &known_calendars()[index as usize];
    let (case, calendar) = (&row.case, row.calendar());
    let given = calendar::schedule(case, &calendar, row.numbers, row.outputs, best_list);
    run.independent(case, &given, &row.answer);
    let lent = (row.numbers, row.outputs);
    run.by_calendar(case, Windows::new(&calendar, None), lent, &row.answer, None);
    let twice = Calendar { off: calendar.on, ..calendar };
    let expected = calendar::schedule(case, &twice, row.numbers, row.outputs, best_list);
    run.by_calendar(case, Windows::new(&twice, Some(0)), lent, &expected, None);
}

/// A random calendar with a case, mostly in just enough memory; once in eight times the case's own orders are searched
/// too.
fn calendars(run: &mut Run, index: u64) {
    let mut rng = run.rng();
    let size = match index % 120 {
        0 => Size::FullUnit,
        1 => Size::LongLists,
        _ => Size::Small,
    };
    let drawn = drawn(&mut rng, size);
    let lent = memory_of_a_day(&mut rng, &drawn);
    let Drawn { case, begins, .. } = &drawn;
    let calendar = drawn.calendar();
    let expected = calendar::schedule(case, &calendar, lent.0, lent.1, best_list);
    let is_searched = expected.number == 0 || expected.number == 11;
    let own = (is_searched && index.is_multiple_of(8))
        .then(|| answers::schedule(case, answers::work(case), case.t, best_list));
    run.by_calendar(case, Windows::new(&calendar, *begins), lent, &expected, own.as_ref());
}

/// Numbers and outputs to lend for a day: just enough, more, or short.
fn memory_of_a_day(rng: &mut Rng, drawn: &Drawn) -> (usize, usize) {
    let (t, asked) = (usize::from(drawn.hours).min(MOST_HOURS), answers::work(&drawn.case));
    match rng.below(16) {
        0 => (rng.pick(&[0, asked - 1, 8_191, 8_192]), t),
        1 => (asked, rng.pick(&[0, t.saturating_sub(1)])),
        2 => (0, 0),
        3 => (asked + rng.place(1, 108), t + rng.place(1, 30)),
        _ => (asked, t),
    }
}

/// A day that opens or closes inside a sequence: mostly a small unit, every list tried, once in twenty times a longer
/// day, every commitment tried.
fn staged_days(run: &mut Run, index: u64) {
    let mut rng = run.rng();
    let (case, tried) = if index.is_multiple_of(20) {
        let case = longer_staged(&mut rng);
        (case, by_commitment(&case))
    } else {
        let case = small_staged(&mut rng);
        (case, every_list(&case))
    };
    run.independent(&case, &best_list(&case), &tried);
    run.whole_case(&case, tried, &mut rng);
}

/// A full-size day that opens or closes inside a sequence, by the dynamic programme.
fn staged_full_days(run: &mut Run, _index: u64) {
    let mut rng = run.rng();
    let case = full_staged(&mut rng);
    run.whole_case(&case, best_list(&case), &mut rng);
}

/// Lists of a day that opens or closes inside a sequence: some that keep the rules, near misses at the opening and at
/// the close, and any.
fn staged_lists(run: &mut Run, _index: u64) {
    let mut rng = run.rng();
    let case = if rng.once_in(4) { longer_staged(&mut rng) } else { small_staged(&mut rng) };
    let kept = KeptLists::new(&case);
    for _ in 0..LISTS_OF_A_CASE {
        let drawn = kept.draw(&mut rng, &[]);
        let mut list = drawn.unwrap_or_else(|| any_list(&mut rng, &case));
        if !rng.once_in(3) {
            disturb_ends(&mut rng, &case, &mut list);
        }
        run.check(&case, &list);
    }
}

/// A week by the dynamic programme: once in ten times of any size, once in a hundred times of the largest,
/// mostly with a small capacity.
fn weeks(run: &mut Run, index: u64) {
    let mut rng = run.rng();
    let case = match index % 100 {
        0 => largest_week(&mut rng),
        place if place % 10 == 5 => full_week(&mut rng),
        _ => locked_week(&mut rng),
    };
    run.whole_case(&case, best_list(&case), &mut rng);
}

/// A day with a long minimum time: mostly a small unit, every list tried, once in twenty times a longer day,
/// every commitment tried.
fn locked_days(run: &mut Run, index: u64) {
    let mut rng = run.rng();
    let (case, tried) = if index.is_multiple_of(20) {
        let case = longer_locked(&mut rng);
        (case, by_commitment(&case))
    } else {
        let case = small_locked(&mut rng);
        (case, every_list(&case))
    };
    run.independent(&case, &best_list(&case), &tried);
    run.whole_case(&case, tried, &mut rng);
}

/// Lists of a day with a long minimum time: some that keep the rules, some that would with a minimum time an
/// hour shorter, near misses at the opening and at the close, and any.
fn locked_lists(run: &mut Run, _index: u64) {
    let mut rng = run.rng();
    let case = narrow_week(&mut rng);
    let shorter = [
        case,
        Case { min_up: (case.min_up - 1).max(1), ..case },
        Case { min_down: (case.min_down - 1).max(1), ..case },
    ];
    let kept = shorter.each_ref().map(KeptLists::new);
    for turn in 0..LISTS_OF_A_CASE {
        let drawn = kept[turn % kept.len()].draw(&mut rng, &[]);
        let mut list = drawn.unwrap_or_else(|| any_list(&mut rng, &case));
        if rng.once_in(6) {
            disturb_ends(&mut rng, &case, &mut list);
        }
        run.check(&case, &list);
    }
}

/// A small unit in memory about the numbers that a search asks for, with a long minimum time or without.
fn lent_numbers(run: &mut Run, index: u64) {
    let mut rng = run.rng();
    let mut case = if index.is_multiple_of(3) { small_unit(&mut rng) } else { small_locked(&mut rng) };
    if rng.once_in(4) {
        (case.min_up, case.min_down) = rng.pick(&[(8, 8), (9, 8), (8, 9), (9, 9)]);
    }
    let (t, found) = (case.t, best_list(&case));
    run.work(&case);
    for numbers in [0, 8_191, 8_192, 8_193, 32_767, 32_768, 32_769] {
        run.best_in(&case, numbers, t, &found);
    }
    let asked = answers::work(&case);
    for (numbers, outputs) in [(asked, t - 1), (asked, t + 1), (asked - 1, t + 100), (asked - 1, 0)] {
        run.best_in(&case, numbers, outputs, &found);
    }
}

/// A known entry of a table, or a known fault: the row's own answer, then the table.
fn known_curve(run: &mut Run, index: u64) {
    let (entries, place) = (known_entries(), index as usize);
    let drawn = match entries.get(place) {
        Some(row) => {
            let cost = faults(row.kind, &row.curve).map(|tested| tested.cost(row.n));
            run.independent(&Case::ZERO, &cost.ok(), &Some(row.cost));
            (row.kind, row.curve)
        }
        None => {
            let (kind, curve, fault) = known_faults()[place - entries.len()];
            run.independent(&Case::ZERO, &faults(kind, &curve).err(), &fault);
            (kind, curve)
        }
    };
    run.fill(drawn, COSTS);
}

/// The table of a random curve, mostly in just enough memory.
fn curves(run: &mut Run, _index: u64) {
    let mut rng = run.rng();
    let drawn = any(&mut rng);
    let lent = lent_table(&mut rng);
    run.fill(drawn, lent);
}

/// Numbers to lend for a table: just enough, more, or short.
fn lent_table(rng: &mut Rng) -> usize {
    match rng.below(16) {
        0 => 0,
        1 => COSTS - 1,
        2 => COSTS + 1,
        3 => rng.place(1, 6_000),
        _ => COSTS,
    }
}

/// A known day by a curve: the row's own answer, then the call.
fn known_curve_day(run: &mut Run, index: u64) {
    let known_curves::KnownDay { case, kind, curve, question, filled } =
        known_curves::known_days().swap_remove(index as usize);
    let table = match question {
        known_curves::Question::Check(list, lent, answer) => {
            let given = by_curve::verdict(&case, kind, &curve, &list, lent);
            run.independent(&case, &given.answer, &answer);
            run.check_by_curve(&case, (kind, curve), &list, lent);
            given.table
        }
        known_curves::Question::Best(lent, answer) => {
            let given = by_curve::schedule(&case, kind, &curve, lent, best_list_by);
            run.independent(&case, &given.answer, &answer);
            run.best_by_curve(&case, (kind, curve), lent, &given, None);
            given.table
        }
    };
    run.independent(&case, &!table.is_empty(), &filled);
}

/// A day by a curve: mostly a small unit, every list tried once in four times; once in eight times a record at or past
/// its limits by any curve.
fn curve_days(run: &mut Run, index: u64) {
    let mut rng = run.rng();
    if index % 8 == 7 {
        return wild_by_curve(run, &mut rng);
    }
    let mut case = match index % 8 {
        0 | 1 => small_unit(&mut rng),
        2 => small_staged(&mut rng),
        3 => small_locked(&mut rng),
        4 => longer_day(&mut rng),
        5 => smaller_unit(&mut rng),
        _ if index % 400 == 6 => Case { t: 6, ..limit_day(&mut rng) },
        _ => long_day(&mut rng),
    };
    let drawn = of_case(&mut rng, &case);
    if rng.once_in(10) {
        (case.f, case.a) = (1_000_000, 100_000_000);
    }
    by_curve_and_check(run, &case, drawn, &mut rng);
    let table = filling(drawn.0, &drawn.1, COSTS).1;
    if index % 32 < 2 {
        let costs = Costs::Table(&table);
        run.independent(&case, &best_list_by(&case, costs), &every_list_by(&case, costs));
    }
}

/// A full-size day by a curve, some of them weeks, and with the largest capacity.
fn curve_full_days(run: &mut Run, index: u64) {
    let mut rng = run.rng();
    let case = match index % 24 {
        0 => full_week(&mut rng),
        1 => limit_day(&mut rng),
        2..=5 => full_staged(&mut rng),
        6..=9 => locked_week(&mut rng),
        _ => full_day(&mut rng),
    };
    let drawn = of_case(&mut rng, &case);
    by_curve_and_check(run, &case, drawn, &mut rng);
}

/// A case by a curve that is accepted, in just enough memory and in other memory; its best list, one beside it, one
/// that keeps the rules and any are checked.
fn by_curve_and_check(run: &mut Run, case: &Case, drawn: DrawnCurve, rng: &mut Rng) {
    let table = filling(drawn.0, &drawn.1, COSTS).1;
    let kept = KeptLists::by(case, Costs::Table(&table));
    let found = kept.best();
    let asked = answers::work(case);
    let enough = Lent { table: COSTS, numbers: asked, outputs: case.t };
    let plain = answers::schedule(case, asked, case.t, best_list);
    let expected = by_curve::schedule(case, drawn.0, &drawn.1, enough, |_, _| found.clone());
    run.best_by_curve(case, drawn, enough, &expected, Some(&plain));
    let other = memory_by_curve(rng, enough);
    let answer = by_curve::schedule(case, drawn.0, &drawn.1, other, |_, _| found.clone());
    run.best_by_curve(case, drawn, other, &answer, None);
    let list = kept.draw(rng, &[]).unwrap_or_else(|| any_list(rng, case));
    let mut beside = expected.answer.list.clone();
    if beside.is_empty() {
        beside = list.clone();
    }
    disturb_ends(rng, case, &mut beside);
    for list in [&expected.answer.list, &list, &beside, &any_list(rng, case), &wild_list(rng, case)] {
        let lent = lent_table(rng);
        run.check_by_curve(case, drawn, list, lent);
    }
}

/// Memory to lend a search by a curve: more of each, or one or all of them short.
fn memory_by_curve(rng: &mut Rng, enough: Lent) -> Lent {
    let Lent { table, numbers, outputs } = enough;
    match rng.below(8) {
        0 => Lent { table: rng.pick(&[0, 800]), ..enough },
        1 => Lent { numbers: rng.pick(&[0, numbers - 1]), ..enough },
        2 => Lent { outputs: rng.pick(&[0, outputs - 1]), ..enough },
        3 => Lent { table: 800, numbers: numbers - 1, outputs: outputs - 1 },
        _ => Lent {
            table: table + rng.place(0, 100),
            numbers: numbers + rng.place(0, 100),
            outputs: outputs + rng.place(0, 30),
        },
    }
}

/// A record at or past its limits by any curve, in memory of random length.
fn wild_by_curve(run: &mut Run, rng: &mut Rng) {
    let (case, drawn) = (wild_record(rng), any(rng));
    let t = if case.t <= 2 * MOST_HOURS { case.t } else { rng.place(0, 2 * MOST_HOURS) };
    let enough = Lent { table: COSTS, numbers: answers::work(&case), outputs: t.max(1) };
    let lent = if rng.once_in(2) { enough } else { memory_by_curve(rng, enough) };
    let expected = by_curve::schedule(&case, drawn.0, &drawn.1, lent, best_list_by);
    run.best_by_curve(&case, drawn, lent, &expected, None);
    let (list, table) = (wild_list(rng, &case), lent_table(rng));
    run.check_by_curve(&case, drawn, &list, table);
}

/// Runs one curve again, in memory about the length of a table.
pub fn one_curve(run: &mut Run, drawn: DrawnCurve) {
    for lent in [COSTS, 0, COSTS - 1, COSTS + 1, 5_000] {
        println!("expected {}", filling(drawn.0, &drawn.1, lent).0);
        run.fill(drawn, lent);
    }
}

/// Runs one case by a curve again, in memory about what is asked for, and a list that is named.
fn one_case_by_curve(run: &mut Run, case: &Case, drawn: DrawnCurve, list: Option<&[u16]>) {
    let (table, numbers, outputs) = (COSTS, answers::work(case), case.t);
    let enough = Lent { table, numbers, outputs };
    for lent in [
        enough,
        Lent { table: table - 1, ..enough },
        Lent { numbers: numbers - 1, ..enough },
        Lent { outputs: outputs - 1, ..enough },
        Lent { table: table + 30, numbers: numbers + 30, outputs: outputs + 30 },
    ] {
        let expected = by_curve::schedule(case, drawn.0, &drawn.1, lent, best_list_by);
        println!("expected {:?}", expected.answer);
        run.best_by_curve(case, drawn, lent, &expected, None);
    }
    let list = list.map_or_else(|| vec![0; outputs], |list| list.to_vec());
    for lent in [table, table - 1, table + 30] {
        println!("expected {:?}", by_curve::verdict(case, drawn.0, &drawn.1, &list, lent).answer);
        run.check_by_curve(case, drawn, &list, lent);
    }
}

/// Runs one file again: reading, and if it is accepted, all calls, lengths and many lists, those that are named too; or
/// the case by a curve or by a calendar; or the case, by one of them or by none, at its prices and at a second row.
pub fn one_file(run: &mut Run, bytes: &[u8], lists: &[Named], curve: Option<DrawnCurve>, row: &[i32]) {
    run.read(bytes);
    let Ok(case) = file::read(bytes) else {
        return;
    };
    let calendar = wishes::calendar(lists);
    if !row.is_empty() {
        let by_calendar = || calendar.map_or(Way::Plain, |it| Way::Calendar(Windows::new(&it, None)));
        return one_forecast(run, &case, curve.map_or_else(by_calendar, Way::Curve), row);
    }
    if let Some(drawn) = curve {
        return one_case_by_curve(run, &case, drawn, named(lists, "list"));
    }
    if let Some(calendar) = calendar {
        return one_calendar(run, &case, &calendar);
    }
    let plan = best_list(&case);
    let count = (u64::from(case.capacity) + 2).checked_pow(case.t as u32);
    if count.is_some_and(|count| count <= 2_000_000) {
        run.independent(&case, &plan, &every_list(&case));
    }
    println!("expected {plan:?}");
    let mut rng = run.rng();
    run.whole_case(&case, plan.clone(), &mut rng);
    all_lengths(run, &case, plan);
    for _ in 0..100 {
        let list = any_list(&mut rng, &case);
        run.check(&case, &list);
    }
    let Some(list) = named(lists, "list") else {
        return;
    };
    println!("expected {:?}", answers::verdict(&case, list));
    run.check(&case, list);
    run.better(&case, Pair::in_one(list, list.len(), 0));
    if let Some(second) = named(lists, "second") {
        println!("expected {:?}", pair::choice(&case, list, second));
        run.better(&case, Pair::apart(list, second));
    }
}

/// Runs one case by a calendar again, in just enough memory and in memory that is short.
fn one_calendar(run: &mut Run, case: &Case, calendar: &Calendar) {
    let asked = answers::work(case);
    for lent in [(asked, case.t), (0, case.t), (asked - 1, case.t), (asked, case.t - 1)] {
        let expected = calendar::schedule(case, calendar, lent.0, lent.1, best_list);
        println!("expected {expected:?}");
        run.by_calendar(case, Windows::new(calendar, None), lent, &expected, None);
    }
}
