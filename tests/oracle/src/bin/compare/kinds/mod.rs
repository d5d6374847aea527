//! The kinds of what a comparison meets, each with its test, to be counted: pairs of lists, files, records,
//! days, calendars, days inside a sequence and lists of such days, weeks, days of long minimum times and
//! lists of such days, lent memory, cost curves, days and lists by a curve, and price forecasts.

pub mod calendars;
pub mod curve_days;
pub mod curves;
pub mod days;
pub mod files;
pub mod forecasts;
pub mod lent;
pub mod lists;
pub mod locked_lists;
pub mod locks;
pub mod pairs;
pub mod records;
pub mod stages;
pub mod weeks;

/// A kind in words, and whether what was met is of it.
pub struct Kind<M> {
    words: &'static str,
    test: fn(&M) -> bool,
}

/// A kind of a list of kinds.
const fn kind<M>(words: &'static str, test: fn(&M) -> bool) -> Kind<M> {
    Kind { words, test }
}

/// What has kinds.
#[derive(Clone, Copy, Debug, PartialEq, Eq)]
pub enum Family {
    Pair,
    File,
    Record,
    Day,
    Calendar,
    Stage,
    List,
    Week,
    Lock,
    LockedList,
    Lent,
    Curve,
    CurveDay,
    Forecast,
}

/// All of them, in the order in which they are printed.
pub const FAMILIES: [Family; 14] = [
    Family::Pair,
    Family::File,
    Family::Record,
    Family::Day,
    Family::Calendar,
    Family::Stage,
    Family::List,
    Family::Week,
    Family::Lock,
    Family::LockedList,
    Family::Lent,
    Family::Curve,
    Family::CurveDay,
    Family::Forecast,
];

impl Family {
    /// The word for one.
    pub fn word(self) -> &'static str {
        match self {
            Family::Pair => "pair",
            Family::File => "file",
            Family::Record => "record",
            Family::Day => "day",
            Family::Calendar => "calendar",
            Family::Stage => "staged day",
            Family::List => "list",
            Family::Week => "week",
            Family::Lock => "locked day",
            Family::LockedList => "locked list",
            Family::Lent => "length",
            Family::Curve => "curve",
            Family::CurveDay => "curve day",
            Family::Forecast => "forecast",
        }
    }
}

/// How often each kind came up; what is met may be of several.
#[derive(Clone, Copy)]
pub struct Counts {
    pairs: [u64; pairs::KINDS.len()],
    files: [u64; files::KINDS.len()],
    records: [u64; records::KINDS.len()],
    days: [u64; days::KINDS.len()],
    calendars: [u64; calendars::KINDS.len()],
    stages: [u64; stages::KINDS.len()],
    lists: [u64; lists::KINDS.len()],
    weeks: [u64; weeks::KINDS.len()],
    locks: [u64; locks::KINDS.len()],
    locked_lists: [u64; locked_lists::KINDS.len()],
    lent: [u64; lent::KINDS.len()],
    curves: [u64; curves::KINDS.len()],
    curve_days: [u64; curve_days::KINDS.len()],
    forecasts: [u64; forecasts::KINDS.len()],
}

impl Default for Counts {
    fn default() -> Counts {
        Counts {
            pairs: [0; pairs::KINDS.len()],
            files: [0; files::KINDS.len()],
            records: [0; records::KINDS.len()],
            days: [0; days::KINDS.len()],
            calendars: [0; calendars::KINDS.len()],
            stages: [0; stages::KINDS.len()],
            lists: [0; lists::KINDS.len()],
            weeks: [0; weeks::KINDS.len()],
            locks: [0; locks::KINDS.len()],
            locked_lists: [0; locked_lists::KINDS.len()],
            lent: [0; lent::KINDS.len()],
            curves: [0; curves::KINDS.len()],
            curve_days: [0; curve_days::KINDS.len()],
            forecasts: [0; forecasts::KINDS.len()],
        }
    }
}

impl Counts {
    /// Counts a pair.
    pub fn pair(&mut self, met: &pairs::Met) {
        add(&pairs::KINDS, met, &mut self.pairs);
    }

    /// Counts a file.
    pub fn file(&mut self, met: &files::Met) {
        add(&files::KINDS, met, &mut self.files);
    }

    /// Counts a record.
    pub fn record(&mut self, met: &records::Met) {
        add(&records::KINDS, met, &mut self.records);
    }

    /// Counts a day.
    pub fn day(&mut self, met: &days::Met) {
        add(&days::KINDS, met, &mut self.days);
    }

    /// Counts a calendar.
    pub fn calendar(&mut self, met: &calendars::Met) {
        add(&calendars::KINDS, met, &mut self.calendars);
    }

    /// Counts a day by what it opens and closes inside.
    pub fn stage(&mut self, met: &stages::Met) {
        add(&stages::KINDS, met, &mut self.stages);
    }

    /// Counts a list that was checked.
    pub fn list(&mut self, met: &lists::Met) {
        add(&lists::KINDS, met, &mut self.lists);
    }

    /// Counts a day by its hours and by what its minimum times lock.
    pub fn lock(&mut self, met: &locks::Met) {
        add(&weeks::KINDS, met, &mut self.weeks);
        add(&locks::KINDS, met, &mut self.locks);
    }

    /// Counts a list that was checked by its minimum times.
    pub fn locked_list(&mut self, met: &locked_lists::Met) {
        add(&locked_lists::KINDS, met, &mut self.locked_lists);
    }

    /// Counts the memory that a search was lent.
    pub fn lent(&mut self, met: &lent::Met) {
        add(&lent::KINDS, met, &mut self.lent);
    }

    /// Counts a curve.
    pub fn curve(&mut self, met: &curves::Met) {
        add(&curves::KINDS, met, &mut self.curves);
    }

    /// Counts a search or a check by a curve.
    pub fn curve_day(&mut self, met: &curve_days::Met) {
        add(&curve_days::KINDS, met, &mut self.curve_days);
    }

    /// Counts two rows of prices for one case.
    pub fn forecast(&mut self, met: &forecasts::Met) {
        add(&forecasts::KINDS, met, &mut self.forecasts);
    }

    /// Each kind in words, with how often it came up.
    fn of(&self, family: Family) -> Vec<(&'static str, u64)> {
        match family {
            Family::Pair => beside(&pairs::KINDS, &self.pairs),
            Family::File => beside(&files::KINDS, &self.files),
            Family::Record => beside(&records::KINDS, &self.records),
            Family::Day => beside(&days::KINDS, &self.days),
            Family::Calendar => beside(&calendars::KINDS, &self.calendars),
            Family::Stage => beside(&stages::KINDS, &self.stages),
            Family::List => beside(&lists::KINDS, &self.lists),
            Family::Week => beside(&weeks::KINDS, &self.weeks),
            Family::Lock => beside(&locks::KINDS, &self.locks),
            Family::LockedList => beside(&locked_lists::KINDS, &self.locked_lists),
            Family::Lent => beside(&lent::KINDS, &self.lent),
            Family::Curve => beside(&curves::KINDS, &self.curves),
            Family::CurveDay => beside(&curve_days::KINDS, &self.curve_days),
            Family::Forecast => beside(&forecasts::KINDS, &self.forecasts),
        }
    }

    /// The counts in words, without the kinds that never came up.
    pub fn words(&self, family: Family) -> String {
        let met = self.of(family).into_iter().filter(|&(_, count)| count > 0);
        met.map(|(words, count)| format!("{words} {count}")).collect::<Vec<_>>().join("; ")
    }

    /// The kinds that never came up.
    pub fn missing(&self, family: Family) -> Vec<&'static str> {
        self.of(family).into_iter().filter(|&(_, count)| count == 0).map(|(words, _)| words).collect()
    }
}

/// Adds one to each kind that something is of.
fn add<M>(kinds: &[Kind<M>], met: &M, counts: &mut [u64]) {
    for (kind, count) in kinds.iter().zip(counts) {
        *count += u64::from((kind.test)(met));
    }
}

/// The kinds in words beside their counts.
fn beside<M>(kinds: &[Kind<M>], counts: &[u64]) -> Vec<(&'static str, u64)> {
    kinds.iter().map(|kind| kind.words).zip(counts.iter().copied()).collect()
}
