//! The C boundary as it stands in include/giqapsun.h: structs by value, slices as pointer and length.
//! For callers that lend their own memory; the functions of the crate's root are safe.

/// Number of the layout of these structs. The library's functions carry it in their names, so that a library of
/// another layout does not link.
pub const LAYOUT: u32 = 4;

/// Entries that a record has room for in a trajectory.
pub const STAGES: usize = 8;

/// Hours that a record has room for.
pub const HOURS: usize = 168;

/// Hours up to which a minimum time is short: where both are, a search needs the fewer numbers.
pub const SHORT_TIME: u16 = 8;

/// Signed 64-bit numbers that a search is lent to work in where both minimum times are at most [`SHORT_TIME`].
pub const WORK: usize = 8192;

/// Signed 64-bit numbers that a search is lent to work in otherwise; they are enough for every case.
pub const WORK_MOST: usize = 32_768;

/// Bytes of the longest file: pairs, unit, two trajectories, hours, form number.
pub const FILE_MOST: usize = 20 + 34 + 2 * STAGES * 2 + 5 * HOURS + 2;

/// The lowest price, in mills per MWh.
pub const PRICE_LEAST: i32 = -10_000_000;

/// The highest price, in mills per MWh.
pub const PRICE_MOST: i32 = 10_000_000;

/// Hours of the longest year.
pub const YEAR_HOURS: u16 = 8784;

/// Hours of the shortest day of a calendar.
pub const DAY_LEAST: u16 = 23;

/// Hours of the longest day of a calendar.
pub const DAY_MOST: u16 = 25;

/// Signed 64-bit numbers of the table of a curve: costs for 0 to 800 half-megawatt-hours.
pub const COSTS: usize = 801;

/// Kind of a curve: a alone.
pub const FLAT: u16 = 0;

/// Kind of a curve: a and b.
pub const STRAIGHT: u16 = 1;

/// Kind of a curve: a, b and c.
pub const CURVED: u16 = 2;

/// The largest coefficient of a curve.
pub const COEFFICIENT_MOST: u32 = 1_000_000;

/// Order of an hour: the unit may be on-line or off-line.
pub const FREE: u8 = 0;

/// Order of an hour: the unit must be on-line.
pub const ON: u8 = 1;

/// Order of an hour: the unit must be off-line.
pub const OFF: u8 = 2;

/// A case: the unit, its state before hour 1, and the hours of the day. Entries past a count are zero
/// after reading and disregarded otherwise; `==` compares them too.
#[repr(C)]
#[derive(Clone, Copy, Debug, PartialEq, Eq)]
pub struct Case {
    /// Capacity in MW, at most 400.
    pub capacity: u16,
    /// Minimum output in MW.
    pub minimum: u16,
    /// Ramp-up limit RU in MW per hour.
    pub rampup: u16,
    /// Ramp-down limit RD in MW per hour.
    pub rampdown: u16,
    /// Minimum up time in hours, 1 to 24.
    pub minup: u16,
    /// Minimum down time in hours, 1 to 24.
    pub mindown: u16,
    /// F in mills per MWh.
    pub variable: i32,
    /// A in mills per on-line hour.
    pub fixed: i32,
    /// B in mills per start.
    pub startcost: i32,
    /// C in mills per stop.
    pub stopcost: i32,
    /// p(0), the output before hour 1, in MW.
    pub initial: u16,
    /// h, the hours on-line (p(0) above 0) or off-line (p(0) 0) before hour 1.
    pub elapsed: u16,
    /// Start-up stage: 0, or i below UD where the day opens on PU(i); h is i then.
    pub upstage: u8,
    /// Shut-down stage: 0, or i from 2 to DD where the day opens on PD(i).
    pub downstage: u8,
    /// Start-up trajectory PU in MW.
    pub rise: [u16; STAGES],
    /// Shut-down trajectory PD in MW.
    pub fall: [u16; STAGES],
    /// Prices in mills per MWh, from [`PRICE_LEAST`] to [`PRICE_MOST`]; that of hour k at k - 1.
    pub prices: [i32; HOURS],
    /// Orders: [`FREE`], [`ON`] or [`OFF`]; that of hour k at k - 1.
    pub orders: [u8; HOURS],
    /// UD: how many entries of `rise` count, 1 to 8.
    pub rises: usize,
    /// DD: how many entries of `fall` count, 1 to 8.
    pub falls: usize,
    /// T: how many entries of `prices` and `orders` count, 1 to 168.
    pub hours: usize,
}

impl Default for Case {
    /// The record of zeros, which every call refuses with 2.
    fn default() -> Case {
        Case {
            capacity: 0,
            minimum: 0,
            rampup: 0,
            rampdown: 0,
            minup: 0,
            mindown: 0,
            variable: 0,
            fixed: 0,
            startcost: 0,
            stopcost: 0,
            initial: 0,
            elapsed: 0,
            upstage: 0,
            downstage: 0,
            rise: [0; STAGES],
            fall: [0; STAGES],
            prices: [0; HOURS],
            orders: [0; HOURS],
            rises: 0,
            falls: 0,
            hours: 0,
        }
    }
}

/// The coefficients of a cost curve; those that its kind does not use are 0.
#[repr(C)]
#[derive(Clone, Copy, Debug, PartialEq)]
pub struct Curve {
    /// Half-mills.
    pub a: f64,
    /// Half-mills per half-megawatt-hour.
    pub b: f64,
    /// Half-mills per half-megawatt-hour squared.
    pub c: f64,
}

/// Number 0 and the case; or a refusal and the record of zeros.
#[repr(C)]
#[derive(Clone, Copy, Debug, PartialEq, Eq)]
pub struct Reading {
    /// 0, or the number of the refusal.
    pub number: u32,
    /// The case read.
    pub c: Case,
}

/// Number 0 and how many bytes were written; or a refusal and 0.
#[repr(C)]
#[derive(Clone, Copy, Debug, PartialEq, Eq)]
pub struct Written {
    /// 0, or the number of the refusal.
    pub number: u32,
    /// Bytes of the file.
    pub length: usize,
}

/// Number 0, rule 0 and the profit; number 0, the rule broken and its hour; or a refusal.
#[repr(C)]
#[derive(Clone, Copy, Debug, PartialEq, Eq)]
pub struct Verdict {
    /// 0, or the number of the refusal.
    pub number: u32,
    /// The earliest hour at which a rule is broken, from 0; 0 also where none is. One above T is that of a
    /// stop after the day.
    pub hour: u32,
    /// 0, or the lowest rule broken at that hour.
    pub rule: u32,
    /// What a list that passes earns, in half-mills; otherwise 0.
    pub profit: i64,
}

/// Number 0 and what the best list earns; or a refusal and 0.
#[repr(C)]
#[derive(Clone, Copy, Debug, PartialEq, Eq)]
pub struct Plan {
    /// 0, or the number of the refusal.
    pub number: u32,
    /// Profit in half-mills.
    pub profit: i64,
}

/// Number 0, which list is the better and what it earns; number 0 and which 0; or a refusal.
#[repr(C)]
#[derive(Clone, Copy, Debug, PartialEq, Eq)]
pub struct Choice {
    /// 0, or the number of the refusal.
    pub number: u32,
    /// 1 for the first list, 2 for the second; 0 where neither passes, and beside a refusal.
    pub which: u32,
    /// What that list earns, in half-mills; otherwise 0.
    pub profit: i64,
}

// Every pointer is valid for its length, aligned and not null; lent slices do not overlap, but the two lists
// of giqapsun_better, and the two of windows of giqapsun_best_by_calendar, may overlap each other.
extern "C" {
    /// Reads the `n` bytes of a file, of form 3, of form 2 or of the old form; changes no lent memory.
    #[link_name = "giqapsun_read_4"]
    pub fn giqapsun_read(file: *const u8, n: usize) -> Reading;

    /// Writes a file of form 3 into `n` lent bytes; changes the first `length` of them, on a refusal none.
    #[link_name = "giqapsun_write_4"]
    pub fn giqapsun_write(c: Case, bytes: *mut u8, n: usize) -> Written;

    /// Checks a list of `n` outputs; changes no lent memory.
    #[link_name = "giqapsun_check_4"]
    pub fn giqapsun_check(c: Case, list: *const u16, n: usize) -> Verdict;

    /// Finds the best list with `n` numbers to work in, at least those of [`giqapsun_work`], and `m` outputs,
    /// at least T. Fills the first T outputs on number 0; zeroes the first numbers, those of [`giqapsun_work`],
    /// on 0 and 11.
    #[link_name = "giqapsun_best_4"]
    pub fn giqapsun_best(c: Case, work: *mut i64, n: usize, outputs: *mut u16, m: usize) -> Plan;

    /// Tells the better of a list of `n` outputs and one of `m`; changes no lent memory.
    #[link_name = "giqapsun_better_4"]
    pub fn giqapsun_better(c: Case, first: *const u16, n: usize, second: *const u16, m: usize) -> Choice;

    /// Finds the best list with the hour orders of a calendar: `a` numbers of on-line windows and `b` of
    /// off-line ones, two for each, and the day's first hour and number of hours. `work` and `outputs` are as
    /// for [`giqapsun_best`]; the windows are only read.
    #[link_name = "giqapsun_best_by_calendar_4"]
    pub fn giqapsun_best_by_calendar(
        c: Case,
        on: *const u16,
        a: usize,
        off: *const u16,
        b: usize,
        first: u16,
        hours: u16,
        work: *mut i64,
        n: usize,
        outputs: *mut u16,
        m: usize,
    ) -> Plan;

    /// How many numbers a search of a case is lent to work in, [`WORK`] or [`WORK_MOST`], by its two minimum
    /// times alone; changes no memory.
    #[link_name = "giqapsun_work_4"]
    pub fn giqapsun_work(c: Case) -> usize;

    /// Fills the table of a curve of this kind in `t` lent numbers, at least [`COSTS`]; changes the first of them, as
    /// many, on a refusal none. Gives 0, or the number of the refusal, 16 or 10.
    #[link_name = "giqapsun_table_4"]
    pub fn giqapsun_table(kind: u16, curve: Curve, table: *mut i64, t: usize) -> u32;

    /// Checks a list of `n` outputs by a curve; fills the table on number 0, as [`giqapsun_table`] does.
    #[link_name = "giqapsun_check_by_curve_4"]
    pub fn giqapsun_check_by_curve(
        c: Case,
        kind: u16,
        curve: Curve,
        list: *const u16,
        n: usize,
        table: *mut i64,
        t: usize,
    ) -> Verdict;

    /// Finds the best list by a curve; fills the table on 0 and 11, as [`giqapsun_table`] does. `work` and
    /// `outputs` are as for [`giqapsun_best`].
    #[link_name = "giqapsun_best_by_curve_4"]
    pub fn giqapsun_best_by_curve(
        c: Case,
        kind: u16,
        curve: Curve,
        table: *mut i64,
        t: usize,
        work: *mut i64,
        n: usize,
        outputs: *mut u16,
        m: usize,
    ) -> Plan;
}
