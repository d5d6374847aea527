//! The library's C boundary: structs by value, slices as pointer and length. The names end in 4, the number
//! of the record's layout.

use oracle::c::{Choice, Plan, Reading, Verdict, Written};
use oracle::case::Case;
use oracle::curve::Curve;

extern "C" {
    /// Reads a case from the bytes of a file.
    #[link_name = "giqapsun_read_4"]
    pub fn giqapsun_read(file: *const u8, count: usize) -> Reading;

    /// Writes a case as the bytes of a file.
    #[link_name = "giqapsun_write_4"]
    pub fn giqapsun_write(case: Case, bytes: *mut u8, count: usize) -> Written;

    /// Checks a list of outputs.
    #[link_name = "giqapsun_check_4"]
    pub fn giqapsun_check(case: Case, list: *const u16, count: usize) -> Verdict;

    /// How many numbers a search of this record is to be lent to work in.
    #[link_name = "giqapsun_work_4"]
    pub fn giqapsun_work(case: Case) -> usize;

    /// Finds the best list of outputs.
    #[link_name = "giqapsun_best_4"]
    pub fn giqapsun_best(
        case: Case,
        work: *mut i64,
        work_count: usize,
        outputs: *mut u16,
        outputs_count: usize,
    ) -> Plan;

    /// Finds the best list of outputs of the day that a calendar fills.
    #[link_name = "giqapsun_best_by_calendar_4"]
    pub fn giqapsun_best_by_calendar(
        case: Case,
        on: *const u16,
        on_count: usize,
        off: *const u16,
        off_count: usize,
        first: u16,
        hours: u16,
        work: *mut i64,
        work_count: usize,
        outputs: *mut u16,
        outputs_count: usize,
    ) -> Plan;

    /// Compares two lists of outputs.
    #[link_name = "giqapsun_better_4"]
    pub fn giqapsun_better(
        case: Case,
        first: *const u16,
        first_count: usize,
        second: *const u16,
        second_count: usize,
    ) -> Choice;

    /// Fills the table of a curve.
    #[link_name = "giqapsun_table_4"]
    pub fn giqapsun_table(kind: u16, curve: Curve, table: *mut i64, table_count: usize) -> u32;

    /// Checks a list of outputs by a curve.
    #[link_name = "giqapsun_check_by_curve_4"]
    pub fn giqapsun_check_by_curve(
        case: Case,
        kind: u16,
        curve: Curve,
        list: *const u16,
        count: usize,
        table: *mut i64,
        table_count: usize,
    ) -> Verdict;

    /// Finds the best list of outputs by a curve.
    #[link_name = "giqapsun_best_by_curve_4"]
    pub fn giqapsun_best_by_curve(
        case: Case,
        kind: u16,
        curve: Curve,
        table: *mut i64,
        table_count: usize,
        work: *mut i64,
        work_count: usize,
        outputs: *mut u16,
        outputs_count: usize,
    ) -> Plan;
}
