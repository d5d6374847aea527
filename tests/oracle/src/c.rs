//! The structs of the C boundary, and the answers of the independent scheduler as C calls, for the fuzz target.

use crate::answers;
use crate::by_curve;
use crate::calendar::Calendar;
use crate::case::Case;
use crate::curve::{self, Curve};
use crate::dp::{best_list, best_list_by};
use crate::pair;
use std::slice;

/// Bytes of the record, which goes by value.
const _: () = assert!(std::mem::size_of::<Case>() == 936);

/// What reading gives.
#[repr(C)]
pub struct Reading {
    pub number: u32,
    pub case: Case,
}

/// What writing gives.
#[repr(C)]
pub struct Written {
    pub number: u32,
    pub length: usize,
}

/// What the check gives.
#[repr(C)]
pub struct Verdict {
    pub number: u32,
    pub hour: u32,
    pub rule: u32,
    pub profit: i64,
}

/// What the search gives.
#[repr(C)]
pub struct Plan {
    pub number: u32,
    pub profit: i64,
}

/// What the comparison of two lists gives.
#[repr(C)]
pub struct Choice {
    pub number: u32,
    pub which: u32,
    pub profit: i64,
}

/// Reads a case from the bytes of a file.
///
/// # Safety
///
/// So many bytes can be read.
#[no_mangle]
pub unsafe extern "C" fn oracle_read(file: *const u8, count: usize) -> Reading {
    let answers::Reading { number, case } = answers::reading(slice::from_raw_parts(file, count));
    Reading { number, case }
}

/// Writes a case as the bytes of a file.
///
/// # Safety
///
/// So many bytes can be written.
#[no_mangle]
pub unsafe extern "C" fn oracle_write(case: Case, bytes: *mut u8, count: usize) -> Written {
    let answer = answers::writing(&case, count);
    slice::from_raw_parts_mut(bytes, count)[..answer.bytes.len()].copy_from_slice(&answer.bytes);
    Written { number: answer.number, length: answer.bytes.len() }
}

/// Checks a list of outputs.
///
/// # Safety
///
/// So many outputs can be read.
#[no_mangle]
pub unsafe extern "C" fn oracle_check(case: Case, list: *const u16, count: usize) -> Verdict {
    let answers::Verdict { number, hour, rule, profit } =
        answers::verdict(&case, slice::from_raw_parts(list, count));
    Verdict { number, hour, rule, profit }
}

/// How many numbers a search of this record is to be lent to work in.
#[no_mangle]
pub extern "C" fn oracle_work(case: Case) -> usize {
    answers::work(&case)
}

/// Finds the best list of outputs, as if so many numbers were lent to work in.
///
/// # Safety
///
/// So many outputs can be written.
#[no_mangle]
pub unsafe extern "C" fn oracle_best(case: Case, numbers: usize, outputs: *mut u16, count: usize) -> Plan {
    let answer = answers::schedule(&case, numbers, count, best_list);
    slice::from_raw_parts_mut(outputs, count)[..answer.list.len()].copy_from_slice(&answer.list);
    Plan { number: answer.number, profit: answer.profit }
}

/// Puts the orders of a calendar in place of the case's own; gives 0, or the number that refuses the calendar or the
/// case, which is then as it was.
///
/// # Safety
///
/// So many numbers of each list of windows can be read, and the case written.
#[no_mangle]
pub unsafe extern "C" fn oracle_fill(
    case: *mut Case,
    on: *const u16,
    on_count: usize,
    off: *const u16,
    off_count: usize,
    first: u16,
    hours: u16,
) -> u32 {
    let (on, off) = (slice::from_raw_parts(on, on_count), slice::from_raw_parts(off, off_count));
    match (Calendar { on, off, first, hours }).filled(&*case) {
        Ok(filled) => {
            *case = filled;
            0
        }
        Err(number) => number,
    }
}

/// Compares two lists of outputs.
///
/// # Safety
///
/// So many outputs of each can be read.
#[no_mangle]
pub unsafe extern "C" fn oracle_better(
    case: Case,
    first: *const u16,
    first_count: usize,
    second: *const u16,
    second_count: usize,
) -> Choice {
    let (first, second) =
        (slice::from_raw_parts(first, first_count), slice::from_raw_parts(second, second_count));
    let pair::Choice { number, which, profit } = pair::choice(&case, first, second);
    Choice { number, which, profit }
}

/// Fills the table of a curve.
///
/// # Safety
///
/// So many numbers can be written.
#[no_mangle]
pub unsafe extern "C" fn oracle_table(kind: u16, curve: Curve, table: *mut i64, count: usize) -> u32 {
    let (number, costs) = curve::filling(kind, &curve, count);
    slice::from_raw_parts_mut(table, count)[..costs.len()].copy_from_slice(&costs);
    number
}

/// Checks a list of outputs by a curve.
///
/// # Safety
///
/// So many outputs can be read, and so many numbers written.
#[no_mangle]
pub unsafe extern "C" fn oracle_check_by_curve(
    case: Case,
    kind: u16,
    curve: Curve,
    list: *const u16,
    count: usize,
    table: *mut i64,
    table_count: usize,
) -> Verdict {
    let list = slice::from_raw_parts(list, count);
    let filled = by_curve::verdict(&case, kind, &curve, list, table_count);
    slice::from_raw_parts_mut(table, table_count)[..filled.table.len()].copy_from_slice(&filled.table);
    let answers::Verdict { number, hour, rule, profit } = filled.answer;
    Verdict { number, hour, rule, profit }
}

/// Finds the best list of outputs by a curve, as if so many numbers were lent to work in.
///
/// # Safety
///
/// So many numbers of the table, and so many outputs, can be written.
#[no_mangle]
pub unsafe extern "C" fn oracle_best_by_curve(
    case: Case,
    kind: u16,
    curve: Curve,
    table: *mut i64,
    table_count: usize,
    numbers: usize,
    outputs: *mut u16,
    count: usize,
) -> Plan {
    let lent = by_curve::Lent { table: table_count, numbers, outputs: count };
    let filled = by_curve::schedule(&case, kind, &curve, lent, best_list_by);
    slice::from_raw_parts_mut(table, table_count)[..filled.table.len()].copy_from_slice(&filled.table);
    let answer = filled.answer;
    slice::from_raw_parts_mut(outputs, count)[..answer.list.len()].copy_from_slice(&answer.list);
    Plan { number: answer.number, profit: answer.profit }
}
