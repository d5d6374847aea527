//! Two libraries, one beside the other: the search of every day, the check of its list, and the reading of every file.

use crate::library::{Library, BEFORE, NOW};
use crate::table::{heads, line, Rounds, SHORT};
use crate::{days, files};
use giqapsun::boundary::Plan;
use giqapsun::{Case, HOURS, WORK_MOST};
use std::hint::black_box;

/// The best list of a day, with zeros past its hours.
fn best(library: &Library, case: &Case, work: &mut [i64]) -> (Plan, [u16; HOURS]) {
    let mut outputs = [0; HOURS];
    (library.best(case, work, &mut outputs), outputs)
}

/// Prints the heads of a table of both.
fn both(rows: &str) {
    println!();
    heads(rows, &["now", "before", "now/before"], "");
}

/// Prints the line of a call of both.
fn print<A: PartialEq>(name: &str, timed: &Rounds, call: impl FnMut(&Library) -> A) {
    println!("{}", line(name, timed, [NOW, BEFORE], call));
}

/// Prints the tables.
pub fn tables() {
    let mut work = vec![0i64; WORK_MOST];
    both("search");
    for (name, case) in days::all() {
        print(name, &Rounds::of(&case), |library| best(library, black_box(&case), &mut work));
    }
    println!("{}", Rounds::searches());
    both("check");
    for (name, case) in days::all() {
        let (_, outputs) = best(&NOW, &case, &mut work);
        print(name, &SHORT, |library| library.check(black_box(&case), black_box(&outputs[..case.hours])));
    }
    println!("{SHORT} in turn");
    both("reading");
    for (name, file) in files::all() {
        print(name, &SHORT, |library| library.read(black_box(&file)));
    }
    println!("{SHORT} in turn");
}
