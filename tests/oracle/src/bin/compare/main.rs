//! Compares the library with the independent scheduler: every answer and every lent number.
//!
//! compare [--seed N] [--groups NAME,NAME.. [--index N]] [--first N] [--limit SECONDS]
//! compare --case FILE [--list OUTPUT,OUTPUT.. [--second OUTPUT,OUTPUT..]] [--limit SECONDS]
//! compare --case FILE --day FIRST,HOURS [--on FIRST,LENGTH..] [--off FIRST,LENGTH..] [--limit SECONDS]
//! compare [--case FILE [--list OUTPUT,OUTPUT..]] --curve KIND,A,B,C [--limit SECONDS]
//! compare --case FILE --row PRICE,PRICE.. [--curve KIND,A,B,C | --day FIRST,HOURS ..] [--limit SECONDS]
//! compare --groups

mod board;
mod boundary;
mod calls;
mod forecasts;
mod groups;
mod guard;
mod kinds;
mod report;
mod run;
mod watch;
mod wishes;

use board::{Board, Tally};
use groups::{one_curve, one_file, GROUPS};
use kinds::Family;
use oracle::curves::Drawn;
use report::{show, show_outside, Source};
use run::{remark, Run, MOST_SHOWN};
use std::ops::Range;
use std::process::ExitCode;
use std::time::{Duration, Instant};
use watch::{end_with_reader, watched, End};
use wishes::{listed, wishes, Wishes, USAGE};

/// Most times that a group goes on after the library ended its process or gave no answer.
const MOST_BROKEN: u64 = 3;

/// Comparisons that run one after the other, with what each index is called in a report.
struct Series<'a> {
    name: &'a str,
    seed: u64,
    indices: Range<u64>,
    limit: Duration,
    /// What has to come up of every kind, if the series is not stopped.
    every_kind: Option<Family>,
    compare: &'a dyn Fn(&mut Run, u64),
    source: &'a dyn Fn(u64) -> Source,
}

impl Series<'_> {
    /// Runs the indices, and goes on with the next one if one ends the process; gives the counts, and where the
    /// series was stopped, if it was.
    fn run(&self) -> (Tally, Option<u64>) {
        let board = Board::new();
        let (mut tally, mut next, mut broken) = (Tally::default(), self.indices.start, 0);
        while next < self.indices.end {
            board.begin(&tally);
            let end = watched(&board, self.limit, || self.run_from(next, Run::new(board, self.seed, tally)));
            tally = board.tally();
            let End::Broken(how) = end else {
                return (tally, None);
            };
            self.tell(&board, &how, &mut tally);
            (next, broken) = (board.index() + 1, broken + 1);
            if broken == MOST_BROKEN && next < self.indices.end {
                return (tally, Some(next));
            }
        }
        (tally, None)
    }

    /// Runs the indices from one on.
    fn run_from(&self, next: u64, mut run: Run) {
        for index in next..self.indices.end {
            run.start(index, (self.source)(index));
            (self.compare)(&mut run, index);
        }
    }

    /// Prints and counts how the other process was ended.
    fn tell(&self, board: &Board, how: &str, tally: &mut Tally) {
        tally.failed += 1;
        if tally.shown >= MOST_SHOWN {
            return;
        }
        tally.shown += 1;
        let (source, words) =
            ((self.source)(board.index()), format!("  given     {how}\n  expected  an answer"));
        match board.call() {
            Some(call) => show(&source, &call, &words, &[]),
            None => show_outside(&source, how),
        }
    }

    /// Prints and counts the kinds that never came up.
    fn tell_missing(&self, family: Family, tally: &mut Tally) {
        for kind in tally.kinds.missing(family) {
            println!("MISSING {}: no {} of the kind: {kind}", self.name, family.word());
            tally.failed += 1;
        }
    }

    /// Runs the series and prints its line; gives what passed and failed.
    fn run_and_sum_up(&self) -> (u64, u64) {
        let begun = Instant::now();
        let (mut tally, stopped) = self.run();
        if let (Some(family), None) = (self.every_kind, stopped) {
            self.tell_missing(family, &mut tally);
        }
        let (all, library) = (begun.elapsed().as_secs_f64(), tally.library_time as f64 / 1e9);
        let (name, seed, passed, failed) = (self.name, self.seed, tally.passed, tally.failed);
        let shown = if failed > 0 { format!(" ({} shown)", tally.shown) } else { String::new() };
        let stop = stopped.map_or(String::new(), |index| format!("stopped before index {index}, "));
        print!("{name}: seed {seed:#x}, {passed} passed, {failed} failed{shown}, {stop}");
        println!("{all:.1} s of which the library {library:.1} s{}", remark(&tally, self.every_kind));
        (passed, failed)
    }
}

/// Runs one file again.
fn run_case(wishes: &Wishes, path: &std::path::Path, bytes: &[u8]) -> (u64, u64) {
    let source = |_| Source::of_file(path, bytes, &wishes.lists, wishes.curve, &wishes.row);
    Series {
        name: "case",
        seed: wishes.seed,
        indices: 0..1,
        limit: wishes.limit,
        every_kind: None,
        compare: &|run, _| one_file(run, bytes, &wishes.lists, wishes.curve, &wishes.row),
        source: &source,
    }
    .run_and_sum_up()
}

/// Runs one curve again.
fn run_curve(wishes: &Wishes, drawn: Drawn) -> (u64, u64) {
    Series {
        name: "curve",
        seed: wishes.seed,
        indices: 0..1,
        limit: wishes.limit,
        every_kind: None,
        compare: &|run, _| one_curve(run, drawn),
        source: &|_| Source::of_curve(drawn),
    }
    .run_and_sum_up()
}

/// Runs the groups that are asked for.
fn run_groups(wishes: &Wishes) -> (u64, u64) {
    let mut total = (0, 0);
    for &place in &wishes.groups {
        let group = &GROUPS[place];
        let count = wishes.first.map_or(group.count, |first| first.min(group.count));
        let series = Series {
            name: group.name,
            seed: wishes.seed.wrapping_add(place as u64),
            indices: wishes.index.map_or(0..count, |index| index..index + 1),
            limit: wishes.limit,
            every_kind: group.every_kind.filter(|_| wishes.index.is_none()),
            compare: &group.run,
            source: &|index| Source::of_index(group.name, wishes.seed, index),
        };
        let (passed, failed) = series.run_and_sum_up();
        total = (total.0 + passed, total.1 + failed);
    }
    total
}

/// The exit status is 1 if anything differs, 2 if the command line is not understood.
fn main() -> ExitCode {
    end_with_reader();
    let wishes = match wishes(std::env::args().skip(1)) {
        Ok(wishes) => wishes,
        Err(fault) => {
            eprintln!("compare: {fault}; `compare --help` says how to call it");
            return ExitCode::from(2);
        }
    };
    if wishes.help {
        println!("{USAGE}");
        return ExitCode::SUCCESS;
    }
    if wishes.groups.is_empty() {
        GROUPS.iter().for_each(|group| println!("{}", listed(group)));
        return ExitCode::SUCCESS;
    }
    let (passed, failed) = match (&wishes.case, wishes.curve) {
        (Some((path, bytes)), _) => run_case(&wishes, path, bytes),
        (None, Some(drawn)) => run_curve(&wishes, drawn),
        (None, None) => run_groups(&wishes),
    };
    println!("{passed} passed, {failed} failed");
    ExitCode::from(u8::from(failed > 0 || passed == 0))
}
