//! The proved search, programmes of the same recurrence within the same memory, and a plain one with all the memory
//! it wants; the proved search by a cost curve and two plain ones; the proved reading of a file and a plain one; and,
//! with the feature `before`, two proved libraries. All in turn in one process: least times, medians and ratios. No
//! test rests on a time.

#[cfg(test)]
mod agreement;
#[cfg(feature = "before")]
mod before;
mod blocks;
mod curves;
mod days;
#[cfg(test)]
mod dice;
mod files;
mod layers;
mod library;
mod memory;
mod plain;
mod queue;
mod reader;
mod steps;
mod table;
mod times;
mod unit;
mod window;

use blocks::Blocks;
use giqapsun::boundary::Reading;
use giqapsun::{working_numbers, Case, Curve, COSTS, HOURS, SHORT_TIME};
use library::NOW;
use queue::Queue;
use std::hint::black_box;
use table::{heads, Rounds, BY_CURVE, SHORT};
use times::Times;
use unit::TIME;

/// A programme that reads.
type Reader = fn(&[u8]) -> Reading;

/// The starts of a list.
fn starts(case: &Case, list: &[u16]) -> usize {
    let before = std::iter::once(&case.initial).chain(list);
    before.zip(list).filter(|&(&q, &p)| q == 0 && p > 0).count()
}

/// The times of a day and what they come to: in every round each programme finds the list of the proved search.
fn lines(name: &str, case: &Case) -> [String; 2] {
    let mut work = vec![0i64; working_numbers(case)];
    let (mut outputs, mut list) = (vec![0u16; case.hours], vec![0u16; case.hours]);
    let [mut proved, mut memory, mut tuned, mut plain, mut checks] = [(); 5].map(|()| Times::default());
    for _ in 0..Rounds::of(case).rounds {
        let plan = proved.take(1, || NOW.best(black_box(case), &mut work, &mut outputs));
        assert!(plan.number == 0, "{name}: {plan:?}");
        let profit = memory.take(1, || memory::best::<Queue>(black_box(case), &mut work, &mut list));
        assert_eq!((profit, &list), (Some(plan.profit), &outputs), "{name}: memory");
        let profit = tuned.take(1, || memory::best::<Blocks>(black_box(case), &mut work, &mut list));
        assert_eq!((profit, &list), (Some(plan.profit), &outputs), "{name}: tuned");
        let day = plain.take(1, || plain::best(black_box(case)));
        assert_eq!(day.as_ref(), Some(&(plan.profit, outputs.clone())), "{name}: plain");
    }
    for _ in 0..SHORT.rounds {
        let verdict = checks.take(SHORT.calls, || NOW.check(black_box(case), black_box(&outputs)));
        assert!(verdict.number == 0 && verdict.rule == 0, "{name}: the list does not pass");
    }
    let (steps, starts) = (steps::count(case, &outputs), starts(case, &outputs));
    let ratios = [memory.of(&proved), tuned.of(&proved), plain.of(&proved)].concat();
    [
        format!("{name:<42}{proved:.1}{memory:.1}{tuned:.1}{plain:.1}"),
        format!("{name:<42}{ratios}{checks:.2}{steps:>10}{starts:>7}"),
    ]
}

/// Prints the tables of the search.
fn searches() {
    heads("day", &["proved", "memory", "tuned", "plain"], "");
    let mut ratios = Vec::new();
    for (name, case) in days::all() {
        let [times, line] = lines(name, &case);
        println!("{times}");
        ratios.push(line);
    }
    println!("{}\n", Rounds::searches());
    heads("day", &["proved/memory", "proved/tuned", "proved/plain", "check"], " row steps starts");
    println!("{}", ratios.join("\n"));
    println!("check: {SHORT}\n");
    println!("the most row steps of any day within the limits: {}", steps::most(HOURS, TIME));
    let [week, two] = [HOURS, 48].map(|hours| steps::most(hours, SHORT_TIME.into()));
    println!("with minimum times up to {SHORT_TIME}: {week}; with these and up to 48 h: {two}\n");
}

/// The times of a day by a curve and what they come to, beside the search without one: in every round each programme
/// finds the list of the proved search.
fn by_curve_lines(name: &str, case: &Case, curve: Curve) -> [String; 2] {
    let (mut costs, mut work) = (vec![0i64; COSTS], vec![0i64; working_numbers(case)]);
    let (mut outputs, mut list) = (vec![0u16; case.hours], vec![0u16; case.hours]);
    let [mut proved, mut blocks, mut pairs, mut plain] = [(); 4].map(|()| Times::default());
    for _ in 0..BY_CURVE[usize::from(case.hours > 48)].rounds {
        let plan = proved
            .take(1, || library::best_by_curve(black_box(case), curve, &mut costs, &mut work, &mut outputs));
        assert!(plan.number == 0, "{name}: {plan:?}");
        let found = Some((plan.profit, outputs.clone()));
        assert_eq!(blocks.take(1, || curves::by_blocks(black_box(case), curve)), found, "{name}: blocks");
        assert_eq!(pairs.take(1, || curves::by_pairs(black_box(case), curve)), found, "{name}: pairs");
        assert!(plain.take(1, || NOW.best(black_box(case), &mut work, &mut list)).number == 0);
    }
    let ratios = [blocks.of(&proved), pairs.of(&proved), plain.of(&proved)].concat();
    [
        format!("{name:<42}{proved:.0}{blocks:.0}{pairs:.0}{plain:.0}"),
        format!("{name:<42}{ratios}{:>7}", starts(case, &outputs)),
    ]
}

/// Prints the tables of the search by a curve, and that of filling a table.
fn searches_by_curve() {
    heads("day by a curve", &["proved", "plain", "pairs", "no curve"], "");
    let mut ratios = Vec::new();
    for (name, case) in days::by_curve() {
        for (kind, curve) in curves::all(&case) {
            let letter = name.split(' ').next().unwrap_or_default();
            let [times, line] = by_curve_lines(&format!("{letter} {kind}, {}", words(&case)), &case, curve);
            println!("{times}");
            ratios.push(line);
        }
    }
    let [days, weeks] = BY_CURVE;
    println!("{days} in turn, {} of a week\n", weeks.rounds);
    heads("day by a curve", &["proved/plain", "proved/pairs", "proved/no curve"], " starts");
    println!("{}\n", ratios.join("\n"));
    heads("table of a curve", &["proved", "rust", "proved/rust"], "");
    for (kind, curve) in curves::all(&days::source(24)) {
        let filled = |by: &fn(Curve) -> Vec<i64>| by(black_box(curve));
        let proved: fn(Curve) -> Vec<i64> = |curve| {
            let mut costs = vec![0; COSTS];
            assert!(library::table(curve, &mut costs) == 0);
            costs
        };
        println!("{}", table::line(kind, &SHORT, [proved, curves::table], filled));
    }
    println!("{SHORT} in turn\n");
}

/// A case in a few words: its outputs, ramp and hours.
fn words(case: &Case) -> String {
    let outputs = case.capacity - case.minimum + 1;
    format!("{outputs} outputs, ramp {}, {} h", case.rampup, case.hours)
}

/// Prints the table of reading.
fn readings() {
    heads("file", &["proved", "rust", "proved/rust"], "  number");
    let readers: [Reader; 2] = [|file| NOW.read(file), reader::read];
    for (name, file) in files::all() {
        let line = table::line(name, &SHORT, readers, |read| read(black_box(&file)));
        println!("{line}{:>8}", NOW.read(&file).number);
    }
    println!("{SHORT} in turn");
}

fn main() {
    searches();
    searches_by_curve();
    readings();
    #[cfg(feature = "before")]
    before::tables();
}
