//! The command line.

use crate::groups::{Group, GROUPS};
use crate::report::Named;
use oracle::calendar::Calendar;
use oracle::case::Case;
use oracle::curve::{faults, Curve};
use oracle::curves::Drawn;
use oracle::file;
use oracle::forecast::{at_row, half_way};
use oracle::refusals;
use std::path::PathBuf;
use std::str::FromStr;
use std::time::Duration;

/// How to call this program.
pub const USAGE: &str = "\
usage: compare [--seed N] [--groups NAME,NAME.. [--index N]] [--first N] [--limit SECONDS]
       compare --case FILE [--list OUTPUT,OUTPUT.. [--second OUTPUT,OUTPUT..]] [--limit SECONDS]
       compare --case FILE --day FIRST,HOURS [--on FIRST,LENGTH..] [--off FIRST,LENGTH..] [--limit SECONDS]
       compare [--case FILE [--list OUTPUT,OUTPUT..]] --curve KIND,A,B,C [--limit SECONDS]
       compare --case FILE --row PRICE,PRICE.. [--curve KIND,A,B,C | --day FIRST,HOURS ..] [--limit SECONDS]
       compare --groups
The first runs every index of the groups, one index of them, or the first so many; the second one case, with a list to
check if one is named, and a second one to compare it with; the third one case by a calendar; the fourth a cost curve,
and one case by it, each coefficient a number or its bits after 0x; the fifth one case at its prices, at a second row
and half-way; the last lists the groups. A call that takes longer than the limit, 10 s if none is named, is a
difference. Status 1: something differs, or a kind of pairs, files, records, days, calendars, lists, lengths, curves or
forecasts has not come up.";

/// Lists that may be named on the command line.
const LISTS: [&str; 5] = ["list", "second", "on", "off", "day"];

/// Seed of the first group; each next group has the next number.
const SEED: u64 = 0x9109_a500;

/// Seconds that a call may take.
const LIMIT: u64 = 10;

/// What the command line asks for.
pub struct Wishes {
    pub help: bool,
    pub seed: u64,
    /// Places of groups; none of them asks for a list of all.
    pub groups: Vec<usize>,
    pub index: Option<u64>,
    /// How many indices of a group are run, if not every one.
    pub first: Option<u64>,
    pub limit: Duration,
    /// A file and its bytes.
    pub case: Option<(PathBuf, Vec<u8>)>,
    /// Lists that were named, in any order.
    pub lists: Vec<Named>,
    /// A cost curve.
    pub curve: Option<Drawn>,
    /// A second row of prices; empty if none was named.
    pub row: Vec<i32>,
}

/// The list of this name, if there is one.
pub fn named<'a>(lists: &'a [Named], wanted: &str) -> Option<&'a [u16]> {
    lists.iter().find(|(name, _)| *name == wanted).map(|(_, list)| &list[..])
}

/// The calendar whose day is named, if one is.
pub fn calendar(lists: &[Named]) -> Option<Calendar<'_>> {
    let &[first, hours] = named(lists, "day")? else {
        return None;
    };
    let [on, off] = ["on", "off"].map(|name| named(lists, name).unwrap_or_default());
    Some(Calendar { on, off, first, hours })
}

/// Reads the command line; what is wrong with it, in a line.
pub fn wishes(words: impl Iterator<Item = String>) -> Result<Wishes, String> {
    let mut wishes = Wishes {
        help: false,
        seed: SEED,
        groups: (0..GROUPS.len()).collect(),
        index: None,
        first: None,
        limit: Duration::from_secs(LIMIT),
        case: None,
        lists: Vec::new(),
        curve: None,
        row: Vec::new(),
    };
    let mut words = words.peekable();
    while let Some(word) = words.next() {
        let value = words.next_if(|next| !next.starts_with("--")).unwrap_or_default();
        match word.as_str() {
            "--help" => wishes.help = true,
            "--seed" => wishes.seed = number(&word, &value)?,
            "--groups" => wishes.groups = places(&value)?,
            "--index" => wishes.index = Some(number(&word, &value)?),
            "--first" => wishes.first = Some(number(&word, &value)?),
            "--limit" => wishes.limit = Duration::from_secs(number(&word, &value)?.max(1)),
            "--case" => wishes.case = Some(contents(&value)?),
            "--curve" => wishes.curve = Some(curve(&value)?),
            "--row" => wishes.row = numbers(&word, &value)?,
            _ => wishes.lists.push((list_name(&word)?, numbers(&word, &value)?)),
        }
    }
    tested(&wishes.lists)?;
    tested_row(&wishes)?;
    match wishes.index {
        Some(_) if wishes.first.is_some() => {
            Err("--first and --index are not asked for together".to_string())
        }
        Some(index) if wishes.groups.iter().any(|&place| index >= GROUPS[place].count) => {
            Err(format!("not every group that is asked for has an index {index}"))
        }
        _ => Ok(wishes),
    }
}

/// The places of groups with commas between; of none, if nothing is named.
fn places(names: &str) -> Result<Vec<usize>, String> {
    let place = |name: &str| GROUPS.iter().position(|group| group.name == name);
    let names = names.split(',').filter(|name| !name.is_empty());
    names.map(|name| place(name).ok_or(format!("{name} is no group"))).collect()
}

/// A number in decimal digits, or in hex digits after 0x.
fn number(option: &str, text: &str) -> Result<u64, String> {
    let read = match text.strip_prefix("0x") {
        Some(digits) => u64::from_str_radix(digits, 16),
        None => text.parse(),
    };
    read.map_err(|_| format!("{option}: '{text}' is no number"))
}

/// A file as an absolute path, and its bytes.
fn contents(name: &str) -> Result<(PathBuf, Vec<u8>), String> {
    let read = |path: PathBuf| std::fs::read(&path).map(|bytes| (path, bytes));
    std::fs::canonicalize(name).and_then(read).map_err(|error| format!("--case: '{name}': {error}"))
}

/// A kind and three coefficients with commas between.
fn curve(text: &str) -> Result<Drawn, String> {
    let fault = || format!("--curve: '{text}' is not a kind and three coefficients");
    let words: Vec<&str> = text.split(',').collect();
    let &[kind, a, b, c] = &words[..] else {
        return Err(fault());
    };
    let number = |word: &str| match word.strip_prefix("0x") {
        Some(digits) => u64::from_str_radix(digits, 16).map(f64::from_bits).map_err(|_| fault()),
        None => word.parse().map_err(|_| fault()),
    };
    Ok((kind.parse().map_err(|_| fault())?, Curve { a: number(a)?, b: number(b)?, c: number(c)? }))
}

/// The list that an option names.
fn list_name(option: &str) -> Result<&'static str, String> {
    let name = LISTS.into_iter().find(|name| option.strip_prefix("--") == Some(name));
    name.ok_or(format!("{option} is no option"))
}

/// Numbers with commas between; `none` is a list of none.
fn numbers<N: FromStr>(option: &str, text: &str) -> Result<Vec<N>, String> {
    let words = text.split(',').filter(|_| text != "none");
    let bits = 8 * std::mem::size_of::<N>();
    words
        .map(|word| word.trim().parse().map_err(|_| format!("{option}: '{word}' is no {bits}-bit number")))
        .collect()
}

/// Whether the lists that were named belong together.
fn tested(lists: &[Named]) -> Result<(), String> {
    let is_named = |name| named(lists, name).is_some();
    if is_named("second") && !is_named("list") {
        return Err("--second asks for a --list to be compared with".to_string());
    }
    if (is_named("on") || is_named("off")) && !is_named("day") {
        return Err("--on and --off ask for a --day to be filled".to_string());
    }
    match named(lists, "day") {
        None | Some([_, _]) => Ok(()),
        Some(_) => Err("--day is a first hour and a number of hours".to_string()),
    }
}

/// Whether a second row that was named is one for the case, with a row half-way, and the case is accepted by the curve
/// or the calendar that was named too.
fn tested_row(wishes: &Wishes) -> Result<(), String> {
    let is_accepted = |case: &Case| {
        let by_curve = wishes.curve.is_none_or(|(kind, curve)| faults(kind, &curve).is_ok());
        by_curve && calendar(&wishes.lists).is_none_or(|calendar| calendar.filled(case).is_ok())
    };
    let is_row_of = |case: &Case| {
        wishes.row.len() == case.t
            && refusals::record(&at_row(case, &wishes.row)).is_ok()
            && half_way(case, &wishes.row).is_some()
    };
    let read = wishes.case.as_ref().and_then(|(_, bytes)| file::read(bytes).ok());
    match read {
        _ if wishes.row.is_empty() => Ok(()),
        Some(case) if is_row_of(&case) && is_accepted(&case) => Ok(()),
        _ => Err("--row is T prices with even sums for a --case that is accepted".to_string()),
    }
}

/// A line of the list of groups.
pub fn listed(group: &Group) -> String {
    format!("{:<20} {:>6} indices  {}", group.name, group.count, group.about)
}
