//! How a difference is printed: the call with the memory it was lent, what differs, the case saved as a file, and the
//! commands that run it again.

use crate::calls::{Call, Input, Name, Windows};
use oracle::case::Case;
use oracle::curves::Drawn;
use oracle::file;
use std::path::{Path, PathBuf};

/// Most numbers of a list in a command, without which there is none, and in a line.
const MOST_LISTED: usize = 200;
const MOST_PRINTED: usize = 1_000;

/// A list, with its name, which is that of its option on the command line too.
pub type Named = (&'static str, Vec<u16>);

/// What is running, as the command line has it.
#[derive(Default)]
pub struct Source {
    /// Words that run the same index again, in the same memory.
    again: String,
    /// The name of the case, for the file in which it is saved.
    name: String,
    /// A file that was named on the command line, and its bytes.
    given: Option<(PathBuf, Vec<u8>)>,
}

impl Source {
    /// An index of a group.
    pub fn of_index(group: &str, seed: u64, index: u64) -> Source {
        let again = format!("--seed {seed:#x} --groups {group} --index {index}");
        Source { again, name: format!("{group}-{index}"), given: None }
    }

    /// A file, and the lists, the curve and the second row that it is tried with.
    pub fn of_file(path: &Path, bytes: &[u8], lists: &[Named], curve: Option<Drawn>, row: &[i32]) -> Source {
        let again = format!("--case {}{}", quoted(path), options(lists, curve, row));
        Source { again, name: "case".to_string(), given: Some((path.to_path_buf(), bytes.to_vec())) }
    }

    /// A curve alone.
    pub fn of_curve(drawn: Drawn) -> Source {
        let again = curve_option(Some(drawn)).trim().to_string();
        Source { again, name: "curve".to_string(), given: None }
    }
}

/// Prints the block of a process that was ended while no call was made.
pub fn show_outside(source: &Source, how: &str) {
    println!("DIFFERENCE {}: between two calls\n  given     {how}", source.name);
    println!("  again     {} {}", program(), source.again);
}

/// Prints one block, with the second row of prices where there is one.
pub fn show(source: &Source, call: &Call, difference: &str, row: &[i32]) {
    println!("DIFFERENCE {}: {}", source.name, call.name.word());
    println!("  call      {}", call.words());
    println!("{difference}");
    let case = match (call.input, call.input.case()) {
        (Input::File(bytes), _) => kept(source, call.name, bytes),
        (_, case) => case.and_then(|case| kept_case(source, call.name, case)),
    };
    let (lists, curve) = (lists(&call.input), call.input.curve());
    lists.iter().for_each(|(name, list)| println!("  {name:<10}{}", printed(list)));
    if let Some((kind, curve)) = curve {
        println!("  curve     kind {kind}, a {:?}, b {:?}, c {:?}", curve.a, curve.b, curve.c);
    }
    if let (Some(case), false) = (call.input.case(), row.is_empty()) {
        println!("  prices    {}", numbers(&case.prices[..row.len()]));
        println!("  row       {}", numbers(row));
    }
    println!("  again     {} {}", program(), source.again);
    let few = lists.iter().all(|(_, list)| list.len() <= MOST_LISTED);
    if let (Some(path), None, true) = (case, &source.given, few) {
        let options = options(&lists, curve, row);
        println!("  alone     {} --case {}{options}", program(), quoted(&path));
    }
    if let Input::Curve(_) = call.input {
        println!("  alone     {}{}", program(), curve_option(curve));
    }
}

/// The lists of a call: outputs, or windows and the day that they fill.
fn lists(input: &Input) -> Vec<Named> {
    match *input {
        Input::File(_) | Input::Case(_) | Input::Curve(_) | Input::ByCurve(_, _) => Vec::new(),
        Input::List(_, list) | Input::ListByCurve(_, _, list) => vec![("list", list.to_vec())],
        Input::Pair(_, pair) => vec![("list", pair.first.to_vec()), ("second", pair.second.to_vec())],
        Input::Calendar(_, Windows { lists, first, hours }) => {
            vec![("on", lists.first.to_vec()), ("off", lists.second.to_vec()), ("day", vec![first, hours])]
        }
    }
}

/// Saves a case as a file, and prints its name; a record that no file holds is printed. Gives the file if it holds all
/// of the record.
fn kept_case(source: &Source, call: Name, case: &Case) -> Option<PathBuf> {
    match file::write(case) {
        Ok(bytes) => {
            let path = kept(source, call, &bytes);
            if *case == case.zeroed_past_counts() {
                return path;
            }
            println!("            without the numbers past its counts: {case:?}");
            None
        }
        Err(number) => {
            println!("  case      in no file, since it is refused with {number}: {case:?}");
            None
        }
    }
}

/// Saves the bytes of a file and prints its name.
fn kept(source: &Source, call: Name, bytes: &[u8]) -> Option<PathBuf> {
    let path = match &source.given {
        Some((path, given)) if given == bytes => path.clone(),
        _ => saved(&format!("{}-{}.case", source.name, call.word()), bytes)?,
    };
    println!("  case      {}", path.display());
    Some(path)
}

/// Writes a file into the folder `differences` beside this program.
fn saved(name: &str, bytes: &[u8]) -> Option<PathBuf> {
    let path = std::env::current_exe().ok()?.parent()?.join("differences").join(name);
    let written = std::fs::create_dir_all(path.parent()?).and_then(|()| std::fs::write(&path, bytes));
    if let Err(error) = written {
        println!("  case      not saved: {}: {error}", path.display());
        return None;
    }
    Some(path)
}

/// Lists, a curve and a second row as words of the command line.
fn options(lists: &[Named], curve: Option<Drawn>, row: &[i32]) -> String {
    let lists: String = lists.iter().map(|(name, list)| format!(" --{name} {}", numbers(list))).collect();
    let row = if row.is_empty() { String::new() } else { format!(" --row {}", numbers(row)) };
    lists + &curve_option(curve) + &row
}

/// A curve as words of the command line: its kind, and the bits of each coefficient; nothing where there is none.
fn curve_option(curve: Option<Drawn>) -> String {
    let bits = |(kind, curve): Drawn| {
        let [a, b, c] = curve.coefficients().map(f64::to_bits);
        format!(" --curve {kind},{a:#x},{b:#x},{c:#x}")
    };
    curve.map_or(String::new(), bits)
}

/// A list for a line, in part if it is long.
fn printed(list: &[u16]) -> String {
    match list.len() {
        0..=MOST_PRINTED => numbers(list),
        count => format!("{},.. {count} numbers", numbers(&list[..MOST_PRINTED])),
    }
}

/// Numbers with commas between; `none` for a list of none.
fn numbers<N: ToString>(list: &[N]) -> String {
    match list.len() {
        0 => "none".to_string(),
        _ => list.iter().map(N::to_string).collect::<Vec<_>>().join(","),
    }
}

/// This program, to be run from anywhere.
fn program() -> String {
    quoted(&std::env::current_exe().unwrap_or_else(|_| PathBuf::from("compare")))
}

/// A path as one word of a shell.
fn quoted(path: &Path) -> String {
    let text = path.display().to_string();
    let plain = |letter: char| letter.is_ascii_alphanumeric() || "/._-+".contains(letter);
    if text.chars().all(plain) {
        return text;
    }
    format!("'{}'", text.replace('\'', r"'\''"))
}
