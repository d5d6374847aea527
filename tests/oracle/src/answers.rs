//! What each of the four calls answers (scope, "Refusal list" and "Rules of a list"; requests F-2 and F-6),
//! how many working numbers a search is to be lent, and the text of the program (scope, "Known days").

use crate::best::Plan;
use crate::case::Case;
use crate::file;
use crate::profit::{half_megawatt_hours, profit};
use crate::refusals;
use crate::rules::first_breach;

/// Answer of reading: 0 and the record, or a refusal and the record of all zeros.
#[derive(Clone, Copy, Debug, PartialEq, Eq)]
pub struct Reading {
    pub number: u32,
    pub case: Case,
}

/// Answer of writing: 0 and the bytes of the file, or a refusal and no bytes.
#[derive(Clone, Debug, PartialEq, Eq)]
pub struct Writing {
    pub number: u32,
    pub bytes: Vec<u8>,
}

/// Answer of the check: number 0 and rule 0 if the list passes, number 0 and the hour and rule it
/// breaks, or a refusal.
#[derive(Clone, Copy, Debug, PartialEq, Eq)]
pub struct Verdict {
    pub number: u32,
    pub hour: u32,
    pub rule: u32,
    pub profit: i64,
}

/// Answer of the search: 0, profit and the T outputs, or a refusal without outputs.
#[derive(Clone, Debug, PartialEq, Eq)]
pub struct Schedule {
    pub number: u32,
    pub profit: i64,
    pub list: Vec<u16>,
}

impl Schedule {
    /// How many working numbers are set to 0: those that a search of this case may ask for, if there was one.
    pub fn zeroed_numbers(&self, case: &Case) -> usize {
        match self.number {
            0 | 11 => refusals::working_numbers(case),
            _ => 0,
        }
    }
}

/// Reading tests 1, 2, 12, 3 to 8 and 13.
pub fn reading(bytes: &[u8]) -> Reading {
    match file::read(bytes) {
        Ok(case) => Reading { number: 0, case },
        Err(number) => Reading { number, case: Case::ZERO },
    }
}

/// Writing into so many lent bytes tests 2 to 8 and 13, then 10.
pub fn writing(case: &Case, lent_bytes: usize) -> Writing {
    let tested = file::write(case).and_then(|bytes| {
        refusals::file_memory(bytes.len(), lent_bytes)?;
        Ok(bytes)
    });
    match tested {
        Ok(bytes) => Writing { number: 0, bytes },
        Err(number) => Writing { number, bytes: Vec::new() },
    }
}

/// The check tests 2 to 8 and 13, then 9, then the rules.
pub fn verdict(case: &Case, list: &[u16]) -> Verdict {
    let tested = refusals::record(case).and_then(|()| refusals::list_length(case, list.len()));
    if let Err(number) = tested {
        return Verdict { number, hour: 0, rule: 0, profit: 0 };
    }
    match first_breach(case, list) {
        Some(breach) => Verdict { number: 0, hour: breach.hour, rule: breach.rule, profit: 0 },
        None => Verdict { number: 0, hour: 0, rule: 0, profit: profit(case, list) },
    }
}

/// How many working numbers a search of this record is to be lent, be the record refused or not.
pub fn work(case: &Case) -> usize {
    refusals::working_numbers(case)
}

/// The search tests 2 to 8 and 13, then 10, then 11: `search` found nothing.
pub fn schedule(
    case: &Case,
    working_numbers: usize,
    outputs: usize,
    search: impl FnOnce(&Case) -> Option<Plan>,
) -> Schedule {
    let found = refusals::record(case)
        .and_then(|()| refusals::search_memory(case, working_numbers, outputs))
        .and_then(|()| search(case).ok_or(11));
    match found {
        Ok(plan) => Schedule { number: 0, profit: plan.profit, list: plan.list },
        Err(number) => Schedule { number, profit: 0, list: Vec::new() },
    }
}

/// What the program prints for a file: the profit, then hour, output and half-megawatt-hours of
/// each hour; or "refused" and the number. It lends 8,192 working numbers.
pub fn program_text(bytes: &[u8], search: impl FnOnce(&Case) -> Option<Plan>) -> String {
    const MOST_BYTES: usize = 4096;
    const LENT_NUMBERS: usize = 8_192;
    let Reading { number, case } =
        if bytes.len() > MOST_BYTES { Reading { number: 1, case: Case::ZERO } } else { reading(bytes) };
    let found = match number {
        0 => schedule(&case, LENT_NUMBERS, case.t, search),
        _ => Schedule { number, profit: 0, list: Vec::new() },
    };
    match found.number {
        0 => day_text(&case, &found),
        number => format!("refused {number}\n"),
    }
}

/// The lines of a found day.
fn day_text(case: &Case, found: &Schedule) -> String {
    let mut text = format!("profit {}\n", found.profit);
    let mut before = case.p0;
    for (i, &output) in found.list.iter().enumerate() {
        text += &format!("{} {} {}\n", i + 1, output, half_megawatt_hours(before, output));
        before = output;
    }
    text
}
