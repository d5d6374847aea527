//! Files of the three forms: the program's example, the examples of the refusal list, the known files, and what holds
//! of every file.

use crate::{Tally, SEED};
use oracle::answers;
use oracle::best::{by_commitment, every_list};
use oracle::case::{Case, MOST_HOURS};
use oracle::damage::damaged_file;
use oracle::days::{self, Answer};
use oracle::dp::best_list;
use oracle::file::{self, Form};
use oracle::known_files::{known_files, KnownFile, COUNT, FORM_2, FORM_3, OLD};
use oracle::random::Rng;
use oracle::refusals::FORM_BEFORE;
use oracle::units::{full_day, small_unit};
use oracle::wild::fill_past_counts;

/// Numbers of random cases.
const ROUND_TRIPS: u64 = 10_000;
const DAMAGED_FILES: u64 = 20_000;

/// The pairs at the head of a file.
fn pairs(file: &[u8], count: usize) -> Vec<(u16, u16)> {
    let number = |two: &[u8]| u16::from_le_bytes([two[0], two[1]]);
    file[..4 * count].chunks(4).map(|pair| (number(pair), number(&pair[2..]))).collect()
}

/// The program's example in each form, its pairs and its text; and the program's refusals.
pub fn program_example(tally: &mut Tally) {
    let case = days::program_example();
    let [old, before, new] = in_each_form(&case);
    tally.same("pairs", pairs(&old, 4), days::EXAMPLE_PAIRS.to_vec());
    tally.same("pairs", pairs(&before, 5), vec![(20, 32), (52, 4), (56, 4), (60, 15), (75, 2)]);
    tally.same("pairs", pairs(&new, 5), vec![(20, 34), (54, 4), (58, 4), (62, 15), (77, 2)]);
    tally.same("bytes", &old[..], &OLD[..]);
    tally.same("bytes", &before[..], &FORM_2[..]);
    tally.same("bytes", &new[..], &FORM_3[..]);
    for file in [&old, &before, &new] {
        tally.same("reading", file::read(file), Ok(case));
        for search in [every_list, by_commitment, best_list] {
            tally.same("text", answers::program_text(file, search), days::EXAMPLE_TEXT.to_string());
        }
    }
    tally.same("empty", answers::program_text(&[], best_list), "refused 1\n".to_string());
    tally.same("long", answers::program_text(&[0; 4097], best_list), "refused 1\n".to_string());
    tally.same("4,096", answers::program_text(&[0; 4096], best_list), "refused 1\n".to_string());
}

/// The files of a case at old prices and without a stage: the old one, that of form 2 and that of form 3.
fn in_each_form(case: &Case) -> [Vec<u8>; 3] {
    let old = file::old_file(case).expect("the prices are old ones");
    let before = file::file_before(case).expect("no stage is set");
    [old, before, file::write(case).expect("the case is within the limits")]
}

/// The known days and the source's day in each form: one record, and one text of the program, which has the papers'
/// profit.
pub fn each_form(tally: &mut Tally) {
    for day in days::known_days() {
        let text = read_in_each_form(tally, day.name, &day.case);
        match day.answer {
            Answer::Found { profit, .. } => {
                tally.same(day.name, first_line(&text), format!("profit {profit}"))
            }
            Answer::Refused(number) => tally.same(day.name, first_line(&text), format!("refused {number}")),
            Answer::Passes { .. } | Answer::Breaks { .. } => {}
        }
    }
    let text = read_in_each_form(tally, "source's day", &days::source_day());
    tally.same("source's day", first_line(&text), format!("profit {}", days::SOURCE_PROFIT));
    for row in days::TABLE_V {
        read_in_each_form(tally, "source's days", &row.case());
    }
}

/// Reads a case from its three files, and gives the text that the program prints for each.
fn read_in_each_form(tally: &mut Tally, name: &str, case: &Case) -> String {
    let [old, before, new] = in_each_form(case);
    let text = answers::program_text(&new, best_list);
    for file in [&old, &before, &new] {
        tally.same(name, file::read(file), Ok(*case));
        tally.same(name, answers::program_text(file, best_list), text.clone());
    }
    tally.same(name, before.len() - old.len(), 4 + 2 * case.t + 2);
    tally.same(name, new.len() - before.len(), 2);
    text
}

/// The first line of a text.
fn first_line(text: &str) -> String {
    text.lines().next().unwrap_or_default().to_string()
}

/// The examples of the refusal list, and of what requests F-2 and F-5 add.
pub fn refusal_examples(tally: &mut Tally) {
    let unit = days::known_unit(0, &[10]);
    let (mut old, mut new) = (file::old_sections(&unit), file::sections(&unit));
    old[3].push(0);
    new[3].pop();
    tally.same("1", file::read(&[]), Err(1));
    tally.same("2", file::read(&file::assemble(&old)), Err(2));
    tally.same("2", file::read(&file::assemble(&new)), Err(2));
    tally.same("3", file::write(&Case { minimum: 5, ..unit }), Err(3));
    tally.same("4", file::write(&Case { ramp_up: 0, ..unit }), Err(4));
    tally.same("5", file::write(&Case { f: 1_000_001, ..unit }), Err(5));
    tally.same("5", file::write(&Case { f: -1, ..unit }), Err(5));
    tally.same("6", file::write(&Case { pu: [2, 2, 0, 0, 0, 0, 0, 0], ..unit }), Err(6));
    tally.same("7", file::write(&Case { p0: 1, ..unit }), Err(7));
    tally.same("7", file::write(&Case { up_stage: 1, ..unit }), Err(7));
    tally.same("7", file::write(&Case { down_stage: 2, ..unit }), Err(7));
    tally.same("8", file::write(&Case { orders: [3; MOST_HOURS], ..unit }), Err(8));
    let above = days::known_unit(0, &[10_000_001]);
    tally.same("13", file::write(&above), Err(13));
    tally.same("13", file::write(&days::known_unit(0, &[-10_000_001])), Err(13));
    tally.same("8 before 13", file::write(&Case { orders: [3; MOST_HOURS], ..above }), Err(8));
    tally.same("13 before 9", answers::verdict(&above, &[]).number, 13);
    tally.same("13 before 10", answers::schedule(&above, 0, 0, best_list).number, 13);
    tally.same("13 before 10", answers::writing(&above, 0).number, 13);
    let past = Case { t: 1, ..days::known_unit(0, &[10, 10_000_001]) };
    tally.same("13 past T", answers::verdict(&past, &[0]).number, 0);
    tally.same("9", answers::verdict(&days::known_unit(0, &[10; 2]), &[0]).number, 9);
    tally.same("10", answers::schedule(&unit, 8191, 1, best_list).number, 10);
    tally.same("10", answers::schedule(&unit, 8192, 0, best_list).number, 10);
    tally.same("10", answers::writing(&unit, 68).number, 10);
    tally.same("0", answers::writing(&unit, 69).number, 0);
    let mut largest = days::known_unit(0, &[10; 168]);
    (largest.minimum, largest.capacity, largest.ud, largest.dd) = (8, 8, 8, 8);
    (largest.pu, largest.pd) = ([1, 2, 3, 4, 5, 6, 7, 8], [8, 7, 6, 5, 4, 3, 2, 1]);
    tally.same("most bytes", answers::writing(&largest, 928).bytes.len(), 928);
    tally.same("10", answers::writing(&largest, 927).number, 10);
}

/// The known files: the answer of each, and what is written of those that are read.
pub fn known(tally: &mut Tally) -> String {
    let files = known_files();
    tally.same("count", files.len() as u64, COUNT);
    let mut counts = [0; 14];
    for KnownFile { name, bytes, answer } in files {
        counts[answer.err().unwrap_or(0) as usize] += 1;
        tally.same(name, file::read(bytes), *answer);
        if let Ok(case) = answer {
            written_again(tally, bytes, case);
        }
    }
    format!("; numbers 0 to 13: {counts:?}")
}

/// A form 3 file that was read is what its record writes; another one is what its record has in that form, and,
/// written and read again, gives the equal record.
fn written_again(tally: &mut Tally, bytes: &[u8], case: &Case) {
    let written = file::write(case).expect("what is read can be written");
    let form = file::held(bytes).map(|(form, _)| form);
    let again = match form {
        Ok(Form::Old) => file::old_file(case),
        Ok(Form::Numbered(FORM_BEFORE)) => file::file_before(case),
        _ => Some(written.clone()),
    };
    tally.same("bytes", again.as_deref(), Some(bytes));
    tally.same("read again", file::read(&written), Ok(*case));
}

/// Reading the written bytes returns the record zeroed past its counts, and so does reading its files of form 2 and of
/// the old form, if there are such.
pub fn round_trips(tally: &mut Tally) -> String {
    let (mut old_files, mut files_before) = (0, 0);
    for index in 0..ROUND_TRIPS {
        let mut rng = Rng::for_index(SEED, index);
        let mut case = if index % 2 == 0 { small_unit(&mut rng) } else { full_day(&mut rng) };
        fill_past_counts(&mut rng, &mut case);
        let zeroed = case.zeroed_past_counts();
        let file = file::write(&case).expect("the case is within the limits");
        let bytes = 20 + 34 + 2 * case.ud + 2 * case.dd + 5 * case.t + 2;
        tally.same("length", file.len(), bytes);
        tally.same("stages", &file[52..54], &[case.up_stage, case.down_stage]);
        tally.same("form number", &file[bytes - 2..], &[3, 0]);
        tally.same("read back", file::read(&file), Ok(zeroed));
        tally.same("write again", file::write(&zeroed), Ok(file));
        if let Some(before) = file::file_before(&case) {
            files_before += 1;
            tally.same("form 2", file::read(&before), Ok(zeroed));
        }
        if let Some(old) = file::old_file(&case) {
            old_files += 1;
            tally.same("old file", file::read(&old), Ok(zeroed));
        }
    }
    format!("; {files_before} in form 2 too, {old_files} in the old form")
}

/// A file that is read is written again; a refused one gets a number from 1 to 8, 12 or 13.
pub fn damaged(tally: &mut Tally) -> String {
    let mut counts = [0; 14];
    for index in 0..DAMAGED_FILES {
        let file = damaged_file(&mut Rng::for_index(SEED, index));
        let read = file::read(&file);
        let number = read.err().unwrap_or(0);
        counts[number as usize] += 1;
        match read {
            Ok(case) => written_again(tally, &file, &case),
            Err(number) => tally.same("number", matches!(number, 1..=8 | 12 | 13), true),
        }
    }
    format!("; numbers 0 to 13: {counts:?}")
}
