//! The case file (scope, "Case file"; requests F-2 and F-5): pairs of offset and length, then the sections unit,
//! start-up trajectory, shut-down trajectory and hours, and in a file of five pairs the form number after them. The
//! unit of form 3 ends with the two stages. Numbers stand least significant byte first.

use crate::case::Case;
use crate::refusals::{
    self, FORM, FORM_BEFORE, HOUR_BYTES, LEAST_BYTES, OLD_HOUR_BYTES, OLD_UNIT_BYTES, PAIR_BYTES,
};
use std::ops::RangeInclusive;

/// Prices that a file of the old form can hold: 16-bit numbers without a sign.
pub const OLD_PRICES: RangeInclusive<i32> = 0..=65_535;

/// The form of a file: the old one, or a form number.
#[derive(Clone, Copy, Debug, PartialEq, Eq)]
pub enum Form {
    Old,
    Numbered(u16),
}

/// Reads a file: the record, zeroed past its counts, or the number of the refusal.
pub fn read(file: &[u8]) -> Result<Case, u32> {
    let (form, case) = held(file)?;
    if let Form::Numbered(number) = form {
        refusals::form(number)?;
    }
    refusals::record(&case)?;
    Ok(case)
}

/// What a file holds that neither 1 nor 2 refuses. The first offset says how many pairs there are: 16 is the old form
/// with four, 20 are five.
pub fn held(file: &[u8]) -> Result<(Form, Case), u32> {
    if file.len() < LEAST_BYTES {
        return Err(1);
    }
    match number16(file, 0) {
        16 => held_by_four(file),
        20 => held_by_five(file),
        _ => Err(1),
    }
}

/// The old form: four pairs, and hours of a 16-bit price and an order. Each price keeps its value.
fn held_by_four(file: &[u8]) -> Result<(Form, Case), u32> {
    let pairs: [(usize, usize); 4] = read_pairs(file);
    refusals::pairs(&pairs, file.len())?;
    refusals::old_lengths(pairs.map(|(_, length)| length))?;
    let [unit, start_up, shut_down, hours] = pairs.map(|(offset, length)| &file[offset..offset + length]);
    let mut case = read_unit(unit, start_up, shut_down);
    case.t = hours.len() / OLD_HOUR_BYTES;
    for (i, hour) in hours.chunks(OLD_HOUR_BYTES).enumerate() {
        case.prices[i] = i32::from(number16(hour, 0));
        case.orders[i] = hour[2];
    }
    Ok((Form::Old, case))
}

/// Five pairs: hours of a signed 32-bit price and an order, and the form number, which says how long the unit is.
fn held_by_five(file: &[u8]) -> Result<(Form, Case), u32> {
    if file.len() < 5 * PAIR_BYTES {
        return Err(1);
    }
    let pairs: [(usize, usize); 5] = read_pairs(file);
    refusals::pairs(&pairs, file.len())?;
    let [unit, start_up, shut_down, hours, form] =
        pairs.map(|(offset, length)| &file[offset..offset + length]);
    refusals::form_length(form.len())?;
    let form = number16(form, 0);
    refusals::lengths(form, [unit, start_up, shut_down, hours].map(<[u8]>::len))?;
    let mut case = read_unit(unit, start_up, shut_down);
    case.t = hours.len() / HOUR_BYTES;
    for (i, hour) in hours.chunks(HOUR_BYTES).enumerate() {
        case.prices[i] = signed32(hour, 0);
        case.orders[i] = hour[4];
    }
    Ok((Form::Numbered(form), case))
}

/// So many pairs of offset and length.
fn read_pairs<const PAIRS: usize>(file: &[u8]) -> [(usize, usize); PAIRS] {
    let number = |at| usize::from(number16(file, at));
    std::array::from_fn(|i| (number(PAIR_BYTES * i), number(PAIR_BYTES * i + 2)))
}

/// The fields of the unit's section, and the trajectories, in sections of fitting length. A unit without stages has
/// stages 0.
fn read_unit(unit: &[u8], start_up: &[u8], shut_down: &[u8]) -> Case {
    let mut case = Case {
        capacity: number16(unit, 0),
        minimum: number16(unit, 2),
        ramp_up: number16(unit, 4),
        ramp_down: number16(unit, 6),
        min_up: number16(unit, 8),
        min_down: number16(unit, 10),
        f: signed32(unit, 12),
        a: signed32(unit, 16),
        b: signed32(unit, 20),
        c: signed32(unit, 24),
        p0: number16(unit, 28),
        h: number16(unit, 30),
        up_stage: unit.get(OLD_UNIT_BYTES).copied().unwrap_or(0),
        down_stage: unit.get(OLD_UNIT_BYTES + 1).copied().unwrap_or(0),
        ud: start_up.len() / 2,
        dd: shut_down.len() / 2,
        ..Case::ZERO
    };
    for i in 0..case.ud {
        case.pu[i] = number16(start_up, 2 * i);
    }
    for i in 0..case.dd {
        case.pd[i] = number16(shut_down, 2 * i);
    }
    case
}

/// The 16-bit number that begins at `at`.
fn number16(bytes: &[u8], at: usize) -> u16 {
    u16::from(bytes[at]) + 256 * u16::from(bytes[at + 1])
}

/// The signed 32-bit number that begins at `at`: one of 2^31 or more stands for itself less 2^32.
fn signed32(bytes: &[u8], at: usize) -> i32 {
    let number = i64::from(number16(bytes, at)) + 65_536 * i64::from(number16(bytes, at + 2));
    let signed = if number >= 1 << 31 { number - (1 << 32) } else { number };
    i32::try_from(signed).expect("a signed number of 32 bits")
}

/// Writes a record in form 3: the file's bytes, or the number of the refusal (2 to 8, 13).
pub fn write(case: &Case) -> Result<Vec<u8>, u32> {
    refusals::record(case)?;
    Ok(assemble(&sections(case)))
}

/// The file of form 2 that a case within the limits was read from, if there can be one: it has no stages.
pub fn file_before(case: &Case) -> Option<Vec<u8>> {
    (!has_stage(case)).then(|| assemble(&sections_before(case)))
}

/// The file of the old form that a case within the limits was read from, if there can be one.
pub fn old_file(case: &Case) -> Option<Vec<u8>> {
    let old = case.prices[..case.t].iter().all(|price| OLD_PRICES.contains(price));
    (old && !has_stage(case)).then(|| assemble(&old_sections(case)))
}

/// Whether a stage is set.
fn has_stage(case: &Case) -> bool {
    (case.up_stage, case.down_stage) != (0, 0)
}

/// The five sections of form 3 of a record whose counts fit, without any other test.
pub fn sections(case: &Case) -> [Vec<u8>; 5] {
    let mut unit = unit_section(case);
    unit.extend([case.up_stage, case.down_stage]);
    sections_with(unit, case, FORM)
}

/// The five sections of form 2; the stages are left out.
pub fn sections_before(case: &Case) -> [Vec<u8>; 5] {
    sections_with(unit_section(case), case, FORM_BEFORE)
}

/// This unit with the other sections of a file of five pairs.
fn sections_with(unit: Vec<u8>, case: &Case, form: u16) -> [Vec<u8>; 5] {
    let mut hours = Vec::new();
    for i in 0..case.t {
        hours.extend(case.prices[i].to_le_bytes());
        hours.push(case.orders[i]);
    }
    let [start_up, shut_down] = trajectory_sections(case);
    [unit, start_up, shut_down, hours, form.to_le_bytes().to_vec()]
}

/// The four sections of the old form; the stages are left out, and prices are cut to 16 bits.
pub fn old_sections(case: &Case) -> [Vec<u8>; 4] {
    let mut hours = Vec::new();
    for i in 0..case.t {
        hours.extend((case.prices[i] as u16).to_le_bytes());
        hours.push(case.orders[i]);
    }
    let [start_up, shut_down] = trajectory_sections(case);
    [unit_section(case), start_up, shut_down, hours]
}

/// The bytes of the unit's section that every form has.
fn unit_section(case: &Case) -> Vec<u8> {
    let limits = [case.capacity, case.minimum, case.ramp_up, case.ramp_down, case.min_up, case.min_down];
    let mut unit = bytes16(&limits);
    for cost in [case.f, case.a, case.b, case.c] {
        unit.extend(cost.to_le_bytes());
    }
    unit.extend(bytes16(&[case.p0, case.h]));
    unit
}

/// The sections of the trajectories.
fn trajectory_sections(case: &Case) -> [Vec<u8>; 2] {
    [bytes16(&case.pu[..case.ud]), bytes16(&case.pd[..case.dd])]
}

/// The bytes of 16-bit numbers.
fn bytes16(numbers: &[u16]) -> Vec<u8> {
    numbers.iter().flat_map(|number| number.to_le_bytes()).collect()
}

/// A file of sections with the pairs that belong to them. Any number of sections of any length is taken, so that files
/// to be refused can be made too; offsets and lengths are cut to 16 bits.
pub fn assemble(sections: &[Vec<u8>]) -> Vec<u8> {
    assemble_with_gap(sections, &[])
}

/// The same with bytes between the pairs and the first section.
pub fn assemble_with_gap(sections: &[Vec<u8>], gap: &[u8]) -> Vec<u8> {
    let mut file = Vec::new();
    let mut offset = PAIR_BYTES * sections.len() + gap.len();
    for section in sections {
        file.extend((offset as u16).to_le_bytes());
        file.extend((section.len() as u16).to_le_bytes());
        offset += section.len();
    }
    file.extend(gap);
    for section in sections {
        file.extend(section);
    }
    file
}
