//! Random files of the three forms, most of them damaged: bits, lengths, sections, pairs, forms, limits and counts of
//! hours.

use crate::case::{Case, MOST_HOURS};
use crate::file::{assemble, assemble_with_gap, old_sections, sections, sections_before, Form};
use crate::random::Rng;
use crate::refusals::{FORM, FORM_BEFORE, HOUR_BYTES, OLD_HOUR_BYTES, PAIR_BYTES};
use crate::stages::small_staged;
use crate::units::{clear_stages, full_day, longer_day, set_old, small_unit};
use crate::weeks::locked_week;
use crate::wild::set_near_limit;

/// Form numbers that come up most: 512 and 768 are 2 and 3 with their bytes swapped, 258 and 259 are 2 and 3 with
/// another high byte.
const FORM_NUMBERS: [u16; 12] = [0, 1, 2, 3, 4, 255, 256, 258, 259, 512, 768, 65_535];

/// Lengths of a form section.
const FORM_LENGTHS: [usize; 8] = [0, 1, 2, 3, 4, 5, 256, 258];

/// The file of a random case with one damage, or more once in a while.
pub fn damaged_file(rng: &mut Rng) -> Vec<u8> {
    let mut case = any_case(rng);
    let form =
        rng.pick(&[Form::Old, Form::Numbered(FORM_BEFORE), Form::Numbered(FORM), Form::Numbered(FORM)]);
    bring_to(rng, &mut case, form);
    match rng.below(7) {
        0 | 1 => beyond_a_limit(rng, case, form),
        2 => of_another_form(rng, &case, form),
        3 => of_other_hours(rng, &case, form),
        _ => {
            let mut parts = sections_of(&case, form);
            if rng.once_in(3) {
                damage_sections(rng, &mut parts);
            }
            let mut file = assemble(&parts);
            for _ in 0..rng.pick(&[0, 1, 1, 1, 2]) {
                damage_file(rng, &mut file);
            }
            file
        }
    }
}

/// A case within the limits.
fn any_case(rng: &mut Rng) -> Case {
    match rng.below(8) {
        0 | 1 => small_unit(rng),
        2 | 3 => longer_day(rng),
        4 | 5 => small_staged(rng),
        6 => full_day(rng),
        _ => locked_week(rng),
    }
}

/// Makes a case one that a file of this form can hold.
fn bring_to(rng: &mut Rng, case: &mut Case, form: Form) {
    match form {
        Form::Old => set_old(rng, case),
        Form::Numbered(FORM) => {}
        Form::Numbered(_) => clear_stages(rng, case),
    }
}

/// The sections of a case: four of the old form, or five.
fn sections_of(case: &Case, form: Form) -> Vec<Vec<u8>> {
    match form {
        Form::Old => old_sections(case).to_vec(),
        Form::Numbered(FORM) => sections(case).to_vec(),
        Form::Numbered(_) => sections_before(case).to_vec(),
    }
}

/// A whole file with one to three fields at a limit or past it, once in a while with another form number.
fn beyond_a_limit(rng: &mut Rng, mut case: Case, form: Form) -> Vec<u8> {
    for _ in 0..rng.pick(&[1, 1, 1, 2, 2, 3]) {
        set_near_limit(rng, &mut case);
    }
    let mut parts = sections_of(&case, form);
    if form != Form::Old && rng.once_in(8) {
        parts[4] = rng.pick(&FORM_NUMBERS).to_le_bytes().to_vec();
    }
    assemble(&parts)
}

/// A whole file of the hours of a case over and over, in a section of which a count may be wrong.
fn of_other_hours(rng: &mut Rng, case: &Case, form: Form) -> Vec<u8> {
    let mut parts = sections_of(case, form);
    let before: usize = parts[..3].iter().map(Vec::len).sum();
    let room = 65_535 - PAIR_BYTES * parts.len() - before;
    let length = length_to_count(rng, if form == Form::Old { OLD_HOUR_BYTES } else { HOUR_BYTES }, room);
    parts[3] = parts[3].iter().copied().cycle().take(length).collect();
    assemble(&parts)
}

/// The longest hours section, a byte or an hour beside it, hours that are 1 to 168 in 8 bits, the most bytes
/// that a pair can name, and the most whole hours in a room.
fn length_to_count(rng: &mut Rng, size: usize, room: usize) -> usize {
    let longest = MOST_HOURS * size;
    match rng.below(7) {
        0 => longest,
        1 => longest - 1,
        2 => longest + 1,
        3 => longest + size,
        4 => (256 + rng.place(1, MOST_HOURS)) * size,
        5 => 65_535,
        _ => room - room % size,
    }
}

/// What one form has, under the pairs of the other; other first offsets; form sections and form numbers.
fn of_another_form(rng: &mut Rng, case: &Case, form: Form) -> Vec<u8> {
    let five = if rng.once_in(3) { sections_before(case) } else { sections(case) };
    let [unit, start_up, shut_down, hours, number] = five.clone();
    let [.., old_hours] = old_sections(case);
    match rng.below(14) {
        // the hours of the other form
        0 => assemble(&[unit, start_up, shut_down, old_hours, number]),
        1 => assemble(&[unit, start_up, shut_down, hours]),
        // the form section under no pair, and at the end of the hours
        2 => [assemble(&[unit, start_up, shut_down, hours]), number].concat(),
        3 => assemble(&[unit, start_up, shut_down, [hours, number].concat()]),
        // five pairs, the last of nothing; five pairs of the old form
        4 => assemble(&[unit, start_up, shut_down, old_hours, Vec::new()]),
        // hours of 4 bytes
        5 => {
            let mut parts = sections_of(case, form);
            resize(rng, &mut parts[3], 4 * case.t);
            assemble(&parts)
        }
        // a chain in order from another first offset on
        6 => {
            let count = rng.pick(&[1, 2, 2, 4, 4, 4, 8, 12]);
            let gap = rng.bytes(count);
            assemble_with_gap(&sections_of(case, form), &gap)
        }
        // a sixth section
        7 => assemble(&[unit, start_up, shut_down, hours, number.clone(), number]),
        // another form number, alone, or with a length that no form has
        8 | 9 => {
            let mut parts = five.to_vec();
            parts[4] = rng.pick(&FORM_NUMBERS).to_le_bytes().to_vec();
            if rng.once_in(3) {
                let i = rng.place(0, 3);
                let length = section_length_near_limit(rng, i, false);
                resize(rng, &mut parts[i], length);
            }
            assemble(&parts)
        }
        // a form section of another length
        10 => {
            let mut parts = five.to_vec();
            let length = rng.pick(&FORM_LENGTHS);
            resize(rng, &mut parts[4], length);
            assemble(&parts)
        }
        // the unit of another form
        11 | 12 => {
            let mut parts = sections_of(case, form);
            parts[0] = rng.pick(&[&sections(case)[0], &sections_before(case)[0]]).clone();
            assemble(&parts)
        }
        // hardly more than the pairs
        _ => {
            let mut file = if rng.once_in(2) {
                assemble(&vec![Vec::new(); rng.pick(&[4, 5])])
            } else {
                assemble(&sections_of(case, form))
            };
            let length = rng.place(14, 21);
            resize(rng, &mut file, length);
            file
        }
    }
}

/// Changes whole sections; the pairs will belong to the changed ones.
fn damage_sections(rng: &mut Rng, parts: &mut [Vec<u8>]) {
    let last = parts.len() - 1;
    let (i, j) = (rng.place(0, last), rng.place(0, last));
    match rng.below(5) {
        0 => parts.swap(i, j),
        1 | 2 => {
            let length = section_length_near_limit(rng, i, last == 3);
            resize(rng, &mut parts[i], length);
        }
        3 => resize_by_one(rng, &mut parts[i]),
        _ => lengthen_past_16_bits(rng, parts),
    }
}

/// A length at or next to a limit of the section.
fn section_length_near_limit(rng: &mut Rng, section: usize, old: bool) -> usize {
    match section {
        0 => rng.pick(&[0, 16, 30, 31, 32, 33, 34, 35, 36, 64]),
        1 | 2 => rng.pick(&[0, 1, 2, 3, 4, 15, 16, 17, 18, 32, 256, 258]),
        3 if old => rng.pick(&[0, 1, 2, 3, 4, 5, 6, 147, 502, 503, 504, 505, 506, 507, 1_008, 256, 768]),
        3 => rng.pick(&[0, 1, 3, 4, 5, 6, 9, 10, 245, 504, 835, 839, 840, 841, 845, 256, 1_280, 1_680]),
        _ => rng.pick(&FORM_LENGTHS),
    }
}

/// Cuts a section or fills it up with random bytes.
fn resize(rng: &mut Rng, part: &mut Vec<u8>, length: usize) {
    let more = rng.bytes(length.saturating_sub(part.len()));
    part.extend(more);
    part.truncate(length);
}

/// Makes a section one byte longer or shorter.
fn resize_by_one(rng: &mut Rng, part: &mut Vec<u8>) {
    let length = if rng.once_in(2) { part.len() + 1 } else { part.len().saturating_sub(1) };
    resize(rng, part, length);
}

/// Long sections, so that the chain or its end comes near to or past 65,536. Where the whole chain
/// fits in 16-bit offsets and lengths, it is in order all the same.
fn lengthen_past_16_bits(rng: &mut Rng, parts: &mut [Vec<u8>]) {
    let total: usize = parts.iter().map(Vec::len).sum();
    let i = rng.place(0, parts.len() - 1);
    let room = 65_535 - PAIR_BYTES * parts.len() - (total - parts[i].len());
    let length = match rng.below(4) {
        0 => 65_535,
        1 => room + rng.place(0, 3),
        2 => room.saturating_sub(rng.place(0, 3)),
        _ => rng.place(60_000, 65_535),
    };
    resize(rng, &mut parts[i], length);
}

/// Changes the bytes of a file.
fn damage_file(rng: &mut Rng, file: &mut Vec<u8>) {
    match rng.below(16) {
        0 | 1 => flip_bits(rng, file, 20),
        2 | 3 => flip_bits(rng, file, usize::MAX),
        4 => truncate(rng, file),
        5 => extend(rng, file),
        6 => swap_pairs(rng, file),
        7 => shift_offsets(rng, file),
        8 | 9 => change_pair_by_one(rng, file),
        10 => move_boundary(rng, file),
        11 => wrap_sum(rng, file),
        12 => wrap_end(rng, file),
        13 | 14 => change_first_offset(rng, file),
        _ => {
            let length = rng.pick(&[0, 1, 15, 16, 17, 19, 20, 21, 48, 61, 100, 4096]);
            *file = rng.bytes(length);
        }
    }
}

/// Flips one to four bits among the first so many bytes.
fn flip_bits(rng: &mut Rng, file: &mut [u8], among: usize) {
    let bytes = file.len().min(among);
    if bytes == 0 {
        return;
    }
    for _ in 0..rng.place(1, 4) {
        let at = rng.place(0, bytes - 1);
        file[at] ^= 1 << rng.below(8);
    }
}

/// Cuts the file by a few bytes, to hardly more than its pairs, or anywhere.
fn truncate(rng: &mut Rng, file: &mut Vec<u8>) {
    let length = match rng.below(5) {
        0 => file.len().saturating_sub(1),
        1 => file.len().saturating_sub(rng.pick(&[2, 3, 5])),
        2 => rng.place(0, 17).min(file.len()),
        3 => rng.place(16, 20).min(file.len()),
        _ => rng.place(0, file.len()),
    };
    file.truncate(length);
}

/// Adds bytes at the end: few, or so many that the length is the old one plus 65,536.
fn extend(rng: &mut Rng, file: &mut Vec<u8>) {
    let count = rng.pick(&[1, 2, 3, 5, 6, 100, 65_536]);
    let more = rng.bytes(count);
    file.extend(more);
}

/// Number i of those at the head: offset and length of each pair in turn.
fn head_number(file: &[u8], i: usize) -> u16 {
    u16::from_le_bytes([file[2 * i], file[2 * i + 1]])
}

/// Changes number i of the head.
fn set_head_number(file: &mut [u8], i: usize, number: u16) {
    file[2 * i..2 * i + 2].copy_from_slice(&number.to_le_bytes());
}

/// The pairs at the head: five if the first offset is 20, four otherwise, as far as the file has them.
fn pairs(file: &[u8]) -> usize {
    let wanted = if file.starts_with(&[20, 0]) { 5 } else { 4 };
    if file.len() < wanted * PAIR_BYTES {
        return 0;
    }
    wanted
}

/// Changes the first offset alone.
fn change_first_offset(rng: &mut Rng, file: &mut [u8]) {
    if pairs(file) > 0 {
        let offset = rng.pick(&[0, 4, 12, 15, 16, 16, 17, 18, 19, 20, 20, 21, 22, 24, 32, 272, 276, 65_535]);
        set_head_number(file, 0, offset);
    }
}

/// Swaps two pairs and leaves the sections.
fn swap_pairs(rng: &mut Rng, file: &mut [u8]) {
    let pairs = pairs(file);
    if pairs > 0 {
        let (i, j) = (rng.place(0, pairs - 1), rng.place(0, pairs - 1));
        for half in 0..2 {
            let (first, second) = (head_number(file, 2 * i + half), head_number(file, 2 * j + half));
            set_head_number(file, 2 * i + half, second);
            set_head_number(file, 2 * j + half, first);
        }
    }
}

/// Moves all offsets by the same number, once in a while with the bytes to match.
fn shift_offsets(rng: &mut Rng, file: &mut Vec<u8>) {
    let pairs = pairs(file);
    if pairs > 0 {
        let step = rng.pick(&[1, 2, 4, 16, 65_535, 65_532]);
        for pair in 0..pairs {
            let offset = head_number(file, 2 * pair).wrapping_add(step);
            set_head_number(file, 2 * pair, offset);
        }
        if rng.once_in(2) && step < 100 {
            let gap = rng.bytes(step.into());
            let end = PAIR_BYTES * pairs;
            file.splice(end..end, gap);
        }
    }
}

/// Changes one number of the head by one.
fn change_pair_by_one(rng: &mut Rng, file: &mut [u8]) {
    let pairs = pairs(file);
    if pairs > 0 {
        let i = rng.place(0, 2 * pairs - 1);
        let step = rng.pick(&[1, 65_535]);
        set_head_number(file, i, head_number(file, i).wrapping_add(step));
    }
}

/// Moves the boundary between two sections, so that the chain stays whole.
fn move_boundary(rng: &mut Rng, file: &mut [u8]) {
    let pairs = pairs(file);
    if pairs > 0 {
        let pair = rng.place(0, pairs - 2);
        let step = rng.pick(&[1, 2, 3, 5, 65_535, 65_534, 65_533, 65_531]);
        let length = head_number(file, 2 * pair + 1).wrapping_add(step);
        let next_offset = head_number(file, 2 * pair + 2).wrapping_add(step);
        let next_length = head_number(file, 2 * pair + 3).wrapping_sub(step);
        set_head_number(file, 2 * pair + 1, length);
        set_head_number(file, 2 * pair + 2, next_offset);
        set_head_number(file, 2 * pair + 3, next_length);
    }
}

/// Makes a chain that is in order only if sums wrap at 65,536: one section reaches past it, the
/// offsets go on from the small number that is left, and the file ends where the last one does.
fn wrap_sum(rng: &mut Rng, file: &mut Vec<u8>) {
    let pairs = pairs(file);
    if pairs > 0 {
        let head = PAIR_BYTES * pairs;
        let wrapping = rng.place(0, pairs - 1);
        let mut offset = head as u16;
        for pair in 0..pairs {
            let length = match pair == wrapping {
                true => 65_535 - rng.between16(0, offset.saturating_sub(1)),
                false => head_number(file, 2 * pair + 1),
            };
            set_head_number(file, 2 * pair, offset);
            set_head_number(file, 2 * pair + 1, length);
            offset = offset.wrapping_add(length);
        }
        resize(rng, file, usize::from(offset).max(head));
    }
}

/// Makes a whole chain that ends past 65,536, in a file that ends there, or in one that ends 65,536
/// bytes earlier.
fn wrap_end(rng: &mut Rng, file: &mut Vec<u8>) {
    let (first, second) = (rng.between16(20_000, 30_000), rng.between16(20_000, 30_000));
    let third = 65_000 - 20 - first - second + rng.between16(0, 535);
    let mut lengths = vec![first, second, third, rng.between16(600, 900)];
    if rng.once_in(2) {
        lengths.insert(2, 0);
    }
    let parts: Vec<Vec<u8>> = lengths.iter().map(|&length| rng.bytes(length.into())).collect();
    *file = assemble(&parts);
    if rng.once_in(2) {
        let length = file.len() - 65_536;
        file.truncate(length);
    }
}
