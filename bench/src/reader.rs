//! Reading a case file as a plain programme: the entries of a section by division of its length, and the refusals one
//! after the other.

use giqapsun::boundary::{Reading, OFF};
use giqapsun::{Case, HOURS, PRICE_LEAST, PRICE_MOST, STAGES};

/// Nothing, or the number of the refusal.
type Test = Result<(), u32>;

/// The 16-bit number at a place.
fn word(bytes: &[u8], at: usize) -> u16 {
    u16::from_le_bytes([bytes[at], bytes[at + 1]])
}

/// The signed 32-bit number at a place.
fn long(bytes: &[u8], at: usize) -> i32 {
    i32::from_le_bytes([bytes[at], bytes[at + 1], bytes[at + 2], bytes[at + 3]])
}

/// Refuses with the number where the condition is not kept.
fn keep(number: u32, kept: bool) -> Test {
    if kept {
        Ok(())
    } else {
        Err(number)
    }
}

/// The sections of a file of so many pairs, which follow one another from there to the end of the file.
fn sections<const N: usize>(file: &[u8]) -> Option<[&[u8]; N]> {
    let mut sections = [&file[..0]; N];
    let mut end = 4 * N;
    let pairs = file.get(..end)?.chunks_exact(4);
    for (section, pair) in sections.iter_mut().zip(pairs) {
        let offset = usize::from(word(pair, 0));
        if offset != end {
            return None;
        }
        end += usize::from(word(pair, 2));
        *section = file.get(offset..end)?;
    }
    (end == file.len()).then_some(sections)
}

/// How many entries of so many bytes a section has, from 1 to the most.
fn entries(section: &[u8], bytes: usize, most: usize) -> Result<usize, u32> {
    let count = section.len() / bytes;
    keep(2, count * bytes == section.len() && (1..=most).contains(&count))?;
    Ok(count)
}

/// A trajectory, and how many outputs it has.
fn trajectory(section: &[u8], outputs: &mut [u16; STAGES]) -> Result<usize, u32> {
    let count = entries(section, 2, STAGES)?;
    for (output, entry) in outputs.iter_mut().zip(section.chunks_exact(2)) {
        *output = word(entry, 0);
    }
    Ok(count)
}

/// The unit, of so many bytes, and the two trajectories. Stages stand at the end of a unit that has them.
fn unit(case: &mut Case, bytes: usize, [unit, rise, fall]: [&[u8]; 3]) -> Test {
    keep(2, unit.len() == bytes)?;
    case.rises = trajectory(rise, &mut case.rise)?;
    case.falls = trajectory(fall, &mut case.fall)?;
    case.capacity = word(unit, 0);
    case.minimum = word(unit, 2);
    case.rampup = word(unit, 4);
    case.rampdown = word(unit, 6);
    case.minup = word(unit, 8);
    case.mindown = word(unit, 10);
    case.variable = long(unit, 12);
    case.fixed = long(unit, 16);
    case.startcost = long(unit, 20);
    case.stopcost = long(unit, 24);
    case.initial = word(unit, 28);
    case.elapsed = word(unit, 30);
    if let &[up, down] = &unit[32..] {
        (case.upstage, case.downstage) = (up, down);
    }
    Ok(())
}

/// The hours, of so many bytes each: a price, and an order in the last byte.
fn hours(case: &mut Case, section: &[u8], bytes: usize, price: impl Fn(&[u8]) -> i32) -> Test {
    case.hours = entries(section, bytes, HOURS)?;
    for (k, hour) in section.chunks_exact(bytes).enumerate() {
        case.prices[k] = price(hour);
        case.orders[k] = hour[bytes - 1];
    }
    Ok(())
}

/// Whether the output and the hours before the day are those of its stage, or of a day without one.
fn opens(case: &Case) -> bool {
    let (up, down) = (usize::from(case.upstage), usize::from(case.downstage));
    let (initial, elapsed) = (case.initial, usize::from(case.elapsed));
    match (up, down) {
        (0, 0) if initial == 0 => true,
        (0, 0) => (case.minimum..=case.capacity).contains(&initial) && elapsed >= case.rises,
        (_, 0) => up < case.rises && initial == case.rise[up - 1] && elapsed == up,
        (0, 2..) => down <= case.falls && initial == case.fall[down - 1] && elapsed + 1 >= case.rises + down,
        _ => false,
    }
}

/// Refusals 3 to 8 and 13 of a case whose counts are in order.
fn limits(case: &Case) -> Test {
    let (rise, fall) = (&case.rise[..case.rises], &case.fall[..case.falls]);
    let (minimum, capacity) = (case.minimum, case.capacity);
    keep(3, (1..=capacity).contains(&minimum) && capacity <= 400)?;
    keep(4, [case.rampup, case.rampdown].iter().all(|ramp| (1..=400).contains(ramp)))?;
    keep(4, [case.minup, case.mindown].iter().all(|time| (1..=24).contains(time)))?;
    keep(5, (0..=1_000_000).contains(&case.variable))?;
    let costs = [case.fixed, case.startcost, case.stopcost];
    keep(5, costs.iter().all(|cost| (0..=100_000_000).contains(cost)))?;
    keep(6, rise[0] >= 1 && rise.is_sorted_by(|a, b| a < b) && rise[case.rises - 1] == minimum)?;
    keep(6, fall[0] == minimum && fall.is_sorted_by(|a, b| a > b) && fall[case.falls - 1] >= 1)?;
    keep(7, (1..=10_000).contains(&case.elapsed) && opens(case))?;
    keep(8, case.orders[..case.hours].iter().all(|&order| order <= OFF))?;
    keep(13, case.prices[..case.hours].iter().all(|price| (PRICE_LEAST..=PRICE_MOST).contains(price)))
}

/// Fills a record of zeros from a file. The first offset decides whether there are four pairs or five; of five the form
/// number decides how long the unit is.
fn fill(case: &mut Case, file: &[u8]) -> Test {
    if let Some([first, rise, fall, day]) = sections(file) {
        unit(case, 32, [first, rise, fall])?;
        hours(case, day, 3, |hour| i32::from(word(hour, 0)))?;
    } else {
        let [first, rise, fall, day, form] = sections(file).ok_or(1u32)?;
        keep(2, form.len() == 2)?;
        let form = word(form, 0);
        unit(case, if form == 2 { 32 } else { 34 }, [first, rise, fall])?;
        hours(case, day, 5, |hour| long(hour, 0))?;
        keep(12, form == 2 || form == 3)?;
    }
    limits(case)
}

/// The case of a file, or the number of its refusal beside the record of zeros.
pub fn read(file: &[u8]) -> Reading {
    let mut case = Case::default();
    match fill(&mut case, file) {
        Ok(()) => Reading { number: 0, c: case },
        Err(number) => Reading { number, c: Case::default() },
    }
}
