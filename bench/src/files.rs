//! The files that are read.

use crate::days;
use giqapsun::Case;

/// The bytes of 16-bit numbers.
fn words(numbers: &[u16]) -> Vec<u8> {
    numbers.iter().flat_map(|number| number.to_le_bytes()).collect()
}

/// The sections that every form has: the unit without stages, and its trajectories.
fn unit(case: &Case) -> [Vec<u8>; 3] {
    let first = [case.capacity, case.minimum, case.rampup, case.rampdown, case.minup, case.mindown];
    let costs = [case.variable, case.fixed, case.startcost, case.stopcost].map(i32::to_le_bytes);
    let unit = [words(&first), costs.concat(), words(&[case.initial, case.elapsed])].concat();
    [unit, words(&case.rise[..case.rises]), words(&case.fall[..case.falls])]
}

/// The hours, each a price in so many bytes and an order.
fn hours(case: &Case, bytes: usize) -> Vec<u8> {
    let days = case.prices.iter().zip(case.orders).take(case.hours);
    days.flat_map(|(price, order)| [&price.to_le_bytes()[..bytes], &[order]].concat()).collect()
}

/// The sections of the old form, whose prices are cut to 16 bits.
pub fn old(case: &Case) -> Vec<Vec<u8>> {
    let [unit, rise, fall] = unit(case);
    vec![unit, rise, fall, hours(case, 2)]
}

/// The sections of form 2.
pub fn two(case: &Case) -> Vec<Vec<u8>> {
    let [unit, rise, fall] = unit(case);
    vec![unit, rise, fall, hours(case, 4), words(&[2])]
}

/// The sections of form 3, whose unit ends with the stages.
pub fn three(case: &Case) -> Vec<Vec<u8>> {
    let mut sections = two(case);
    sections[0].extend([case.upstage, case.downstage]);
    sections[4] = words(&[3]);
    sections
}

/// The file of sections: pairs of offset and length, then the sections. Both numbers are cut to 16 bits.
pub fn joined(sections: &[Vec<u8>]) -> Vec<u8> {
    let mut offset = 4 * sections.len();
    let mut pairs = Vec::new();
    for section in sections {
        pairs.extend(words(&[offset as u16, section.len() as u16]));
        offset += section.len();
    }
    [pairs, sections.concat()].concat()
}

/// The file whose hours have so many bytes.
fn long(mut sections: Vec<Vec<u8>>, bytes: usize) -> Vec<u8> {
    sections[3].resize(bytes, 0);
    joined(&sections)
}

/// The file without its last byte.
fn cut(sections: &[Vec<u8>]) -> Vec<u8> {
    let mut file = joined(sections);
    file.pop();
    file
}

/// Every file with its name. The long hours are as long as a 16-bit length of the last section, or a 16-bit offset of
/// the section after them, allows.
pub fn all() -> Vec<(&'static str, Vec<u8>)> {
    let (day, twice, week) = (days::source(24), days::source(48), days::source(168));
    vec![
        ("the source's day, form 3, 24 h", joined(&three(&day))),
        ("the source's day, form 2, 24 h", joined(&two(&day))),
        ("the source's day, old form, 24 h", joined(&old(&day))),
        ("the source's day twice, form 3, 48 h", joined(&three(&twice))),
        ("the source's day twice, form 2, 48 h", joined(&two(&twice))),
        ("the source's day twice, old form, 48 h", joined(&old(&twice))),
        ("the source's week, form 3, 168 h", joined(&three(&week))),
        ("the source's week, form 2, 168 h", joined(&two(&week))),
        ("the source's week, old form, 168 h", joined(&old(&week))),
        ("hours of 65,469 bytes, form 3", long(three(&day), 65_469)),
        ("hours of 65,535 bytes, old form", long(old(&day), 65_535)),
        ("cut by one byte, form 3, 24 h", cut(&three(&day))),
    ]
}
