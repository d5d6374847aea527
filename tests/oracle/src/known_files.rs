//! Files of the three forms with the answer of reading, worked out by hand (scope, "Case file" and "Refusal
//! list"; requests F-2, F-4, F-5 and F-6). All are made from three: case 7 of the known days in each form,
//! byte by byte.

use crate::case::Case;
use crate::days::{known_unit, program_example};
use crate::file::{assemble, assemble_with_gap};
use crate::opening::Opening;
use std::sync::OnceLock;

/// A file with the record that it holds, or its refusal.
#[derive(Clone, Debug)]
pub struct KnownFile {
    pub name: String,
    pub bytes: Vec<u8>,
    pub answer: Result<Case, u32>,
}

/// Case 7 in the old form: the pairs (16, 32), (48, 4), (52, 4), (56, 9) and three hours of 3 bytes.
#[rustfmt::skip]
pub const OLD: [u8; 65] = [
    16, 0, 32, 0,  48, 0, 4, 0,  52, 0, 4, 0,  56, 0, 9, 0,
    4, 0,  2, 0,  1, 0,  1, 0,  1, 0,  1, 0,
    10, 0, 0, 0,  1, 0, 0, 0,  3, 0, 0, 0,  2, 0, 0, 0,
    3, 0,  2, 0,
    1, 0,  2, 0,
    2, 0,  1, 0,
    5, 0, 0,  5, 0, 0,  5, 0, 0,
];

/// Case 7 in form 2: the pairs (20, 32), (52, 4), (56, 4), (60, 15), (75, 2), three hours of 5 bytes, and the form.
#[rustfmt::skip]
pub const FORM_2: [u8; 77] = [
    20, 0, 32, 0,  52, 0, 4, 0,  56, 0, 4, 0,  60, 0, 15, 0,  75, 0, 2, 0,
    4, 0,  2, 0,  1, 0,  1, 0,  1, 0,  1, 0,
    10, 0, 0, 0,  1, 0, 0, 0,  3, 0, 0, 0,  2, 0, 0, 0,
    3, 0,  2, 0,
    1, 0,  2, 0,
    2, 0,  1, 0,
    5, 0, 0, 0, 0,  5, 0, 0, 0, 0,  5, 0, 0, 0, 0,
    2, 0,
];

/// Case 7 in form 3: the pairs (20, 34), (54, 4), (58, 4), (62, 15), (77, 2), a unit with both stages after h, three
/// hours of 5 bytes, and the form.
#[rustfmt::skip]
pub const FORM_3: [u8; 79] = [
    20, 0, 34, 0,  54, 0, 4, 0,  58, 0, 4, 0,  62, 0, 15, 0,  77, 0, 2, 0,
    4, 0,  2, 0,  1, 0,  1, 0,  1, 0,  1, 0,
    10, 0, 0, 0,  1, 0, 0, 0,  3, 0, 0, 0,  2, 0, 0, 0,
    3, 0,  2, 0,  0, 0,
    1, 0,  2, 0,
    2, 0,  1, 0,
    5, 0, 0, 0, 0,  5, 0, 0, 0, 0,  5, 0, 0, 0, 0,
    3, 0,
];

/// How many files there are.
pub const COUNT: u64 = 534;

/// A file of case 7, with the bytes of its unit and of an hour.
#[derive(Clone, Copy)]
struct Whole {
    name: &'static str,
    bytes: &'static [u8],
    pairs: usize,
    unit: usize,
    hour: usize,
}

/// The three files.
const OLD_FILE: Whole = Whole { name: "old", bytes: &OLD, pairs: 4, unit: 32, hour: 3 };
const FILE_2: Whole = Whole { name: "form 2", bytes: &FORM_2, pairs: 5, unit: 32, hour: 5 };
const FILE_3: Whole = Whole { name: "form 3", bytes: &FORM_3, pairs: 5, unit: 34, hour: 5 };
const WHOLE: [Whole; 3] = [OLD_FILE, FILE_2, FILE_3];

/// Those of five pairs.
const FIVE: [Whole; 2] = [FILE_2, FILE_3];

impl Whole {
    /// Places: a minimum time, up or down.
    fn time_at(&self, time: usize) -> usize {
        self.unit_at() + 8 + 2 * time
    }

    /// Places: the unit's section, which begins with the capacity; a cost of F, A, B, C; p(0); the stages; the hours.
    fn unit_at(&self) -> usize {
        4 * self.pairs
    }
    fn cost_at(&self, cost: usize) -> usize {
        self.unit_at() + 12 + 4 * cost
    }
    fn output_at(&self) -> usize {
        self.unit_at() + 28
    }
    fn stages_at(&self) -> usize {
        self.unit_at() + 32
    }
    fn hours_at(&self) -> usize {
        self.unit_at() + self.unit + 8
    }

    /// Places: the price of an hour, the order of hour 2, and the form number.
    fn price_at(&self, hour: usize) -> usize {
        self.hours_at() + self.hour * (hour - 1)
    }
    fn order_2_at(&self) -> usize {
        self.price_at(3) - 1
    }
    fn form_at(&self) -> usize {
        self.bytes.len() - 2
    }

    /// The file with these bytes from a place on.
    fn with(&self, at: usize, bytes: &[u8]) -> Vec<u8> {
        with(self.bytes, at, bytes)
    }

    /// The sections.
    fn sections(&self) -> Vec<Vec<u8>> {
        let mut rest = &self.bytes[self.unit_at()..];
        let mut sections = Vec::new();
        for length in [self.unit, 4, 4, 3 * self.hour].iter().chain(&[2][..self.pairs - 4]) {
            let (section, after) = rest.split_at(*length);
            sections.push(section.to_vec());
            rest = after;
        }
        sections
    }

    /// The file with this length of a section, cut or filled up with zeros, and with this form number, if it has one.
    fn with_length(&self, section: usize, length: usize, form: u16) -> Vec<u8> {
        let mut sections = self.sections();
        if let Some(last) = sections.get_mut(4) {
            *last = form.to_le_bytes().to_vec();
        }
        sections[section].resize(length, 0);
        assemble(&sections)
    }
}

/// Mills one above the limit of a price, and one below the lower one, as bytes.
const ABOVE: [u8; 4] = [0x81, 0x96, 0x98, 0x00];
const BELOW: [u8; 4] = [0x7f, 0x69, 0x67, 0xff];

/// All files, by what is tested; they are made once.
pub fn known_files() -> &'static [KnownFile] {
    static FILES: OnceLock<Vec<KnownFile>> = OnceLock::new();
    FILES.get_or_init(made)
}

/// The files.
fn made() -> Vec<KnownFile> {
    [
        accepted(),
        short(),
        first_offsets(),
        chains(),
        lengths(),
        units(),
        hours_of_another_form(),
        forms(),
        limits(),
        prices(),
        stages(),
        hour_counts(),
        minimum_times(),
    ]
    .concat()
}

/// A file with the record of case 7 at these prices.
fn read(name: impl ToString, bytes: Vec<u8>, prices: &[i32]) -> KnownFile {
    KnownFile { name: name.to_string(), bytes, answer: Ok(known_unit(3, prices)) }
}

/// A refused file.
fn refused(name: impl ToString, bytes: Vec<u8>, number: u32) -> KnownFile {
    KnownFile { name: name.to_string(), bytes, answer: Err(number) }
}

/// The file with these bytes from a place on.
fn with(file: &[u8], at: usize, bytes: &[u8]) -> Vec<u8> {
    let mut file = file.to_vec();
    file[at..at + bytes.len()].copy_from_slice(bytes);
    file
}

/// All forms hold the same record. A price of five pairs has a sign, one of the old form has none and keeps its value.
fn accepted() -> Vec<KnownFile> {
    let example = |file: Whole| KnownFile {
        name: format!("{}, as printed", file.name),
        bytes: file.bytes.to_vec(),
        answer: Ok(program_example()),
    };
    let signed: [([u8; 4], i32); 12] = [
        ([0xff, 0xff, 0xff, 0xff], -1),
        ([0xfb, 0xff, 0xff, 0xff], -5),
        ([0x00, 0x80, 0xff, 0xff], -32_768),
        ([0x00, 0x00, 0xff, 0xff], -65_536),
        ([0x80, 0x69, 0x67, 0xff], -10_000_000),
        ([0x00, 0x00, 0x00, 0x00], 0),
        ([0xff, 0x7f, 0x00, 0x00], 32_767),
        ([0x00, 0x80, 0x00, 0x00], 32_768),
        ([0xff, 0xff, 0x00, 0x00], 65_535),
        ([0x00, 0x00, 0x01, 0x00], 65_536),
        ([0x7f, 0x96, 0x98, 0x00], 9_999_999),
        ([0x80, 0x96, 0x98, 0x00], 10_000_000),
    ];
    let unsigned: [([u8; 2], i32); 5] = [
        ([0, 0], 0),
        ([0xff, 0x7f], 32_767),
        ([0x00, 0x80], 32_768),
        ([0x40, 0x9c], 40_000),
        ([255, 255], 65_535),
    ];
    let priced = |file: &Whole, bytes: &[u8], price: i32| {
        read(format!("{}, price {price}", file.name), file.with(file.price_at(2), bytes), &[5, price, 5])
    };
    let mut files = WHOLE.map(example).to_vec();
    for file in FIVE {
        files.extend(signed.map(|(bytes, price)| priced(&file, &bytes, price)));
    }
    files.extend(unsigned.map(|(bytes, price)| priced(&OLD_FILE, &bytes, price)));
    files
}

/// Fewer bytes than the pairs: 1. Of 16 to 19 bytes with first offset 20, five pairs have no room. Pairs alone, without
/// a byte of sections, are a chain in order and sections of length 0: 2.
fn short() -> Vec<KnownFile> {
    let mut files = Vec::new();
    for Whole { name, bytes, .. } in WHOLE {
        let last = bytes.len() - 1;
        for count in [0, 1, 2, 15, 16, 17, 18, 19, 20, 21, 48, 56, last - 2, last - 1, last] {
            files.push(refused(format!("{name}, the first {count} bytes"), bytes[..count].to_vec(), 1));
        }
    }
    let four = [16, 0, 0, 0].repeat(4);
    let five = [20, 0, 0, 0].repeat(5);
    for bytes in 16..20 {
        files.push(refused(format!("five pairs of nothing, {bytes} bytes"), five[..bytes].to_vec(), 1));
    }
    files.push(refused("five pairs of nothing", five.clone(), 2));
    files.push(refused("four pairs of nothing", four.clone(), 2));
    files.push(refused("five pairs of nothing and a byte", [five, vec![0]].concat(), 1));
    files.push(refused("four pairs of nothing and a byte", [four, vec![0]].concat(), 1));
    files
}

/// A first offset other than 16 and 20, 16 with the rest of five pairs, and 20 with the rest of the old form: 1. So is
/// a chain in order from another offset on: 18 and 24 after a gap, and six pairs.
fn first_offsets() -> Vec<KnownFile> {
    let offsets: [u16; 12] = [0, 4, 12, 15, 17, 18, 19, 21, 24, 272, 276, 65_535];
    let mut files = Vec::new();
    for file in WHOLE {
        let name = file.name;
        let other = if file.pairs == 4 { 20 } else { 16 };
        for offset in offsets.into_iter().chain([other]) {
            let bytes = file.with(0, &offset.to_le_bytes());
            files.push(refused(format!("{name}, first offset {offset}"), bytes, 1));
        }
        for gap in [1, 2, 4, 8] {
            let bytes = assemble_with_gap(&file.sections(), &vec![0; gap]);
            files.push(refused(format!("{name} and a gap of {gap}"), bytes, 1));
        }
    }
    for file in FIVE {
        let mut six = file.sections();
        six.push(six[4].clone());
        files.push(refused(format!("{}, six pairs", file.name), assemble(&six), 1));
    }
    files
}

/// An offset that is not where the section before ends, a last section that does not end with the file: 1. A length
/// alone makes the next offset wrong, or the end.
fn chains() -> Vec<KnownFile> {
    let mut files = Vec::new();
    for file in WHOLE {
        let (name, bytes) = (file.name, file.bytes);
        let raised = |at: usize| file.with(at, &[bytes[at] + 1]);
        for pair in 2..=file.pairs {
            files.push(refused(format!("{name}, offset {pair} one more"), raised(4 * pair - 4), 1));
        }
        for pair in 1..=file.pairs {
            files.push(refused(format!("{name}, length {pair} one more"), raised(4 * pair - 2), 1));
        }
        files.push(refused(format!("{name} and a byte"), [bytes, &[0]].concat(), 1));
        files.push(refused(format!("{name} and 65,536 bytes"), [bytes, &[0; 65_536]].concat(), 1));
    }
    let five_wrapped = [(20, 65_535), (19, 4), (23, 4), (27, 15), (42, 2)];
    files.push(refused("five pairs in order if sums wrap", wrapped(&five_wrapped), 1));
    let four_wrapped = [(16, 65_535), (15, 4), (19, 4), (23, 9)];
    files.push(refused("four pairs in order if sums wrap", wrapped(&four_wrapped), 1));
    files.push(refused("a form under four pairs", [&OLD[..], &[3, 0]].concat(), 1));
    let long = FILE_3.with_length(4, 65_535, 3);
    files.push(refused("a chain in order past 65,535 bytes", long, 2));
    files
}

/// A file of these pairs that ends where the last section does.
fn wrapped(pairs: &[(u16, u16)]) -> Vec<u8> {
    let head = pairs.iter().flat_map(|&(offset, length)| [offset.to_le_bytes(), length.to_le_bytes()]);
    let mut file: Vec<u8> = head.flatten().collect();
    file.resize(pairs.last().map_or(0, |&(offset, length)| (offset + length).into()), 0);
    file
}

/// Sections whose length no form has: 2, whatever the form number is.
fn lengths() -> Vec<KnownFile> {
    let wrong: [(&str, usize, &[usize]); 5] = [
        ("unit", 0, &[0, 16, 30, 31, 33, 35, 36, 64]),
        ("start-up", 1, &[0, 1, 3, 17, 18]),
        ("shut-down", 2, &[0, 1, 3, 17, 18]),
        ("hours", 3, &[0, 1, 4, 14, 16, 841]),
        ("form", 4, &[0, 1, 3, 4, 258]),
    ];
    let mut files = Vec::new();
    for (file, form) in [(OLD_FILE, 0), (FILE_2, 2), (FILE_3, 3), (FILE_3, 4)] {
        for &(name, section, lengths) in &wrong[..file.pairs] {
            for &length in lengths {
                let name = format!("{} as {form}, {name} of {length} bytes", file.name);
                files.push(refused(name, file.with_length(section, length, form), 2));
            }
        }
    }
    files
}

/// The unit has 34 bytes in form 3, 32 in form 2 and in the old form, and 34 in a form that is not known: the other
/// length is 2, before 12.
fn units() -> Vec<KnownFile> {
    let mut files = vec![refused("old, unit of 34 bytes", OLD_FILE.with_length(0, 34, 0), 2)];
    for form in [0, 1, 2, 3, 4, 255, 256, 258, 259, 512, 768, 65_535] {
        let bytes = if form == 2 { 34 } else { 32 };
        let file = FILE_3.with_length(0, bytes, form);
        files.push(refused(format!("form number {form}, unit of {bytes} bytes"), file, 2));
    }
    files
}

/// Where hours of one form fit the other, their bytes are taken as that form has them. Three hours of five pairs are 15
/// bytes, and so are five of the old form, of which the second is a price of 0 with order 5: 8. Five old hours are
/// three of five pairs: 5, 0, 0, 5, 0 is a price of 5 + 5 * 2^24 with order 0, then 0, 5, 0, 0, 5 has order 5: 8, which
/// comes before 13. Nine and five bytes of hours fit one of them alone.
fn hours_of_another_form() -> Vec<KnownFile> {
    let mut four = FILE_2.sections();
    four.pop();
    let mut files = vec![refused("three hours of form 2 under four pairs", assemble(&four), 8)];
    files.push(refused("old, hours of 5 bytes", OLD_FILE.with_length(3, 5, 0), 2));
    files.push(refused("old, hours of 10 bytes", OLD_FILE.with_length(3, 10, 0), 2));
    for file in FIVE {
        let mut five = file.sections();
        five[3] = [5, 0, 0].repeat(5);
        files.push(refused(format!("{}, five old hours", file.name), assemble(&five), 8));
        five[3] = [5, 0, 0].repeat(3);
        files.push(refused(format!("{}, three old hours", file.name), assemble(&five), 2));
    }
    files
}

/// A form number other than 2 and 3: 12, right after 2, so before 3 (capacity 401), 7 (both stages), 8 (order 3) and
/// 13.
fn forms() -> Vec<KnownFile> {
    let numbers: [u16; 10] = [0, 1, 4, 255, 256, 258, 259, 512, 768, 65_535];
    let numbered = |number: u16| FILE_3.with(FILE_3.form_at(), &number.to_le_bytes());
    let named = |number: u16| refused(format!("form number {number}"), numbered(number), 12);
    let mut files = numbers.map(named).to_vec();
    let other = numbered(4);
    let beyond: [(&str, usize, &[u8]); 4] = [
        ("capacity 401", FILE_3.unit_at(), &[0x91, 0x01]),
        ("both stages", FILE_3.stages_at(), &[1, 2]),
        ("order 3", FILE_3.order_2_at(), &[3]),
        ("price 10,000,001", FILE_3.price_at(2), &ABOVE),
    ];
    for (name, at, bytes) in beyond {
        files.push(refused(format!("form number 4, {name}"), with(&other, at, bytes), 12));
    }
    files
}

/// A cost of 2^31 or more is 5, as one above its limit is: F 1,000,001 and 100,000,001 are the first above theirs.
fn limits() -> Vec<KnownFile> {
    let mut files = Vec::new();
    for file in WHOLE {
        let name = file.name;
        for (i, cost) in ["F", "A", "B", "C"].into_iter().enumerate() {
            let above = if cost == "F" { [0x41, 0x42, 0x0f, 0x00] } else { [0x01, 0xe1, 0xf5, 0x05] };
            for bytes in [above, [0, 0, 0, 0x80], [255, 255, 255, 255]] {
                files.push(refused(
                    format!("{name}, {cost} {bytes:?}"),
                    file.with(file.cost_at(i), &bytes),
                    5,
                ));
            }
        }
        files.push(refused(format!("{name}, order 3"), file.with(file.order_2_at(), &[3]), 8));
    }
    files
}

/// A price outside -10,000,000 to 10,000,000: 13, in any hour, right after 8; so 5, 7 and 8 come before it.
fn prices() -> Vec<KnownFile> {
    let outside = [ABOVE, BELOW, [0xff, 0xff, 0xff, 0x7f], [0, 0, 0, 0x80], [0, 0, 0, 1], [0, 0, 0, 0xff]];
    let mut files = Vec::new();
    for file in FIVE {
        let name = file.name;
        for bytes in outside {
            files.push(refused(format!("{name}, price {bytes:?}"), file.with(file.price_at(2), &bytes), 13));
        }
        for hour in [1, 3] {
            let bytes = file.with(file.price_at(hour), &ABOVE);
            files.push(refused(format!("{name}, price 10,000,001 in hour {hour}"), bytes, 13));
        }
        let above = file.with(file.price_at(2), &ABOVE);
        let before: [(&str, usize, &[u8], u32); 4] = [
            ("capacity 401", file.unit_at(), &[0x91, 0x01], 3),
            ("F 2^31", file.cost_at(0) + 3, &[0x80], 5),
            ("p(0) 1", file.output_at(), &[1], 7),
            ("order 3", file.order_2_at(), &[3], 8),
        ];
        for (what, at, bytes, number) in before {
            files.push(refused(format!("{name}, price 10,000,001, {what}"), with(&above, at, bytes), number));
        }
    }
    files
}

/// The stages of form 3, which stand after p(0) and h, the start-up one first. Case 7 has UD and DD 2, and PU(1) and
/// PD(2) are 1: stage 1 of a start with p(0) 1 and h 1, and stage 2 of a stop with p(0) 1 and h 3 are read; any other
/// stage is 7, and so are both, and those two the other way round. The bytes after a unit in the old form and in form 2
/// are not taken for stages: with p(0) 1 the file is 7.
fn stages() -> Vec<KnownFile> {
    let unit = |p0: u8, h: u8, up: u8, down: u8| FILE_3.with(FILE_3.output_at(), &[p0, 0, h, 0, up, down]);
    let opened = |p0: u8, h: u8, up: u8, down: u8| {
        let opening = Opening { p0: p0.into(), h: h.into(), up_stage: up, down_stage: down };
        let answer = Ok(opening.set(&program_example()));
        KnownFile { name: format!("stages {up} and {down}"), bytes: unit(p0, h, up, down), answer }
    };
    let mut files = vec![opened(1, 1, 1, 0), opened(1, 3, 0, 2), opened(1, 255, 0, 2)];
    let wrong = [
        (1, 1, 0, 1),
        (1, 3, 2, 0),
        (1, 1, 1, 2),
        (1, 3, 1, 2),
        (2, 2, 2, 0),
        (2, 2, 0, 1),
        (1, 4, 0, 3),
        (3, 2, 1, 0),
        (3, 3, 0, 2),
        (1, 2, 1, 0),
        (1, 2, 0, 2),
        (1, 3, 0, 0),
        (1, 1, 255, 0),
        (1, 255, 0, 255),
        (3, 2, 255, 255),
    ];
    for (p0, h, up, down) in wrong {
        let name = format!("p(0) {p0}, h {h}, stages {up} and {down}");
        files.push(refused(name, unit(p0, h, up, down), 7));
    }
    for file in [OLD_FILE, FILE_2] {
        for h in [1, 3] {
            let bytes = file.with(file.output_at(), &[1, 0, h, 0]);
            files.push(refused(format!("{}, p(0) 1, h {h}", file.name), bytes, 7));
        }
    }
    files
}

impl Whole {
    /// The file with the first bytes of a day whose hour k is at k mills, or at -k mills where prices have a sign; with
    /// this form number, if it has one.
    fn of_day(&self, bytes: usize, form: u16) -> Vec<u8> {
        let entry = |k: i32| {
            let price = if self.hour == 3 { k } else { -k };
            price.to_le_bytes().into_iter().take(self.hour - 1).chain([0])
        };
        let mut sections = self.sections();
        sections[3] = (1..).flat_map(entry).take(bytes).collect();
        if let Some(last) = sections.get_mut(4) {
            *last = form.to_le_bytes().to_vec();
        }
        assemble(&sections)
    }

    /// The file with an hours section of so many bytes: hours at 5 mills, the last of which may be cut.
    fn of_hours(&self, bytes: usize) -> Vec<u8> {
        let mut sections = self.sections();
        sections[3] = [5, 0, 0, 0, 0][..self.hour].repeat(bytes.div_ceil(self.hour));
        sections[3].truncate(bytes);
        assemble(&sections)
    }
}

/// Case 7 in each form, with an hours section of so many bytes.
pub fn of_length(bytes: usize) -> [Vec<u8>; 3] {
    WHOLE.map(|file| file.of_hours(bytes))
}

/// Hours sections that may be counted wrong; each hour has a price of its own, so that one lost or taken
/// twice shows. Of 1 to 168 whole hours they are read: 3 to 504 bytes in the old form, 5 to 840 in the
/// others. Any other length is 2: a byte short of one hour or past it; a byte or two short of 168 hours or
/// past them; 169 hours; 255 and 256 hours; 257, 280 and 424 hours, which are 1, 24 and 168 in 8 bits.
///
/// An old file ends at 56 + bytes, and 65,478 to 65,480 bytes make it 65,534 to 65,536 long. 65,535 bytes,
/// the most that a pair can name, are 21,845 hours, and 65,534 are a byte short of them. All of these are 2.
/// A file of form 2 ends at 62 + bytes, and 65,472 to 65,474 make it as long; its fifth offset is 60 + bytes,
/// that is 65,535 after 65,475 bytes, which are 13,095 hours and so 2. A file of form 3 ends at 64 + bytes,
/// and 65,470 to 65,472 make it as long; of these 65,470 are 13,094 hours; its fifth offset is 62 + bytes,
/// that is 65,535 after 65,473 bytes. After a byte more, and after 65,535 bytes, which are 13,107 hours, that
/// offset does not fit in 16 bits: 1. Form number 4 changes nothing, since 12 comes after 1 and 2.
fn hour_counts() -> Vec<KnownFile> {
    let mut files = Vec::new();
    for file in WHOLE {
        for hours in [1, 2, 47, 48, 49, 96, 167, 168] {
            let sign = if file.pairs == 4 { 1 } else { -1 };
            let day: Vec<i32> = (1..=hours).map(|k| sign * k).collect();
            let form = if file.unit == 34 { 3 } else { 2 };
            files.push(read(
                format!("{}, {hours} hours", file.name),
                file.of_day(file.hour * day.len(), form),
                &day,
            ));
        }
    }
    let long: [(Whole, u16, &[usize], &[usize]); 4] = [
        (OLD_FILE, 0, &[65_478, 65_479, 65_480, 65_534, 65_535], &[]),
        (FILE_2, 2, &[65_472, 65_473, 65_474, 65_475], &[65_476, 65_535]),
        (FILE_3, 3, &[65_470, 65_471, 65_472, 65_473], &[65_474, 65_535]),
        (FILE_3, 4, &[65_470, 65_471, 65_472, 65_473], &[65_474, 65_535]),
    ];
    for (file, form, refused_by_2, refused_by_1) in long {
        let (hour, most) = (file.hour, 168 * file.hour);
        let short = [hour - 1, hour + 1, most - 2, most - 1, most + 1, most + 2, most + hour];
        let in_8_bits = [255, 256, 257, 280, 424].map(|hours| hours * hour);
        let named = |bytes: usize, number: u32| {
            let name = format!("{} as {form}, hours of {bytes} bytes", file.name);
            refused(name, file.of_day(bytes, form), number)
        };
        let counted = short.iter().chain(&in_8_bits).chain(refused_by_2);
        files.extend(counted.map(|&bytes| named(bytes, 2)));
        files.extend(refused_by_1.iter().map(|&bytes| named(bytes, 1)));
    }
    files
}

/// Minimum times, which every form holds in the same place: 8, 9 and 24 are read; 0 and 25 are 4, and so is
/// 264, which is 8 in 8 bits.
fn minimum_times() -> Vec<KnownFile> {
    let mut files = Vec::new();
    for file in WHOLE {
        for (i, name) in ["up", "down"].into_iter().enumerate() {
            for time in [8u16, 9, 24, 0, 25, 264] {
                let bytes = file.with(file.time_at(i), &time.to_le_bytes());
                let mut case = program_example();
                *[&mut case.min_up, &mut case.min_down][i] = time;
                let answer = if (1..=24).contains(&time) { Ok(case) } else { Err(4) };
                files.push(KnownFile {
                    name: format!("{}, minimum {name} time {time}", file.name),
                    bytes,
                    answer,
                });
            }
        }
    }
    files
}
