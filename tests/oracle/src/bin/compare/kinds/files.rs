//! The kinds of files of the three forms (requests F-2, F-5 and F-6): which test refuses a file, and what a
//! file holds that is read; and of hours sections to count (request F-4).

use super::{kind, Kind};
use oracle::case::Case;
use oracle::file::{self, Form, OLD_PRICES};
use oracle::refusals::{self, PRICES};

/// A file that was read, and what came of it.
pub struct Met {
    bytes: Vec<u8>,
    answer: Result<Case, u32>,
    /// The pairs at its head: four or five as the first offset says, or none.
    pairs: Vec<(usize, usize)>,
    /// What it holds if neither 1 nor 2 refuses it.
    held: Option<(Form, Case)>,
    /// The form number of five pairs, if its section has 2 bytes.
    form: Option<u16>,
}

/// Places of the sections.
const UNIT: usize = 0;
const START_UP: usize = 1;
const SHUT_DOWN: usize = 2;
const HOURS: usize = 3;
const FORM: usize = 4;

/// All kinds.
pub const KINDS: [Kind<Met>; 127] = [
    kind("old form read", |met| met.is_read(4)),
    kind("form 2 read", |met| met.is_read_as(2)),
    kind("form 3 read", |met| met.is_read_as(3)),
    kind("form 3, start-up stage read", |met| met.is_read_as(3) && met.stages().0 > 0),
    kind("form 3, shut-down stage read", |met| met.is_read_as(3) && met.stages().1 > 0),
    kind("old price above 32,767", |met| met.is_read(4) && met.some_price(|price| price > 32_767)),
    kind("price below zero", |met| met.is_read(5) && met.some_price(|price| price < 0)),
    kind("above 65,535", |met| met.is_read(5) && met.some_price(|price| price > 65_535)),
    kind("at the lower limit", |met| met.is_read(5) && met.some_price(|price| price == *PRICES.start())),
    kind("at the upper limit", |met| met.is_read(5) && met.some_price(|price| price == *PRICES.end())),
    kind("1: under 16 bytes", |met| met.refused(1) && met.bytes.len() < 16),
    kind("16 to 19 bytes, offset 20", |met| met.is_short_of_five_pairs()),
    kind("16 to 19 bytes, offset 16", |met| met.refused(1) && met.pairs.len() == 4 && met.bytes.len() < 20),
    kind("offset 18", |met| met.opens_at(18)),
    kind("offset 18, in order", |met| met.opens_at(18) && met.is_in_order_from(18)),
    kind("offset 24", |met| met.opens_at(24)),
    kind("offset 24, in order", |met| met.opens_at(24) && met.is_in_order_from(24)),
    kind("another offset", |met| met.opens_elsewhere()),
    kind("four pairs, at the second", |met| met.breaks_at(4, 2)),
    kind("at the third", |met| met.breaks_at(4, 3)),
    kind("at the fourth", |met| met.breaks_at(4, 4)),
    kind("at the end", |met| met.breaks_at(4, 5)),
    kind("five pairs, at the second", |met| met.breaks_at(5, 2)),
    kind("at the third of five", |met| met.breaks_at(5, 3)),
    kind("at the fourth of five", |met| met.breaks_at(5, 4)),
    kind("at the fifth", |met| met.breaks_at(5, 5)),
    kind("at the end of five", |met| met.breaks_at(5, 6)),
    kind("four pairs, in order if sums wrap", |met| met.is_in_order_if_sums_wrap(4)),
    kind("five pairs, in order if sums wrap", |met| met.is_in_order_if_sums_wrap(5)),
    kind("2: four pairs past 65,535 bytes", |met| met.is_long(4)),
    kind("five pairs past 65,535 bytes", |met| met.is_long(5)),
    kind("old unit", |met| met.wrong_alone(4, UNIT)),
    kind("old start-up", |met| met.wrong_alone(4, START_UP)),
    kind("old shut-down", |met| met.wrong_alone(4, SHUT_DOWN)),
    kind("old hours", |met| met.wrong_alone(4, HOURS)),
    kind("unit", |met| met.wrong_alone(5, UNIT)),
    kind("old unit of 34 bytes", |met| met.wrong_alone(4, UNIT) && met.length(UNIT) == 34),
    kind("form 2, unit of 34 bytes", |met| met.unit_of(2, 34)),
    kind("form 2, unit of 33 bytes", |met| met.unit_of(2, 33)),
    kind("form 3, unit of 32 bytes", |met| met.unit_of(3, 32)),
    kind("form 3, unit of 33 bytes", |met| met.unit_of(3, 33)),
    kind("form 3, unit of 35 bytes", |met| met.unit_of(3, 35)),
    kind("start-up", |met| met.wrong_alone(5, START_UP)),
    kind("shut-down", |met| met.wrong_alone(5, SHUT_DOWN)),
    kind("hours", |met| met.wrong_alone(5, HOURS)),
    kind("form section", |met| met.wrong_alone(5, FORM)),
    kind("old hours of 5 bytes", |met| met.wrong_alone(4, HOURS) && met.hours_of(5)),
    kind("old hours of 4 bytes", |met| met.wrong_alone(4, HOURS) && met.hours_of(4)),
    kind("hours of 3 bytes", |met| met.wrong_alone(5, HOURS) && met.hours_of(3)),
    kind("hours of 4 bytes", |met| met.wrong_alone(5, HOURS) && met.hours_of(4)),
    kind("form section of 0 bytes", |met| met.form_section_of(0)),
    kind("form section of 1 byte", |met| met.form_section_of(1)),
    kind("form section of 3 bytes", |met| met.form_section_of(3)),
    kind("form section of 4 bytes", |met| met.form_section_of(4)),
    kind("unit before 12", |met| met.before_12(UNIT)),
    kind("unit of 32 bytes before 12", |met| met.before_12(UNIT) && met.length(UNIT) == 32),
    kind("start-up before 12", |met| met.before_12(START_UP)),
    kind("shut-down before 12", |met| met.before_12(SHUT_DOWN)),
    kind("hours before 12", |met| met.before_12(HOURS)),
    kind("12: form number 0", |met| met.form_number(0)),
    kind("number 1", |met| met.form_number(1)),
    kind("number 4", |met| met.form_number(4)),
    kind("number 255", |met| met.form_number(255)),
    kind("number 256", |met| met.form_number(256)),
    kind("number 258", |met| met.form_number(258)),
    kind("number 259", |met| met.form_number(259)),
    kind("number 512", |met| met.form_number(512)),
    kind("number 768", |met| met.form_number(768)),
    kind("number 65,535", |met| met.form_number(65_535)),
    kind("12 before 3 to 7", |met| met.refused(12) && matches!(met.limit(), Some(3..=7))),
    kind("12 before 7 by a stage", |met| met.refused(12) && met.limit() == Some(7) && met.stages() != (0, 0)),
    kind("12 before 8", |met| met.refused(12) && met.limit() == Some(8)),
    kind("12 before 13", |met| met.refused(12) && met.limit() == Some(13)),
    kind("old form, 3", |met| met.refused_by_limit(4, 3)),
    kind("old form, 4", |met| met.refused_by_limit(4, 4)),
    kind("old form, 5", |met| met.refused_by_limit(4, 5)),
    kind("old form, 6", |met| met.refused_by_limit(4, 6)),
    kind("old form, 7", |met| met.refused_by_limit(4, 7)),
    kind("old form, 8", |met| met.refused_by_limit(4, 8)),
    kind("form 2, 3", |met| met.refused_in(2, 3)),
    kind("form 2, 4", |met| met.refused_in(2, 4)),
    kind("form 2, 5", |met| met.refused_in(2, 5)),
    kind("form 2, 6", |met| met.refused_in(2, 6)),
    kind("form 2, 7", |met| met.refused_in(2, 7)),
    kind("form 2, 8", |met| met.refused_in(2, 8)),
    kind("form 3, 3", |met| met.refused_in(3, 3)),
    kind("form 3, 4", |met| met.refused_in(3, 4)),
    kind("form 3, 5", |met| met.refused_in(3, 5)),
    kind("form 3, 6", |met| met.refused_in(3, 6)),
    kind("form 3, 7 without a stage", |met| met.refused_in(3, 7) && met.stages() == (0, 0)),
    kind("form 3, 7 by a start-up stage", |met| met.refused_in(3, 7) && met.is_set(true, false)),
    kind("form 3, 7 by a shut-down stage", |met| met.refused_in(3, 7) && met.is_set(false, true)),
    kind("form 3, 7 by both stages", |met| met.refused_in(3, 7) && met.is_set(true, true)),
    kind("form 3, 8", |met| met.refused_in(3, 8)),
    kind("old form, a cost of 2^31 or more", |met| met.refused_by_limit(4, 5) && met.some_cost_below_zero()),
    kind("form 2, a cost of 2^31 or more", |met| met.refused_in(2, 5) && met.some_cost_below_zero()),
    kind("form 3, a cost of 2^31 or more", |met| met.refused_in(3, 5) && met.some_cost_below_zero()),
    kind("13", |met| met.refused_by_limit(5, 13)),
    kind("one above the limit", |met| met.refused(13) && met.outside_alone(PRICES.end() + 1)),
    kind("one below the limit", |met| met.refused(13) && met.outside_alone(PRICES.start() - 1)),
    kind("13 by hour T", |met| met.refused(13) && met.outside().eq([met.hours()])),
    kind("3 to 7 before 13", |met| matches!(met.answer, Err(3..=7)) && met.outside().next().is_some()),
    kind("8 before 13", |met| met.refused(8) && met.outside().next().is_some()),
    kind("old prices in form 2", |met| met.is_read_as(2) && met.has_old_prices()),
    kind("old prices in form 3", |met| met.is_read_as(3) && met.has_old_prices()),
    kind("168 hours of the old form", |met| met.is_read(4) && met.hours() == 168),
    kind("old hours section of 503 bytes", |met| met.hours_section_of(4, 503)),
    kind("old hours section of 505 bytes", |met| met.hours_section_of(4, 505)),
    kind("old hours section of 507 bytes", |met| met.hours_section_of(4, 507)),
    kind("257 to 424 old hours", |met| met.has_256_hours_more(4)),
    kind("old hours section of 65,535 bytes", |met| met.hours_section_of(4, 65_535)),
    kind("168 hours of form 2", |met| met.is_read_as(2) && met.hours() == 168),
    kind("168 hours of form 3", |met| met.is_read_as(3) && met.hours() == 168),
    kind("hours section of 839 bytes", |met| met.hours_section_of(5, 839)),
    kind("hours section of 841 bytes", |met| met.hours_section_of(5, 841)),
    kind("hours section of 845 bytes", |met| met.hours_section_of(5, 845)),
    kind("257 to 424 hours", |met| met.has_256_hours_more(5)),
    kind("hours section of 65,535 bytes", |met| met.breaks_at(5, 5) && met.length(HOURS) == 65_535),
    kind("the most hours of five pairs", |met| met.has_most_hours()),
    kind("49 to 167 hours of the old form", |met| met.is_read(4) && (49..168).contains(&met.hours())),
    kind("49 to 167 hours of five pairs", |met| met.is_read(5) && (49..168).contains(&met.hours())),
    kind("old form, a minimum time of 9 to 24", |met| met.is_read(4) && met.has_time(9, 24)),
    kind("form 2, a minimum time of 9 to 24", |met| met.is_read_as(2) && met.has_time(9, 24)),
    kind("form 3, a minimum time of 9 to 24", |met| met.is_read_as(3) && met.has_time(9, 24)),
    kind("old form, a minimum time of 25", |met| met.refused_by_limit(4, 4) && met.has_time(25, 25)),
    kind("form 2, a minimum time of 25", |met| met.refused_in(2, 4) && met.has_time(25, 25)),
    kind("form 3, a minimum time of 25", |met| met.refused_in(3, 4) && met.has_time(25, 25)),
];

impl Met {
    /// A file with its answer.
    pub fn new(bytes: &[u8]) -> Met {
        let count = match bytes {
            [16, 0, ..] if bytes.len() >= 16 => 4,
            [20, 0, ..] if bytes.len() >= 20 => 5,
            _ => 0,
        };
        let number = |at: usize| usize::from(bytes[at]) + 256 * usize::from(bytes[at + 1]);
        let pairs: Vec<_> = (0..count).map(|i| (number(4 * i), number(4 * i + 2))).collect();
        let has_form = pairs.get(FORM).is_some_and(|&(_, length)| length == 2);
        let form = has_form.then(|| number(bytes.len() - 2) as u16);
        Met { bytes: bytes.to_vec(), answer: file::read(bytes), pairs, held: file::held(bytes).ok(), form }
    }

    /// Whether it is refused with this number.
    fn refused(&self, number: u32) -> bool {
        self.answer == Err(number)
    }

    /// Whether it is read, and has so many pairs.
    fn is_read(&self, pairs: usize) -> bool {
        self.answer.is_ok() && self.pairs.len() == pairs
    }

    /// Whether it is read as a file of this form.
    fn is_read_as(&self, form: u16) -> bool {
        self.answer.is_ok() && self.form == Some(form)
    }

    /// The stages that it holds.
    fn stages(&self) -> (u8, u8) {
        self.held.map_or((0, 0), |(_, case)| (case.up_stage, case.down_stage))
    }

    /// Whether it holds a start-up stage, and a shut-down stage.
    fn is_set(&self, up: bool, down: bool) -> bool {
        let stages = self.stages();
        (stages.0 > 0, stages.1 > 0) == (up, down)
    }

    /// Whether a minimum time that it holds is of so many hours.
    fn has_time(&self, least: u16, most: u16) -> bool {
        let is_such = |time: u16| (least..=most).contains(&time);
        self.held.is_some_and(|(_, case)| is_such(case.min_up) || is_such(case.min_down))
    }

    /// Whether the old form can hold all its prices.
    fn has_old_prices(&self) -> bool {
        !self.some_price(|price| !OLD_PRICES.contains(&price))
    }

    /// Whether a price of hours 1 to T is such.
    fn some_price(&self, test: fn(i32) -> bool) -> bool {
        self.held.is_some_and(|(_, case)| case.prices[..case.t].iter().any(|&price| test(price)))
    }

    /// Whether it begins with 20 and has no room for five pairs.
    fn is_short_of_five_pairs(&self) -> bool {
        self.refused(1) && self.bytes.starts_with(&[20, 0]) && (16..20).contains(&self.bytes.len())
    }

    /// Whether it is refused and its first offset is this one.
    fn opens_at(&self, offset: u8) -> bool {
        self.refused(1) && self.bytes.len() >= 16 && self.bytes.starts_with(&[offset, 0])
    }

    /// Whether its first offset is none of 16, 18, 20 and 24.
    fn opens_elsewhere(&self) -> bool {
        let elsewhere = !matches!(self.bytes[..], [16 | 18 | 20 | 24, 0, ..]);
        self.refused(1) && self.bytes.len() >= 16 && elsewhere
    }

    /// Whether four, five or six pairs at its head are a chain from this offset on that ends with the file.
    fn is_in_order_from(&self, first: usize) -> bool {
        let number = |at: usize| usize::from(self.bytes[at]) + 256 * usize::from(self.bytes[at + 1]);
        let chain = |count: usize| {
            let mut next = first;
            self.bytes.len() >= 4 * count
                && (0..count).all(|i| {
                    let as_expected = number(4 * i) == next;
                    next = number(4 * i) + number(4 * i + 2);
                    as_expected
                })
                && next == self.bytes.len()
        };
        (4..=6).any(chain)
    }

    /// The first pair, counted from 1, whose offset is not where the section before ends; one more than there are if
    /// the last section does not end with the file.
    fn first_break(&self) -> Option<usize> {
        let mut next = 4 * self.pairs.len();
        for (i, &(offset, length)) in self.pairs.iter().enumerate() {
            if offset != next {
                return Some(i + 1);
            }
            next = offset + length;
        }
        (next != self.bytes.len()).then_some(self.pairs.len() + 1)
    }

    /// Whether so many pairs break there.
    fn breaks_at(&self, pairs: usize, place: usize) -> bool {
        self.refused(1) && self.pairs.len() == pairs && self.first_break() == Some(place)
    }

    /// Whether so many pairs are a chain in order only if sums wrap at 65,536.
    fn is_in_order_if_sums_wrap(&self, pairs: usize) -> bool {
        let mut next = 4 * pairs;
        let wrapped = self.pairs.iter().all(|&(offset, length)| {
            let as_expected = offset == next;
            next = (offset + length) % 65_536;
            as_expected
        });
        self.refused(1) && self.pairs.len() == pairs && wrapped && next == self.bytes.len() % 65_536
    }

    /// Whether so many pairs are a chain in order in a file of more than 65,535 bytes.
    fn is_long(&self, pairs: usize) -> bool {
        self.refused(2) && self.pairs.len() == pairs && self.bytes.len() > 65_535
    }

    /// The length of a section.
    fn length(&self, section: usize) -> usize {
        self.pairs[section].1
    }

    /// Whether the length of a section is as laid down.
    fn fits(&self, section: usize) -> bool {
        let length = self.length(section);
        match section {
            UNIT => match (self.pairs.len(), self.form) {
                (4, _) | (_, Some(2)) => length == 32,
                (_, Some(_)) => length == 34,
                (_, None) => length == 32 || length == 34,
            },
            START_UP | SHUT_DOWN => [2, 4, 6, 8, 10, 12, 14, 16].contains(&length),
            HOURS => self.hours_of(self.hour_bytes()),
            _ => length == 2,
        }
    }

    /// Whether this section of so many pairs alone has a wrong length.
    fn wrong_alone(&self, pairs: usize, section: usize) -> bool {
        self.refused(2) && self.pairs.len() == pairs && (0..pairs).all(|i| self.fits(i) == (i != section))
    }

    /// The bytes of an hour: 3 beside four pairs, 5 beside five.
    fn hour_bytes(&self) -> usize {
        2 * self.pairs.len() - 5
    }

    /// Whether the hours are 1 to 168 entries of so many bytes.
    fn hours_of(&self, bytes: usize) -> bool {
        (1..=168).any(|hours| self.length(HOURS) == hours * bytes)
    }

    /// Whether the hours of so many pairs alone have a wrong length, and it is this one.
    fn hours_section_of(&self, pairs: usize, bytes: usize) -> bool {
        self.wrong_alone(pairs, HOURS) && self.length(HOURS) == bytes
    }

    /// Whether the hours of so many pairs alone have a wrong length, that of 256 more than 1 to 168.
    fn has_256_hours_more(&self, pairs: usize) -> bool {
        let length = |hours: usize| hours * self.hour_bytes();
        self.wrong_alone(pairs, HOURS) && (257..=424).any(|hours| self.length(HOURS) == length(hours))
    }

    /// Whether the hours of five pairs alone have a wrong length, that of so many hours that one more would leave no
    /// offset for the form section.
    fn has_most_hours(&self) -> bool {
        self.wrong_alone(5, HOURS) && self.length(HOURS).is_multiple_of(5) && self.pairs[FORM].0 + 5 > 65_535
    }

    /// Whether the form section alone has a wrong length, and it is this one.
    fn form_section_of(&self, bytes: usize) -> bool {
        self.wrong_alone(5, FORM) && self.length(FORM) == bytes
    }

    /// Whether the unit alone has a wrong length in this form, and it is this one.
    fn unit_of(&self, form: u16, bytes: usize) -> bool {
        self.wrong_alone(5, UNIT) && self.form == Some(form) && self.length(UNIT) == bytes
    }

    /// Whether this section alone has a wrong length, beside a form number that is neither 2 nor 3.
    fn before_12(&self, section: usize) -> bool {
        self.wrong_alone(5, section) && !matches!(self.form, Some(2 | 3))
    }

    /// Whether it is refused for this form number.
    fn form_number(&self, number: u16) -> bool {
        self.refused(12) && self.held.is_some_and(|(form, _)| form == Form::Numbered(number))
    }

    /// The refusal of the record that it holds.
    fn limit(&self) -> Option<u32> {
        self.held.and_then(|(_, case)| refusals::record(&case).err())
    }

    /// Whether so many pairs hold a record that is refused so.
    fn refused_by_limit(&self, pairs: usize, number: u32) -> bool {
        self.refused(number) && self.pairs.len() == pairs && self.held.is_some()
    }

    /// Whether a file of this form holds a record that is refused so.
    fn refused_in(&self, form: u16, number: u32) -> bool {
        self.refused_by_limit(5, number) && self.form == Some(form)
    }

    /// Whether a cost that it holds is below zero.
    fn some_cost_below_zero(&self) -> bool {
        self.held.is_some_and(|(_, case)| [case.f, case.a, case.b, case.c].iter().any(|&cost| cost < 0))
    }

    /// The number of hours that it holds.
    fn hours(&self) -> usize {
        self.held.map_or(0, |(_, case)| case.t)
    }

    /// The hours, from 1 to T, whose price is outside the range.
    fn outside(&self) -> impl Iterator<Item = usize> + '_ {
        let price = |k: usize| self.held.map_or(0, |(_, case)| case.prices[k - 1]);
        (1..=self.hours()).filter(move |&k| !PRICES.contains(&price(k)))
    }

    /// Whether one hour alone has a price outside the range, and it is this one.
    fn outside_alone(&self, price: i32) -> bool {
        let held = |k: usize| self.held.map_or(0, |(_, case)| case.prices[k - 1]);
        self.outside().map(held).eq([price])
    }
}
