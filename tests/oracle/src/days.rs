//! The known days (scope, "Known days"), the source's day (Tables I to III) and its longer cases (Table V;
//! request F-6).

use crate::case::{Case, FREE, OFF_LINE, ON_LINE};

/// What is asked of a known day.
#[derive(Clone, Debug)]
pub enum Question {
    BestList,
    Check(Vec<u16>),
}

/// What the table answers: to a search that a list is found, to a check that the list passes or breaks a rule.
#[derive(Clone, Debug, PartialEq)]
pub enum Answer {
    Found { list: Vec<u16>, profit: i64 },
    Passes { profit: i64 },
    Breaks { hour: u32, rule: u32 },
    Refused(u32),
}

/// A row of the table.
#[derive(Clone, Debug)]
pub struct KnownDay {
    pub name: &'static str,
    pub case: Case,
    pub question: Question,
    pub answer: Answer,
}

/// The unit of the known days with this p(0), h 2, these prices and free orders.
pub fn known_unit(p0: u16, prices: &[i32]) -> Case {
    let mut case = Case {
        capacity: 4,
        minimum: 2,
        ramp_up: 1,
        ramp_down: 1,
        min_up: 1,
        min_down: 1,
        f: 10,
        a: 1,
        b: 3,
        c: 2,
        p0,
        h: 2,
        ud: 2,
        dd: 2,
        ..Case::ZERO
    };
    case.pu[..2].copy_from_slice(&[1, 2]);
    case.pd[..2].copy_from_slice(&[2, 1]);
    set_prices(&mut case, prices);
    case
}

/// Takes over the prices of a day, with free orders.
fn set_prices(case: &mut Case, prices: &[i32]) {
    case.t = prices.len();
    case.prices[..prices.len()].copy_from_slice(prices);
    case.orders[..prices.len()].fill(FREE);
}

/// The same case with these orders.
pub fn with_orders(mut case: Case, orders: &[u8]) -> Case {
    case.orders[..orders.len()].copy_from_slice(orders);
    case
}

/// Cases 1 to 12, of which 4 and 6 close inside a stop (request F-5), and the list 1, 0 of the known unit from p(0) 0,
/// which breaks 4 at hour 0.
pub fn known_days() -> Vec<KnownDay> {
    let price_10 = [10];
    let case_8 = known_unit(0, &[10; 4]);
    let case_11 = Case { h: 1, min_down: 2, ..known_unit(0, &price_10) };
    vec![
        found("1", known_unit(0, &price_10), &[0], 0),
        found("2", known_unit(0, &[18]), &[0], 0),
        found("3", known_unit(0, &[19]), &[1], 1),
        found("4", known_unit(2, &price_10), &[1], -2),
        found("5", known_unit(2, &[5, 5]), &[1, 0], -26),
        found("6", known_unit(3, &[5, 5]), &[2, 1], -44),
        found("7", known_unit(3, &[5, 5, 5]), &[2, 1, 0], -53),
        found("8", with_orders(case_8, &[FREE, ON_LINE, FREE, OFF_LINE]), &[1, 2, 1, 0], -16),
        breaks("9", known_unit(0, &price_10), &[2], 1, 3),
        breaks("10", known_unit(2, &price_10), &[4], 1, 5),
        refused("11", with_orders(case_11, &[ON_LINE]), 11),
        refused("12", with_orders(case_8, &[OFF_LINE, ON_LINE, FREE, OFF_LINE]), 11),
        breaks("4 at hour 0", known_unit(0, &[10; 2]), &[1, 0], 0, 4),
    ]
}

/// A row whose best list is asked for and found.
pub fn found(name: &'static str, case: Case, list: &[u16], profit: i64) -> KnownDay {
    let answer = Answer::Found { list: list.to_vec(), profit };
    KnownDay { name, case, question: Question::BestList, answer }
}

/// A row whose list is checked and passes.
pub fn passes(name: &'static str, case: Case, list: &[u16], profit: i64) -> KnownDay {
    let question = Question::Check(list.to_vec());
    KnownDay { name, case, question, answer: Answer::Passes { profit } }
}

/// A row whose list is checked and breaks a rule.
pub fn breaks(name: &'static str, case: Case, list: &[u16], hour: u32, rule: u32) -> KnownDay {
    let question = Question::Check(list.to_vec());
    KnownDay { name, case, question, answer: Answer::Breaks { hour, rule } }
}

/// A row whose best list is asked for and refused.
pub fn refused(name: &'static str, case: Case, number: u32) -> KnownDay {
    KnownDay { name, case, question: Question::BestList, answer: Answer::Refused(number) }
}

/// A case of the known unit from 2 MW and of two hours or more, changed in ways that are refused, each with its number:
/// those of the refusal list's examples and of request F-2.
pub fn refused_cases(case: Case) -> Vec<(&'static str, Case, u32)> {
    let last = case.t - 1;
    let (mut ordered, mut above, mut below) = (case, case, case);
    ordered.orders[last] = OFF_LINE + 1;
    above.prices[last] = 10_000_001;
    below.prices[0] = -10_000_001;
    vec![
        ("no hours", Case { t: 0, ..case }, 2),
        ("minimum 5, capacity 4", Case { minimum: 5, ..case }, 3),
        ("RU 0", Case { ramp_up: 0, ..case }, 4),
        ("F 1,000,001", Case { f: 1_000_001, ..case }, 5),
        ("F -1", Case { f: -1, ..case }, 5),
        ("PU 2, 2", Case { pu: [2, 2, 0, 0, 0, 0, 0, 0], ..case }, 6),
        ("p(0) 1, minimum 2", Case { p0: 1, ..case }, 7),
        ("order 3", ordered, 8),
        ("order 3, price 10,000,001", Case { orders: ordered.orders, ..above }, 8),
        ("price 10,000,001", above, 13),
        ("price -10,000,001", below, 13),
    ]
}

/// The case whose file and text the scope gives as the program's example: case 7.
pub fn program_example() -> Case {
    known_unit(3, &[5, 5, 5])
}

/// The pairs of that file, which is one of the old form, and the text.
pub const EXAMPLE_PAIRS: [(u16, u16); 4] = [(16, 32), (48, 4), (52, 4), (56, 9)];
pub const EXAMPLE_TEXT: &str = "profit -53\n1 2 5\n2 1 3\n3 0 1\n";

/// Prices of Table III in mills per MWh.
const SOURCE_PRICES: [i32; 24] = [
    26_950, 25_817, 22_209, 21_219, 19_668, 19_800, 24_167, 26_950, 40_700, 44_110, 45_177, 47_025, 47_773,
    46_200, 44_033, 44_550, 46_200, 48_950, 48_840, 45_100, 43_252, 44_000, 44_000, 25_850,
];

/// Outputs of Table III.
pub const SOURCE_LIST: [u16; 24] = [
    120, 112, 70, 30, 0, 0, 0, 37, 75, 112, 172, 232, 292, 294, 294, 294, 294, 294, 294, 294, 294, 244, 194,
    144,
];

/// What the printed list earns, in half-mills.
pub const SOURCE_PROFIT: i64 = 33_546_962;

/// The source's day: Tables I to III and the data of its section III.
pub fn source_day() -> Case {
    let mut case = Case {
        capacity: 294,
        minimum: 112,
        ramp_up: 60,
        ramp_down: 50,
        min_up: 3,
        min_down: 3,
        f: 38_000,
        a: 100_000,
        b: 850_000,
        c: 56_000,
        p0: 170,
        h: 11,
        ud: 3,
        dd: 3,
        ..Case::ZERO
    };
    case.pu[..3].copy_from_slice(&[37, 75, 112]);
    case.pd[..3].copy_from_slice(&[112, 70, 30]);
    set_prices(&mut case, &SOURCE_PRICES);
    case
}

/// A row of Table V: how often the price profile is repeated, the printed profit in tenths of a dollar, and
/// the best profit in half-mills.
#[derive(Clone, Copy, Debug)]
pub struct LongerCase {
    pub days: usize,
    pub tenths: i64,
    pub profit: i64,
}

/// The rows of 48, 96 and 168 hours.
pub const TABLE_V: [LongerCase; 3] = [
    LongerCase { days: 2, tenths: 391_395, profit: 78_279_049 },
    LongerCase { days: 4, tenths: 838_716, profit: 167_743_223 },
    LongerCase { days: 7, tenths: 1_509_697, profit: 301_939_484 },
];

impl LongerCase {
    /// The case.
    pub fn case(&self) -> Case {
        let mut case = source_day();
        set_prices(&mut case, &SOURCE_PRICES.repeat(self.days));
        case
    }

    /// The least that the best list earns, in half-mills: the printed profit less 0.05 dollar. A tenth of a
    /// dollar is 200 half-mills, and 0.05 dollar is 100.
    pub fn least(&self) -> i64 {
        200 * self.tenths - 100
    }
}
