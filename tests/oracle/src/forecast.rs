//! What a price forecast can do (request F-8): what has to hold of the answers for one case at rows of prices, whoever
//! gives them. Each statement is tested on the answers alone: number, profit and list of the search at each row, and
//! what the check says of lists at each row. The energy of an hour is p(k) + p(k-1), in half-megawatt-hours, so that
//! mills per MWh times energy are half-mills and nothing is rounded.

use crate::answers::{self, Schedule, Verdict};
use crate::best::Plan;
use crate::case::Case;
use crate::profit::{half_megawatt_hours, profit_by, Costs};

/// The statements, in the order in which they are tested.
#[derive(Clone, Copy, Debug, PartialEq, Eq)]
pub enum Statement {
    Alike,
    NoLower,
    HalfWay,
    Carried,
    Regret,
    Raised,
    OneHour,
    OnePlan,
}

/// All of them.
pub const STATEMENTS: [Statement; 8] = [
    Statement::Alike,
    Statement::NoLower,
    Statement::HalfWay,
    Statement::Carried,
    Statement::Regret,
    Statement::Raised,
    Statement::OneHour,
    Statement::OnePlan,
];

impl Statement {
    /// A word for titles and names of files.
    pub fn word(self) -> &'static str {
        match self {
            Statement::Alike => "alike",
            Statement::NoLower => "no-lower",
            Statement::HalfWay => "half-way",
            Statement::Carried => "carried",
            Statement::Regret => "regret",
            Statement::Raised => "raised",
            Statement::OneHour => "one-hour",
            Statement::OnePlan => "one-plan",
        }
    }

    /// What it says.
    pub fn words(self) -> &'static str {
        match self {
            Statement::Alike => "a list is found at every row, or 11 is the answer at every row",
            Statement::NoLower => "where no price is lower, the best profit is not lower",
            Statement::HalfWay => "twice the best profit half-way is at most the sum of the two",
            Statement::Carried => "a best list passes at other rows, and earns more by its energy alone",
            Statement::Regret => "a best list loses at another row at most what the two energies differ in",
            Statement::Raised => "where all prices rise by one amount, profit and energy rise with it",
            Statement::OneHour => "where the price of one hour rises, the energy of that hour does not fall",
            Statement::OnePlan => "no list earns more at the two rows together than the best list half-way",
        }
    }
}

/// A row of prices with what is answered at it.
#[derive(Clone, Debug)]
pub struct Row {
    /// The prices of hours 1 to T.
    pub prices: Vec<i32>,
    /// The search.
    pub best: Schedule,
    /// The check of each list of the forecasts.
    pub checks: Vec<Verdict>,
}

/// Two rows of prices for one case and the row half-way, with their answers.
#[derive(Clone, Debug)]
pub struct Forecasts {
    /// The case, at the first row.
    pub case: Case,
    pub rows: [Row; 3],
    /// The lists that the three searches found, in the order of the rows, and after them others; none at all where a
    /// search found none.
    pub lists: Vec<Vec<u16>>,
}

/// The rows in words, and their places.
const NAMES: [&str; 3] = ["the first row", "the second row", "the row half-way"];
pub const FIRST: usize = 0;
pub const SECOND: usize = 1;
pub const HALF_WAY: usize = 2;

/// What is given and what is expected, where a statement does not hold.
pub type Broken = [String; 2];

/// Whether a statement holds.
pub type Test = Result<(), Broken>;

/// The statement holds where the claim does.
fn claim(holds: bool, words: impl FnOnce() -> Broken) -> Test {
    if holds {
        Ok(())
    } else {
        Err(words())
    }
}

/// Who answers: the library, or the independent scheduler.
pub trait Asked {
    /// The search of a case.
    fn best(&mut self, case: &Case) -> Schedule;

    /// The check of a list.
    fn check(&mut self, case: &Case, list: &[u16]) -> Verdict;
}

/// The independent scheduler with these costs and this search.
pub struct Independent<'a> {
    pub costs: Costs<'a>,
    pub search: fn(&Case, Costs) -> Option<Plan>,
}

impl Asked for Independent<'_> {
    fn best(&mut self, case: &Case) -> Schedule {
        answers::schedule(case, answers::work(case), case.t, |case| (self.search)(case, self.costs))
    }

    fn check(&mut self, case: &Case, list: &[u16]) -> Verdict {
        let verdict = answers::verdict(case, list);
        match (verdict.number, verdict.rule) {
            (0, 0) => Verdict { profit: profit_by(case, self.costs, list), ..verdict },
            _ => verdict,
        }
    }
}

/// The case with this row of T prices.
pub fn at_row(case: &Case, row: &[i32]) -> Case {
    let mut case = *case;
    case.prices[..row.len()].copy_from_slice(row);
    case
}

/// The row half-way between that of the case and another; none if the sum of an hour is odd.
pub fn half_way(case: &Case, row: &[i32]) -> Option<Vec<i32>> {
    let sums = case.prices.iter().zip(row).map(|(&first, &second)| first + second);
    sums.map(|sum| (sum % 2 == 0).then_some(sum / 2)).collect()
}

impl Forecasts {
    /// The answers at the prices of the case, at a second row and half-way, of the lists that are found and of others
    /// that keep the rules.
    pub fn ask(case: &Case, second: &[i32], others: Vec<Vec<u16>>, asked: &mut impl Asked) -> Forecasts {
        let half = half_way(case, second).expect("every sum of two prices is even");
        let cases = [*case, at_row(case, second), at_row(case, &half)];
        let bests = cases.each_ref().map(|case| asked.best(case));
        let mut lists: Vec<Vec<u16>> = bests.iter().map(|best| best.list.clone()).chain(others).collect();
        if bests.iter().any(|best| best.number != 0) {
            lists.clear();
        }
        let mut bests = bests.into_iter();
        let rows = cases.map(|case| Row {
            prices: case.prices[..case.t].to_vec(),
            best: bests.next().expect("one for each row"),
            checks: lists.iter().map(|list| asked.check(&case, list)).collect(),
        });
        Forecasts { case: *case, rows, lists }
    }

    /// Whether a list was found at every row.
    pub fn is_found(&self) -> bool {
        self.rows.iter().all(|row| row.best.number == 0)
    }

    /// Whether a statement holds of these answers.
    pub fn test(&self, statement: Statement) -> Test {
        match statement {
            Statement::Alike => self.alike(),
            _ if !self.is_found() => Ok(()),
            Statement::NoLower => self.of_pairs(Forecasts::no_lower),
            Statement::HalfWay => self.half_way(),
            Statement::Carried => self.of_pairs(Forecasts::carried),
            Statement::Regret => self.of_pairs(Forecasts::regret_within),
            Statement::Raised => self.of_pairs(Forecasts::raised),
            Statement::OneHour => self.of_pairs(Forecasts::one_hour),
            Statement::OnePlan => self.one_plan(),
        }
    }

    /// Whether a statement on two rows holds of each with each, both ways round.
    fn of_pairs(&self, test: fn(&Forecasts, usize, usize) -> Test) -> Test {
        let rows = 0..self.rows.len();
        rows.clone().try_for_each(|from| rows.clone().try_for_each(|to| test(self, from, to)))
    }

    /// What the prices of a row are above those of another, hour by hour.
    pub fn rises(&self, from: usize, to: usize) -> Vec<i64> {
        let pairs = self.rows[from].prices.iter().zip(&self.rows[to].prices);
        pairs.map(|(&before, &after)| i64::from(after) - i64::from(before)).collect()
    }

    /// The energy of each hour of the list that was found at a row.
    pub fn energies(&self, row: usize) -> Vec<i64> {
        let list = &self.rows[row].best.list;
        let before = std::iter::once(&self.case.p0).chain(list);
        before.zip(list).map(|(&before, &output)| half_megawatt_hours(before, output)).collect()
    }

    /// The best profit at a row.
    pub fn best(&self, row: usize) -> i64 {
        self.rows[row].best.profit
    }

    /// What a list earns at a row, if it passes there.
    pub fn earns(&self, row: usize, list: usize) -> Option<i64> {
        let verdict = self.rows[row].checks[list];
        ((verdict.number, verdict.rule) == (0, 0)).then_some(verdict.profit)
    }

    /// What is lost at a row by the list that was found at another, if it passes.
    pub fn regret(&self, from: usize, to: usize) -> Option<i64> {
        self.earns(to, from).map(|earned| self.best(to) - earned)
    }

    /// The most that may be lost: the rises times what the energies differ in.
    pub fn most_regret(&self, from: usize, to: usize) -> i64 {
        let energies = self.energies(to).into_iter().zip(self.energies(from));
        let more = energies.map(|(there, here)| there - here);
        self.rises(from, to).iter().zip(more).map(|(rise, more)| rise * more).sum()
    }

    /// The amount by which all prices rise, if they rise by one; it may be 0.
    pub fn amount(&self, from: usize, to: usize) -> Option<i64> {
        let rises = self.rises(from, to);
        Some(rises[0]).filter(|&amount| amount >= 0 && rises.iter().all(|&rise| rise == amount))
    }

    /// The place of the one hour whose price rises, if no other price differs.
    pub fn risen_hour(&self, from: usize, to: usize) -> Option<usize> {
        let rises = self.rises(from, to);
        let mut changed = (0..rises.len()).filter(|&hour| rises[hour] != 0);
        changed.next().filter(|&hour| rises[hour] > 0 && changed.next().is_none())
    }

    /// Twice the prices of the third row are the sums of the other two.
    fn is_half_way(&self) -> bool {
        self.rises(FIRST, HALF_WAY) == self.rises(HALF_WAY, SECOND)
    }

    /// 0 at every row, or 11.
    fn alike(&self) -> Test {
        let numbers = self.rows.each_ref().map(|row| row.best.number);
        claim(numbers == [0; 3] || numbers == [11; 3], || {
            [format!("the numbers {numbers:?}"), "0 at every row, or 11 at every row".to_string()]
        })
    }

    /// f(k) <= g(k) in every hour: best(f) <= best(g).
    fn no_lower(&self, from: usize, to: usize) -> Test {
        let (low, high) = (self.best(from), self.best(to));
        let is_such = self.rises(from, to).iter().all(|&rise| rise >= 0);
        claim(!is_such || low <= high, || {
            [format!("{high} at {}", NAMES[to]), format!("at least {low}, that of {}", NAMES[from])]
        })
    }

    /// 2 e(k) = f(k) + g(k) in every hour: 2 best(e) <= best(f) + best(g).
    fn half_way(&self) -> Test {
        let [first, second, half] = [FIRST, SECOND, HALF_WAY].map(|row| self.best(row));
        claim(!self.is_half_way() || 2 * half <= first + second, || {
            [format!("twice {half}"), format!("at most {first} + {second}")]
        })
    }

    /// plan(f) passes at a, and earns best(f) and the sum of (a(k) - f(k)) E(k).
    fn carried(&self, from: usize, to: usize) -> Test {
        let given = self.rows[to].checks[from];
        let more: i64 = self.rises(from, to).iter().zip(self.energies(from)).map(|(rise, e)| rise * e).sum();
        let expected = Verdict { number: 0, hour: 0, rule: 0, profit: self.best(from) + more };
        claim(given == expected, || {
            let list = format!("the list of {} at {}", NAMES[from], NAMES[to]);
            [format!("{given:?}, {list}"), format!("{expected:?}, {more} more than at its own")]
        })
    }

    /// 0 <= best(a) - earns(a, plan f) <= the sum of (a(k) - f(k)) (E(k) of plan a - E(k) of plan f), which is at most
    /// twice the capacity times the sum of the differences.
    fn regret_within(&self, from: usize, to: usize) -> Test {
        let Some(regret) = self.regret(from, to) else {
            return Ok(());
        };
        let differences: i64 = self.rises(from, to).iter().map(|rise| rise.abs()).sum();
        let (most, widest) = (self.most_regret(from, to), 2 * i64::from(self.case.capacity) * differences);
        claim(0 <= regret && regret <= most && most <= widest, || {
            let list = format!("lost by the list of {} at {}", NAMES[from], NAMES[to]);
            [format!("{regret} {list}"), format!("0 to {most}, and {most} at most {widest}")]
        })
    }

    /// g(k) = f(k) + d in every hour: best(f) + d E(plan f) <= best(g) <= best(f) + d E(plan g), and the energy does
    /// not fall.
    fn raised(&self, from: usize, to: usize) -> Test {
        let Some(amount) = self.amount(from, to) else {
            return Ok(());
        };
        let [here, there] = [from, to].map(|row| self.energies(row).iter().sum::<i64>());
        let (low, high) = (self.best(from) + amount * here, self.best(from) + amount * there);
        let given = self.best(to);
        claim(low <= given && given <= high && here <= there, || {
            let energies = format!("energies {here} and {there}");
            [format!("{given} at {}, {energies}", NAMES[to]), format!("{low} to {high}, no less energy")]
        })
    }

    /// The price of hour j alone rises: E(j) of plan f <= E(j) of plan g.
    fn one_hour(&self, from: usize, to: usize) -> Test {
        let Some(hour) = self.risen_hour(from, to) else {
            return Ok(());
        };
        let [here, there] = [from, to].map(|row| self.energies(row)[hour]);
        claim(here <= there, || {
            let energy = format!("an energy of {there} in hour {}", hour + 1);
            [format!("{energy} at {}", NAMES[to]), format!("at least {here}, that of {}", NAMES[from])]
        })
    }

    /// What a list earns at the two rows together, if it passes at both.
    pub fn earns_together(&self, list: usize) -> Option<i64> {
        Some(self.earns(FIRST, list)? + self.earns(SECOND, list)?)
    }

    /// 2 e(k) = f(k) + g(k) in every hour: a list that passes earns at f and g together at most what plan(e) does,
    /// which is 2 best(e).
    fn one_plan(&self) -> Test {
        let most = 2 * self.best(HALF_WAY);
        if !self.is_half_way() {
            return Ok(());
        }
        (0..self.lists.len()).try_for_each(|list| match self.earns_together(list) {
            None => Ok(()),
            Some(earned) => claim(earned == most || (earned < most && list != HALF_WAY), || {
                let given = format!("{earned} earned at the two rows together by {:?}", self.lists[list]);
                let limit = if list == HALF_WAY { "just" } else { "at most" };
                [given, format!("{limit} {most}, twice the profit half-way")]
            }),
        })
    }
}
