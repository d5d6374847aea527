//! Price forecasts: the known rows, answers of theirs that are changed so that a statement does not hold, and every
//! statement on what trying every list answers.

use crate::{Tally, SEED};
use oracle::best::every_list_by;
use oracle::curve::{filling, COSTS};
use oracle::curves::of_case;
use oracle::dp::KeptLists;
use oracle::forecast::{Forecasts, Independent, Statement, FIRST, HALF_WAY, SECOND, STATEMENTS};
use oracle::forecasts::second_row;
use oracle::known_forecasts::{known_forecasts, COUNT};
use oracle::profit::Costs;
use oracle::random::Rng;
use oracle::stages::small_staged;
use oracle::units::smaller_unit;
use oracle::weeks::small_locked;

/// Numbers of random rows, and of lists that are drawn for each.
const ROWS: u64 = 600;
const LISTS: usize = 4;

/// A change of the answers at the known rows of a name, by which a statement does not hold.
type Change = (Statement, &'static str, fn(&mut Forecasts));

/// The known rows, of which every statement holds.
pub fn known(tally: &mut Tally) {
    tally.same("count", known_forecasts().len() as u64, COUNT);
    for row in known_forecasts() {
        let given = row.answered(every_list_by);
        tally.same(row.name, given.rows.each_ref().map(|row| row.best.clone()), row.best.clone());
        every_statement(tally, &given);
        if given.is_found() {
            let pairs = [(FIRST, SECOND), (SECOND, FIRST)];
            tally.same(row.name, pairs.map(|(from, to)| given.earns(to, from)), row.carried.map(Some));
            tally.same(row.name, pairs.map(|(from, to)| given.regret(from, to)), row.lost.map(Some));
            tally.same(row.name, given.most_regret(FIRST, SECOND), row.lost.iter().sum());
        }
    }
}

/// Every statement holds.
fn every_statement(tally: &mut Tally, given: &Forecasts) {
    for statement in STATEMENTS {
        tally.same(statement.word(), given.test(statement), Ok(()));
    }
}

/// The answers at known rows, changed in one place so that a statement does not hold.
pub fn changed(tally: &mut Tally) {
    let changes: [Change; 11] = [
        (Statement::Alike, "case 11", |it| it.rows[HALF_WAY].best.number = 0),
        (Statement::Alike, "a tie at a row", |it| it.rows[SECOND].best.number = 10),
        (Statement::NoLower, "off-line at both rows", |it| it.rows[SECOND].best.profit = -1),
        (Statement::HalfWay, "a tie at a row", |it| it.rows[HALF_WAY].best.profit = 2),
        (Statement::Carried, "a tie half-way", |it| it.rows[SECOND].checks[FIRST].profit = 1),
        (Statement::Carried, "below zero", |it| it.rows[SECOND].checks[HALF_WAY].rule = 21),
        (Statement::Regret, "a tie at a row", |it| it.rows[FIRST].checks[SECOND].profit = 1),
        (Statement::Regret, "raised, the same list", |it| it.rows[SECOND].checks[FIRST].profit = 93),
        (Statement::Raised, "raised, another list", |it| it.rows[SECOND].best.profit = 9),
        (Statement::OneHour, "case 7, hour 3 raised", |it| it.rows[SECOND].best.list = vec![2, 1, 0]),
        (Statement::OnePlan, "another list half-way", |it| it.rows[FIRST].checks[SECOND].profit = -49),
    ];
    for (statement, name, change) in changes {
        let row = known_forecasts().into_iter().find(|row| row.name == name).expect("a known row");
        let mut given = row.answered(every_list_by);
        change(&mut given);
        tally.same(&format!("{name}, {}", statement.word()), given.test(statement).is_err(), true);
    }
}

/// Every statement on random rows of small units, one in four by a curve, every list tried.
pub fn small(tally: &mut Tally) -> String {
    let (mut without_list, mut otherwise) = (0, 0);
    for index in 0..ROWS {
        let mut rng = Rng::for_index(SEED + 25, index);
        let mut case = match index % 3 {
            0 => smaller_unit(&mut rng),
            1 => small_staged(&mut rng),
            _ => small_locked(&mut rng),
        };
        let curve = (index % 4 == 0).then(|| of_case(&mut rng, &case));
        let second = second_row(&mut rng, &mut case);
        let table = curve.map(|(kind, curve)| filling(kind, &curve, COSTS).1);
        let costs = Costs::by(table.as_deref());
        let kept = KeptLists::by(&case, costs);
        let others = (0..LISTS).filter_map(|_| kept.draw(&mut rng, &[])).collect();
        let given = Forecasts::ask(&case, &second, others, &mut Independent { costs, search: every_list_by });
        every_statement(tally, &given);
        let [first, second, half] = given.rows.each_ref().map(|row| &row.best.list);
        without_list += u64::from(!given.is_found());
        otherwise += u64::from(half != first && half != second);
    }
    format!("; {without_list} without a list, {otherwise} with another list half-way than at either row")
}
