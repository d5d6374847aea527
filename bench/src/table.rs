//! Tables of times: their heads, and the line of two programmes that answer the same.

use crate::times::Times;
use giqapsun::Case;
use std::fmt;
use std::hint::black_box;

/// How often a call is timed.
pub struct Rounds {
    /// Rounds in which the programmes are timed, one after the other.
    pub rounds: usize,
    /// Calls between two readings of the clock.
    pub calls: usize,
    /// Digits of a microsecond that are printed.
    digits: usize,
}

/// The rounds of a search.
const SEARCH: Rounds = Rounds { rounds: 2500, calls: 1, digits: 1 };

/// Those of a search of more than 48 hours.
const WEEK: Rounds = Rounds { rounds: 200, calls: 1, digits: 1 };

/// Those of a check and of reading a file.
pub const SHORT: Rounds = Rounds { rounds: 200, calls: 1000, digits: 3 };

/// Those of a search by a curve, of up to 48 hours and of more.
pub const BY_CURVE: [Rounds; 2] =
    [Rounds { rounds: 40, calls: 1, digits: 1 }, Rounds { rounds: 8, calls: 1, digits: 1 }];

impl Rounds {
    /// The rounds of the search of a case.
    pub fn of(case: &Case) -> Rounds {
        if case.hours > 48 {
            WEEK
        } else {
            SEARCH
        }
    }

    /// What stands below a table of searches.
    pub fn searches() -> String {
        format!("{SEARCH} in turn, {} of a week", WEEK.rounds)
    }
}

impl fmt::Display for Rounds {
    /// What stands below a table.
    fn fmt(&self, to: &mut fmt::Formatter) -> fmt::Result {
        write!(to, "microseconds; {} rounds", self.rounds)?;
        match self.calls {
            1 => Ok(()),
            calls => write!(to, " of {calls} calls"),
        }
    }
}

/// The heads of a table.
pub fn heads(rows: &str, columns: &[&str], more: &str) {
    let names: String = columns.iter().map(|name| format!("{name:>16}")).collect();
    println!("{:<42}{names}{more}", "");
    println!("{rows:<42}{}", "   least  median".repeat(columns.len()));
}

/// The times of a call of two programmes, and what those of the first are of the second's: in every round both answer
/// the same.
pub fn line<P, A: PartialEq>(
    name: &str,
    timed: &Rounds,
    programmes: [P; 2],
    mut call: impl FnMut(&P) -> A,
) -> String {
    let [one, two] = black_box(programmes);
    let [mut first, mut second] = [(); 2].map(|()| Times::default());
    for _ in 0..timed.rounds {
        let answer = first.take(timed.calls, || call(&one));
        let same = second.take(timed.calls, || call(&two)) == answer;
        assert!(same, "{name}: the answers differ");
    }
    let (digits, ratio) = (timed.digits, second.of(&first));
    format!("{name:<42}{first:.digits$}{second:.digits$}{ratio}")
}
