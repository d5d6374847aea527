//! The refusal list.

use std::error::Error;
use std::fmt;

/// Why a call was refused.
#[derive(Clone, Copy, Debug, PartialEq, Eq, Hash)]
#[non_exhaustive]
pub enum Refusal {
    /// 1: the file's pairs of offset and length.
    Pairs,
    /// 2: a section's length, or a count of a record.
    Counts,
    /// 3: minimum output and capacity.
    Capacity,
    /// 4: ramp limits and minimum times.
    RampsAndTimes,
    /// 5: costs.
    Costs,
    /// 6: trajectories.
    Trajectories,
    /// 7: output, hours in state and stage before hour 1.
    Opening,
    /// 8: hour orders.
    Orders,
    /// 9: length of a checked list.
    ListLength,
    /// 10: lent memory.
    Memory,
    /// 11: no list keeps every rule.
    NoSchedule,
    /// 12: the form number of a file.
    Form,
    /// 13: prices.
    Prices,
    /// 14: the windows of a calendar, and its day.
    Calendar,
    /// 15: an hour ordered on-line and off-line.
    Conflict,
    /// 16: the coefficients of a cost curve.
    Curve,
    /// A number that this crate does not know.
    Unknown(u32),
}

impl Refusal {
    /// Every refusal, in the order in which their conditions are tested.
    pub const ALL: [Refusal; 16] = [
        Refusal::Calendar,
        Refusal::Conflict,
        Refusal::Curve,
        Refusal::Pairs,
        Refusal::Counts,
        Refusal::Form,
        Refusal::Capacity,
        Refusal::RampsAndTimes,
        Refusal::Costs,
        Refusal::Trajectories,
        Refusal::Opening,
        Refusal::Orders,
        Refusal::Prices,
        Refusal::ListLength,
        Refusal::Memory,
        Refusal::NoSchedule,
    ];

    /// The refusal with this number; none for 0.
    pub fn from_number(number: u32) -> Option<Refusal> {
        if number == 0 {
            return None;
        }
        let known = Refusal::ALL.into_iter().find(|refusal| refusal.number() == number);
        Some(known.unwrap_or(Refusal::Unknown(number)))
    }

    /// The number in the refusal list.
    pub fn number(self) -> u32 {
        match self {
            Refusal::Pairs => 1,
            Refusal::Counts => 2,
            Refusal::Capacity => 3,
            Refusal::RampsAndTimes => 4,
            Refusal::Costs => 5,
            Refusal::Trajectories => 6,
            Refusal::Opening => 7,
            Refusal::Orders => 8,
            Refusal::ListLength => 9,
            Refusal::Memory => 10,
            Refusal::NoSchedule => 11,
            Refusal::Form => 12,
            Refusal::Prices => 13,
            Refusal::Calendar => 14,
            Refusal::Conflict => 15,
            Refusal::Curve => 16,
            Refusal::Unknown(number) => number,
        }
    }

    /// The condition in the refusal list.
    pub fn text(self) -> &'static str {
        match self {
            Refusal::Pairs => "file under 16 bytes, or pairs not as laid down",
            Refusal::Counts => {
                "a section length, or a count in a record, not as laid down; \
                 by calendar, T not the day's number of hours"
            }
            Refusal::Capacity => "minimum output 0 or above capacity, or capacity above 400",
            Refusal::RampsAndTimes => "RU or RD outside 1 to 400, or a minimum time outside 1 to 24",
            Refusal::Costs => "F not from 0 to 1,000,000, or A, B or C not from 0 to 100,000,000",
            Refusal::Trajectories => {
                "PU not strictly rising from 1 or more to the minimum output, \
                 or PD not strictly falling from the minimum output to 1 or more"
            }
            Refusal::Opening => {
                "h outside 1 to 10,000; both stages set; a start-up stage not from 1 to UD - 1, or set with p(0) \
                 not PU(stage) or h not the stage; a shut-down stage not from 2 to DD, or set with p(0) not \
                 PD(stage) or h below UD + stage - 1; with no stage set, p(0) neither 0 nor from minimum to \
                 capacity, or p(0) above 0 with h below UD"
            }
            Refusal::Orders => "an order byte above 2",
            Refusal::ListLength => "checked list not of T outputs",
            Refusal::Memory => {
                "lent memory short: 8,192 signed 64-bit numbers to work in, 32,768 where a minimum time is above 8, \
                 801 for the table of a curve, T outputs, or the written file's bytes"
            }
            Refusal::NoSchedule => "best list asked for, and no list keeps every rule",
            Refusal::Form => "form number neither 2 nor 3",
            Refusal::Prices => "a price outside -10,000,000 to 10,000,000",
            Refusal::Calendar => {
                "a list of windows not of whole pairs; a window empty, unsorted or overlapping its neighbour; \
                 a day not of 23 to 25 hours; or first hour plus length of a window or of the day above 8,784"
            }
            Refusal::Conflict => "an hour of the day in both lists of windows",
            Refusal::Curve => {
                "a coefficient of the curve that is not a number, negative or above 1,000,000, \
                 or an unused one that is not 0; or a kind that is none of the three"
            }
            Refusal::Unknown(_) => "a number that is not in the refusal list",
        }
    }
}

impl fmt::Display for Refusal {
    /// Number and condition.
    fn fmt(&self, f: &mut fmt::Formatter<'_>) -> fmt::Result {
        write!(f, "refused {}: {}", self.number(), self.text())
    }
}

impl Error for Refusal {}
