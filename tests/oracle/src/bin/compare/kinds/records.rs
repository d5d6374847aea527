//! The kinds of records that are written, checked, searched and asked for the working numbers of a search:
//! which test refuses a record (scope, "Refusal list"; requests F-2, F-5 and F-6), and which comes first of
//! two.

use super::{kind, Kind};
use oracle::case::{Case, MOST_HOURS};
use oracle::refusals::{working_numbers, MOST_WORKING_NUMBERS, PRICES, WORKING_NUMBERS};

/// What a call was made for.
#[derive(Clone, Copy, Debug, PartialEq, Eq)]
pub enum Asked {
    /// Writing into so many bytes.
    Write { bytes: usize },
    /// The check of a list of so many outputs.
    Check { outputs: usize },
    /// The search in so many numbers, for so many outputs.
    Best { numbers: usize, outputs: usize },
    /// How many working numbers a search is to be lent.
    Work,
}

/// A record that a call was made with, and its number.
pub struct Met {
    pub case: Case,
    pub asked: Asked,
    pub number: u32,
}

/// All kinds.
pub const KINDS: [Kind<Met>; 84] = [
    kind("2", |met| met.number == 2),
    kind("3", |met| met.number == 3),
    kind("4", |met| met.number == 4),
    kind("5", |met| met.number == 5),
    kind("6", |met| met.number == 6),
    kind("7", |met| met.number == 7),
    kind("8", |met| met.number == 8),
    kind("13", |met| met.number == 13),
    kind("9", |met| met.number == 9),
    kind("10 of writing", |met| met.number == 10 && met.writes()),
    kind("10 of the search", |met| met.number == 10 && met.searches()),
    kind("11", |met| met.number == 11),
    kind("written", |met| met.number == 0 && met.writes()),
    kind("checked", |met| met.number == 0 && met.checks()),
    kind("searched", |met| met.number == 0 && met.searches()),
    kind("F below zero", |met| met.number == 5 && met.case.f < 0),
    kind("A below zero", |met| met.number == 5 && met.case.a < 0),
    kind("B below zero", |met| met.number == 5 && met.case.b < 0),
    kind("C below zero", |met| met.number == 5 && met.case.c < 0),
    kind("F above its limit", |met| met.number == 5 && met.case.f > 1_000_000),
    kind("A above its limit", |met| met.number == 5 && met.case.a > 100_000_000),
    kind("B above its limit", |met| met.number == 5 && met.case.b > 100_000_000),
    kind("C above its limit", |met| met.number == 5 && met.case.c > 100_000_000),
    kind("lower limit of a price", |met| met.number == 0 && met.some_price(*PRICES.start())),
    kind("upper limit of a price", |met| met.number == 0 && met.some_price(*PRICES.end())),
    kind("one below", |met| met.number == 13 && met.outside_alone(PRICES.start() - 1)),
    kind("one above", |met| met.number == 13 && met.outside_alone(PRICES.end() + 1)),
    kind("the lowest of 32 bits", |met| met.number == 13 && met.outside_alone(i32::MIN)),
    kind("the highest of 32 bits", |met| met.number == 13 && met.outside_alone(i32::MAX)),
    kind("13 by hour 1 alone", |met| met.number == 13 && met.hours() > 1 && met.outside().eq([1])),
    kind("13 by hour T alone", |met| met.number == 13 && met.hours() > 1 && met.outside().eq([met.hours()])),
    kind("price outside past T, written", |met| met.number == 0 && met.writes() && met.some_outside_past_t()),
    kind("past T, checked", |met| met.number == 0 && met.checks() && met.some_outside_past_t()),
    kind("past T, searched", |met| met.number == 0 && met.searches() && met.some_outside_past_t()),
    kind("right after T", |met| met.number == 0 && met.is_outside_right_after_t()),
    kind("2 before 13", |met| met.number == 2 && met.outside().next().is_some()),
    kind("3 to 7 before 13", |met| matches!(met.number, 3..=7) && met.outside().next().is_some()),
    kind("8 before 13", |met| met.number == 8 && met.outside().next().is_some()),
    kind("13 before 9", |met| met.number == 13 && met.is_of_another_length()),
    kind("13 before 10 of writing", |met| met.number == 13 && met.writes() && met.is_short()),
    kind("13 before 10 of the search", |met| met.number == 13 && met.searches() && met.is_short()),
    kind("13 with enough memory", |met| met.number == 13 && met.searches() && !met.is_short()),
    kind("start-up stage, written", |met| met.number == 0 && met.writes() && met.case.up_stage > 0),
    kind("start-up stage, checked", |met| met.number == 0 && met.checks() && met.case.up_stage > 0),
    kind("start-up stage, searched", |met| met.number == 0 && met.searches() && met.case.up_stage > 0),
    kind("shut-down stage, written", |met| met.number == 0 && met.writes() && met.case.down_stage > 0),
    kind("shut-down stage, checked", |met| met.number == 0 && met.checks() && met.case.down_stage > 0),
    kind("shut-down stage, searched", |met| met.number == 0 && met.searches() && met.case.down_stage > 0),
    kind("7 by h 0 alone", |met| met.is_alone(Fault::HoursOutside) && met.case.h == 0),
    kind("7 by h 10,001 alone", |met| met.is_alone(Fault::HoursOutside) && met.case.h == 10_001),
    kind("h 10,001 beside a shut-down stage", |met| {
        met.is_alone(Fault::HoursOutside) && met.case.down_stage > 0
    }),
    kind("7 by both stages, the start-up in order", |met| met.is_both(Fault::of_stop)),
    kind("7 by both stages, the shut-down in order", |met| met.is_both(Fault::of_start)),
    kind("7 by start-up stage UD alone", |met| met.is_alone(Fault::StartPastLast) && met.up() == met.case.ud),
    kind("7 by a start-up stage above UD", |met| {
        met.number == 7 && met.case.down_stage == 0 && met.up() > met.case.ud
    }),
    kind("7 by p(0) not PU(stage) alone", |met| met.is_alone(Fault::NotStartOutput)),
    kind("7 by h below the start-up stage alone", |met| {
        met.is_alone(Fault::NotStartHours) && met.hours_before() < met.up()
    }),
    kind("7 by h above the start-up stage alone", |met| {
        met.is_alone(Fault::NotStartHours) && met.hours_before() > met.up()
    }),
    kind("7 by shut-down stage 1 alone", |met| met.is_alone(Fault::StopStage) && met.down() == 1),
    kind("7 by a shut-down stage above DD alone", |met| met.is_alone(Fault::StopStage) && met.down() > 1),
    kind("7 by p(0) not PD(stage) alone", |met| met.is_alone(Fault::NotStopOutput)),
    kind("7 by h one too low for the shut-down stage", |met| {
        met.is_alone(Fault::StopHours) && met.hours_before() + 2 == met.case.ud + met.down()
    }),
    kind("h just enough for the shut-down stage", |met| {
        met.number == 0 && met.down() > 0 && met.hours_before() + 1 == met.case.ud + met.down()
    }),
    kind("7 by p(0) of a trajectory without a stage", |met| {
        met.is_alone(Fault::Output) && met.is_on_trajectory()
    }),
    kind("7 by p(0) above capacity alone", |met| {
        met.is_alone(Fault::Output) && met.case.p0 > met.case.capacity
    }),
    kind("7 by h below UD alone", |met| met.is_alone(Fault::OnLineHours)),
    kind("7 before 13", |met| met.number == 7 && met.has_stage() && met.outside().next().is_some()),
    kind("168 hours, written", |met| met.number == 0 && met.writes() && met.case.t == 168),
    kind("168 hours, checked", |met| met.number == 0 && met.checks() && met.case.t == 168),
    kind("168 hours, searched", |met| met.number == 0 && met.searches() && met.case.t == 168),
    kind("2 by T 169 alone", |met| met.number == 2 && met.case.t == 169 && met.has_stages_of_1_to_8()),
    kind("minimum up time 24, searched", |met| met.number == 0 && met.searches() && met.case.min_up == 24),
    kind("minimum down time 24, searched", |met| {
        met.number == 0 && met.searches() && met.case.min_down == 24
    }),
    kind("4 by a minimum up time of 25 alone", |met| {
        met.is_by_times(|up, down| up == 25 && (1..25).contains(&down))
    }),
    kind("4 by a minimum down time of 25 alone", |met| {
        met.is_by_times(|up, down| down == 25 && (1..25).contains(&up))
    }),
    kind("4 by a minimum up time of 0 alone", |met| {
        met.is_by_times(|up, down| up == 0 && (1..25).contains(&down))
    }),
    kind("4 before 10", |met| met.number == 4 && met.searches() && met.is_short()),
    kind("10 of 8,192 numbers", |met| met.number == 10 && met.is_lent(WORKING_NUMBERS)),
    kind("10 of 32,767 numbers", |met| met.number == 10 && met.is_lent(MOST_WORKING_NUMBERS - 1)),
    kind("searched in 8,192 numbers", |met| met.number == 0 && met.is_lent(WORKING_NUMBERS)),
    kind("searched in 32,768 numbers", |met| met.number == 0 && met.is_lent(MOST_WORKING_NUMBERS)),
    kind("11 in 32,768 numbers", |met| met.number == 11 && met.is_lent(MOST_WORKING_NUMBERS)),
    kind("8,192 numbers of a refused record", |met| met.is_refused_and_asks(WORKING_NUMBERS)),
    kind("32,768 numbers of a refused record", |met| met.is_refused_and_asks(MOST_WORKING_NUMBERS)),
];

/// What 7 is given for.
#[derive(Clone, Copy, Debug, PartialEq, Eq)]
enum Fault {
    /// h is not from 1 to 10,000.
    HoursOutside,
    /// Of a start-up stage: it is not below UD; p(0) is not PU(stage); h is not the stage.
    StartPastLast,
    NotStartOutput,
    NotStartHours,
    /// Of a shut-down stage: it is not from 2 to DD; p(0) is not PD(stage); h is below UD + stage - 1.
    StopStage,
    NotStopOutput,
    StopHours,
    /// With no stage: p(0) is neither 0 nor from minimum to capacity; h is below UD with p(0) above 0.
    Output,
    OnLineHours,
}

impl Fault {
    /// Whether it is one of a start-up stage, or of a shut-down stage.
    fn of_start(self) -> bool {
        matches!(self, Fault::StartPastLast | Fault::NotStartOutput | Fault::NotStartHours)
    }
    fn of_stop(self) -> bool {
        matches!(self, Fault::StopStage | Fault::NotStopOutput | Fault::StopHours)
    }
}

impl Met {
    /// The stages and h, as counts.
    fn up(&self) -> usize {
        self.case.up_stage.into()
    }
    fn down(&self) -> usize {
        self.case.down_stage.into()
    }
    fn hours_before(&self) -> usize {
        self.case.h.into()
    }

    /// Whether a stage is set.
    fn has_stage(&self) -> bool {
        self.up() > 0 || self.down() > 0
    }

    /// Whether p(0) is an output of PU or of PD below the minimum output.
    fn is_on_trajectory(&self) -> bool {
        let case = &self.case;
        let stages = [&case.pu[..case.ud], &case.pd[..case.dd]].concat();
        case.p0 < case.minimum && stages.contains(&case.p0)
    }

    /// All that 7 could be given for, of a record whose counts are in order; both stages are tested each for itself.
    fn faults(&self) -> Vec<Fault> {
        let (case, up, down, h) = (&self.case, self.up(), self.down(), self.hours_before());
        let output = |stages: &[u16], stage: usize| stages.get(stage - 1) == Some(&case.p0);
        let on_line = case.p0 > 0;
        let tests = [
            (Fault::HoursOutside, !(1..=10_000).contains(&h)),
            (Fault::StartPastLast, up > 0 && up >= case.ud),
            (Fault::NotStartOutput, up > 0 && !output(&case.pu, up)),
            (Fault::NotStartHours, up > 0 && h != up),
            (Fault::StopStage, down == 1 || down > case.dd),
            (Fault::NotStopOutput, down > 0 && !output(&case.pd, down)),
            (Fault::StopHours, down > 0 && h + 1 < case.ud + down),
            (
                Fault::Output,
                !self.has_stage() && on_line && !(case.minimum..=case.capacity).contains(&case.p0),
            ),
            (Fault::OnLineHours, !self.has_stage() && on_line && h < case.ud),
        ];
        tests.into_iter().filter(|&(_, is_met)| is_met).map(|(fault, _)| fault).collect()
    }

    /// Whether 7 is given for this alone.
    fn is_alone(&self, fault: Fault) -> bool {
        self.number == 7 && !(self.up() > 0 && self.down() > 0) && self.faults() == [fault]
    }

    /// Whether 7 is given for both stages, and whatever else is not in order is of the one that is named.
    fn is_both(&self, of: fn(Fault) -> bool) -> bool {
        self.number == 7 && self.up() > 0 && self.down() > 0 && self.faults().into_iter().all(of)
    }

    /// Whether the call is of this name.
    fn writes(&self) -> bool {
        matches!(self.asked, Asked::Write { .. })
    }
    fn checks(&self) -> bool {
        matches!(self.asked, Asked::Check { .. })
    }
    fn searches(&self) -> bool {
        matches!(self.asked, Asked::Best { .. })
    }

    /// Whether UD and DD are in order.
    fn has_stages_of_1_to_8(&self) -> bool {
        (1..=8).contains(&self.case.ud) && (1..=8).contains(&self.case.dd)
    }

    /// Whether 4 is given for the minimum times, and they are such.
    fn is_by_times(&self, test: fn(u16, u16) -> bool) -> bool {
        let ramps = [self.case.ramp_up, self.case.ramp_down];
        let by_ramps = ramps.iter().any(|ramp| !(1..=400).contains(ramp));
        self.number == 4 && !by_ramps && test(self.case.min_up, self.case.min_down)
    }

    /// Whether a search is lent so many numbers, and outputs enough.
    fn is_lent(&self, wanted: usize) -> bool {
        matches!(self.asked, Asked::Best { numbers, outputs } if numbers == wanted && outputs >= self.case.t)
    }

    /// Whether the record is refused, and a search of it would ask for so many numbers.
    fn is_refused_and_asks(&self, numbers: usize) -> bool {
        self.asked == Asked::Work && self.number > 0 && working_numbers(&self.case) == numbers
    }

    /// The number of hours, as far as a record has room.
    fn hours(&self) -> usize {
        self.case.t.min(MOST_HOURS)
    }

    /// The hours, from 1 to T, whose price is outside the range.
    fn outside(&self) -> impl Iterator<Item = usize> + '_ {
        (1..=self.hours()).filter(|&k| !PRICES.contains(&self.case.prices[k - 1]))
    }

    /// Whether one hour alone has a price outside the range, and it is this one.
    fn outside_alone(&self, price: i32) -> bool {
        self.outside().map(|k| self.case.prices[k - 1]).eq([price])
    }

    /// Whether an hour has this price.
    fn some_price(&self, price: i32) -> bool {
        self.case.prices[..self.hours()].contains(&price)
    }

    /// Whether a price past T is outside the range.
    fn some_outside_past_t(&self) -> bool {
        self.case.prices[self.hours()..].iter().any(|price| !PRICES.contains(price))
    }

    /// Whether the price right after that of hour T is.
    fn is_outside_right_after_t(&self) -> bool {
        self.case.prices[self.hours()..].first().is_some_and(|price| !PRICES.contains(price))
    }

    /// Whether a list is not of T outputs.
    fn is_of_another_length(&self) -> bool {
        matches!(self.asked, Asked::Check { outputs } if outputs != self.case.t)
    }

    /// Whether the memory is shorter than any file, or than a search needs.
    fn is_short(&self) -> bool {
        match self.asked {
            Asked::Write { bytes } => bytes < 20,
            Asked::Check { .. } | Asked::Work => false,
            Asked::Best { numbers, outputs } => {
                numbers < working_numbers(&self.case) || outputs < self.case.t
            }
        }
    }
}
