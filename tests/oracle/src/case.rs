//! The case record (scope, "Case file"): the fields of a case and the counts UD, DD and T. Prices are signed 32-bit
//! numbers of mills (request F-2), and so are the costs: 32 bits of a file of 2^31 or more are a cost below zero. A day
//! may open inside a start or a stop (request F-5), and has up to a week of hours (request F-6).

/// Most entries of a start-up or shut-down trajectory.
pub const MOST_STAGES: usize = 8;

/// Most hours of a day.
pub const MOST_HOURS: usize = 168;

/// An hour order: the unit is free, must be on-line or must be off-line.
pub const FREE: u8 = 0;
pub const ON_LINE: u8 = 1;
pub const OFF_LINE: u8 = 2;

/// The record. The order of the fields is also the one at the library's C boundary.
#[repr(C)]
#[derive(Clone, Copy, Debug, PartialEq, Eq)]
pub struct Case {
    /// Capacity and minimum output in megawatts.
    pub capacity: u16,
    pub minimum: u16,
    /// Ramp limits RU and RD in megawatts per hour.
    pub ramp_up: u16,
    pub ramp_down: u16,
    /// Minimum up and down times in hours.
    pub min_up: u16,
    pub min_down: u16,
    /// F in mills per MWh, A in mills per on-line hour, B in mills per start, C per stop.
    pub f: i32,
    pub a: i32,
    pub b: i32,
    pub c: i32,
    /// Output p(0), and the hours the unit has been on-line or off-line before hour 1.
    pub p0: u16,
    pub h: u16,
    /// The stage of a start-up or of a shut-down that p(0) has reached, or 0.
    pub up_stage: u8,
    pub down_stage: u8,
    /// Start-up trajectory PU and shut-down trajectory PD.
    pub pu: [u16; MOST_STAGES],
    pub pd: [u16; MOST_STAGES],
    /// Price in mills per MWh and order of each hour.
    pub prices: [i32; MOST_HOURS],
    pub orders: [u8; MOST_HOURS],
    /// Counts UD, DD and T.
    pub ud: usize,
    pub dd: usize,
    pub t: usize,
}

impl Case {
    /// The record of all zeros, which stands beside a refused reading.
    pub const ZERO: Case = Case {
        capacity: 0,
        minimum: 0,
        ramp_up: 0,
        ramp_down: 0,
        min_up: 0,
        min_down: 0,
        f: 0,
        a: 0,
        b: 0,
        c: 0,
        p0: 0,
        h: 0,
        up_stage: 0,
        down_stage: 0,
        pu: [0; MOST_STAGES],
        pd: [0; MOST_STAGES],
        prices: [0; MOST_HOURS],
        orders: [0; MOST_HOURS],
        ud: 0,
        dd: 0,
        t: 0,
    };

    /// The record with every entry past a count zeroed.
    pub fn zeroed_past_counts(&self) -> Case {
        let mut case = *self;
        zero_past(&mut case.pu, self.ud);
        zero_past(&mut case.pd, self.dd);
        zero_past(&mut case.prices, self.t);
        zero_past(&mut case.orders, self.t);
        case
    }
}

/// Zeroes the entries from `count` on.
fn zero_past<N: Default>(entries: &mut [N], count: usize) {
    for entry in entries.iter_mut().skip(count) {
        *entry = N::default();
    }
}
