//! The proved library through its C boundary; with the feature `before` a second one, each of whose functions has
//! `before_` before its name.

use giqapsun::boundary::{
    giqapsun_best, giqapsun_best_by_curve, giqapsun_check, giqapsun_read, giqapsun_table,
};
use giqapsun::boundary::{Plan, Reading, Verdict};
use giqapsun::{Case, Curve};

/// The calls of a library that are timed.
pub struct Library {
    read: unsafe extern "C" fn(*const u8, usize) -> Reading,
    check: unsafe extern "C" fn(Case, *const u16, usize) -> Verdict,
    best: unsafe extern "C" fn(Case, *mut i64, usize, *mut u16, usize) -> Plan,
}

/// The library in the folder GIQAPSUN_LIB_DIR.
pub const NOW: Library = Library { read: giqapsun_read, check: giqapsun_check, best: giqapsun_best };

/// The library in the folder GIQAPSUN_BEFORE.
#[cfg(feature = "before")]
pub const BEFORE: Library = Library { read: before::read, check: before::check, best: before::best };

impl Library {
    /// The case of a file, or the number of its refusal.
    pub fn read(&self, file: &[u8]) -> Reading {
        // The slice is lent for the call alone.
        unsafe { (self.read)(file.as_ptr(), file.len()) }
    }

    /// The verdict of a list.
    pub fn check(&self, case: &Case, list: &[u16]) -> Verdict {
        // The slice is lent for the call alone.
        unsafe { (self.check)(*case, list.as_ptr(), list.len()) }
    }

    /// The best day; the outputs are filled where the number is 0.
    pub fn best(&self, case: &Case, work: &mut [i64], outputs: &mut [u16]) -> Plan {
        // The slices are lent for the call alone.
        unsafe { (self.best)(*case, work.as_mut_ptr(), work.len(), outputs.as_mut_ptr(), outputs.len()) }
    }
}

/// The best day by a curve; the table is filled, and the outputs are where the number is 0.
pub fn best_by_curve(
    case: &Case,
    curve: Curve,
    table: &mut [i64],
    work: &mut [i64],
    outputs: &mut [u16],
) -> Plan {
    // The slices are lent for the call alone.
    unsafe {
        giqapsun_best_by_curve(
            *case,
            curve.kind(),
            curve.record(),
            table.as_mut_ptr(),
            table.len(),
            work.as_mut_ptr(),
            work.len(),
            outputs.as_mut_ptr(),
            outputs.len(),
        )
    }
}

/// The table of a curve.
pub fn table(curve: Curve, table: &mut [i64]) -> u32 {
    // The slice is lent for the call alone.
    unsafe { giqapsun_table(curve.kind(), curve.record(), table.as_mut_ptr(), table.len()) }
}

/// The calls of the second library, by the names that bench/run gives them.
#[cfg(feature = "before")]
mod before {
    use giqapsun::boundary::{Plan, Reading, Verdict};
    use giqapsun::Case;

    extern "C" {
        #[link_name = "before_giqapsun_read_4"]
        pub fn read(file: *const u8, n: usize) -> Reading;

        #[link_name = "before_giqapsun_check_4"]
        pub fn check(c: Case, list: *const u16, n: usize) -> Verdict;

        #[link_name = "before_giqapsun_best_4"]
        pub fn best(c: Case, work: *mut i64, n: usize, outputs: *mut u16, m: usize) -> Plan;
    }
}
