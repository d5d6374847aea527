//! Lent memory between guard pages: a slice ends right at one, or starts right after one, so that
//! any step outside is a memory fault. On the open side a margin of random bytes is watched too.

use oracle::random::Rng;
use std::ffi::c_void;
use std::slice;

/// Bytes of a guard, a multiple of every usual page size; regions are multiples of it too.
const GUARD_BYTES: usize = 65_536;

/// Watched bytes on the open side of a slice.
const MARGIN_BYTES: usize = 256;

// Values of Linux.
const PROT_NONE: i32 = 0;
const PROT_READ_AND_WRITE: i32 = 3;
const MAP_SHARED_AND_ANONYMOUS: i32 = 0x21;
const MAP_PRIVATE_AND_ANONYMOUS: i32 = 0x22;
const MAP_FAILED: usize = usize::MAX;

extern "C" {
    fn mmap(
        address: *mut c_void,
        bytes: usize,
        protection: i32,
        flags: i32,
        file: i32,
        offset: i64,
    ) -> *mut c_void;
    fn mprotect(address: *mut c_void, bytes: usize, protection: i32) -> i32;
}

/// Which end of a lent slice touches a guard.
#[derive(Clone, Copy, Debug, PartialEq, Eq)]
pub enum Placement {
    EndsAtGuard,
    StartsAtGuard,
}

/// Both placements, in the order in which they are run.
pub const PLACEMENTS: [Placement; 2] = [Placement::EndsAtGuard, Placement::StartsAtGuard];

impl Placement {
    /// Where slices placed so touch a guard.
    pub fn words(self) -> &'static str {
        match self {
            Placement::EndsAtGuard => "ending at a guard page",
            Placement::StartsAtGuard => "starting after a guard page",
        }
    }
}

/// Fresh zeroed bytes that this process shares with those that it makes.
pub fn shared_bytes(bytes: usize) -> *mut u8 {
    // SAFETY: a fresh mapping.
    let base =
        unsafe { mmap(std::ptr::null_mut(), bytes, PROT_READ_AND_WRITE, MAP_SHARED_AND_ANONYMOUS, -1, 0) };
    assert!(base as usize != MAP_FAILED, "no memory can be mapped");
    base.cast()
}

/// Usable bytes between two guards.
pub struct Region {
    first: *mut u8,
    bytes: usize,
}

impl Region {
    /// Maps so many guards' worth of usable bytes between two guards.
    pub fn new(guards: usize) -> Region {
        let bytes = guards * GUARD_BYTES;
        let whole = bytes + 2 * GUARD_BYTES;
        // SAFETY: a fresh private mapping; only its middle is made usable.
        unsafe {
            let base = mmap(std::ptr::null_mut(), whole, PROT_NONE, MAP_PRIVATE_AND_ANONYMOUS, -1, 0);
            assert!(base as usize != MAP_FAILED, "no memory can be mapped");
            let first = base.cast::<u8>().add(GUARD_BYTES);
            let status = mprotect(first.cast(), bytes, PROT_READ_AND_WRITE);
            assert!(status == 0, "mapped memory cannot be made usable");
            Region { first, bytes }
        }
    }

    /// Places the numbers at a guard, with a margin of random bytes on the other side.
    pub fn lend<N: Copy + PartialEq>(&self, numbers: &[N], place: Placement, noise: &mut Rng) -> Lent<N> {
        let size = std::mem::size_of_val(numbers);
        assert!(size + MARGIN_BYTES <= self.bytes, "a lent slice does not fit its region");
        let margin = noise.bytes(MARGIN_BYTES);
        // SAFETY: both parts lie in the usable bytes, and N is a plain number whose size divides
        // the guard's, so that its place is aligned.
        unsafe {
            let (start, margin_start) = match place {
                Placement::EndsAtGuard => {
                    let start = self.first.add(self.bytes - size);
                    (start, start.sub(MARGIN_BYTES))
                }
                Placement::StartsAtGuard => (self.first, self.first.add(size)),
            };
            std::ptr::copy_nonoverlapping(numbers.as_ptr(), start.cast::<N>(), numbers.len());
            std::ptr::copy_nonoverlapping(margin.as_ptr(), margin_start, MARGIN_BYTES);
            Lent { start: start.cast(), lent: numbers.to_vec(), margin_start, margin }
        }
    }
}

/// A slice while it is lent, with what it held before.
#[derive(Clone)]
pub struct Lent<N> {
    start: *mut N,
    lent: Vec<N>,
    margin_start: *const u8,
    margin: Vec<u8>,
}

impl<N: Copy + PartialEq> Lent<N> {
    /// Where the slice starts.
    pub fn pointer(&self) -> *mut N {
        self.start
    }

    /// How many numbers it has.
    pub fn count(&self) -> usize {
        self.lent.len()
    }

    /// What it holds now.
    pub fn now(&self) -> &[N] {
        // SAFETY: the place is usable and holds so many plain numbers.
        unsafe { slice::from_raw_parts(self.start, self.lent.len()) }
    }

    /// Whether the first numbers are `wanted`, and all numbers past them and the margin are as lent.
    pub fn holds(&self, wanted: &[N]) -> bool {
        let stated = wanted.len();
        let now = self.now();
        now[..stated] == *wanted && now[stated..] == self.lent[stated..] && self.margin_is_as_lent()
    }

    /// Whether the margin is as it was.
    fn margin_is_as_lent(&self) -> bool {
        // SAFETY: the margin is usable.
        let now = unsafe { slice::from_raw_parts(self.margin_start, MARGIN_BYTES) };
        now == &self.margin[..]
    }

    /// The first number that is neither as wanted nor as lent, or none if it is the margin.
    pub fn first_wrong(&self, wanted: &[N]) -> Option<usize> {
        let stated = wanted.len();
        let now = self.now();
        (0..now.len()).find(|&i| now[i] != if i < stated { wanted[i] } else { self.lent[i] })
    }
}
