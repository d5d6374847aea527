//! Random days, and random files, whole and damaged.

use crate::files;
use giqapsun::{Case, Curve, PRICE_LEAST, PRICE_MOST};

/// Limits of the numbers of a file.
const LIMITS: [i32; 11] = [0, 2, 8, 24, 400, 10_000, 65_535, 1_000_000, 100_000_000, PRICE_LEAST, PRICE_MOST];

/// Pseudo-random numbers.
pub struct Dice(u64);

impl Dice {
    /// The same numbers in every run.
    pub fn new() -> Dice {
        Dice(0x9e37_79b9_7f4a_7c15)
    }

    /// A number from least to most.
    fn roll(&mut self, least: u16, most: u16) -> u16 {
        self.0 ^= self.0 << 13;
        self.0 ^= self.0 >> 7;
        self.0 ^= self.0 << 17;
        least + (self.0 % u64::from(most - least + 1)) as u16
    }

    /// A curve of about the costs of a case, of each kind; some with halves and with many digits.
    pub fn curve(&mut self, case: &Case) -> Curve {
        let mut near = |number: i32| {
            let part = f64::from(self.roll(0, 2_000)) / 1_000.0;
            (f64::from(number) * part + f64::from(self.roll(0, 3)) / 2.0).min(1e6)
        };
        let (a, b) = (near(case.fixed.min(500_000)), near(case.variable));
        match self.roll(0, 3) {
            0 => Curve::Flat { a },
            1 => Curve::Straight { a, b },
            _ => Curve::Curved { a, b, c: b * f64::from(self.roll(0, 1_000)) / 1_000_003.0 },
        }
    }

    /// A price: of so many from zero up, or about zero, or, once in a while, at a limit.
    fn price(&mut self, spread: u16, below: bool) -> i32 {
        let price = i32::from(self.roll(0, spread));
        match self.roll(0, 19) {
            0 if below => [-10_000_000, 10_000_000][usize::from(self.roll(0, 1))],
            _ if below => 2 * price - i32::from(spread),
            _ => price,
        }
    }

    /// A trajectory that rises to the last of so many entries.
    fn rise(&mut self, n: usize, last: u16) -> [u16; 8] {
        let mut rise = [0; 8];
        let mut most = last;
        for i in (0..n).rev() {
            rise[i] = if i + 1 == n { last } else { self.roll(i as u16 + 1, most - 1) };
            most = rise[i];
        }
        rise
    }

    /// A day within the limits.
    pub fn day(&mut self) -> Case {
        let most = [5, 30, 400][self.roll(0, 2) as usize];
        let capacity = self.roll(1, most);
        let minimum = self.roll(1, capacity);
        let (rises, falls) = (self.roll(1, minimum.min(8)) as usize, self.roll(1, minimum.min(8)) as usize);
        let on = self.roll(0, 1) == 1;
        let longest = [48, 48, 48, 168][self.roll(0, 3) as usize];
        let hours = self.roll(1, longest) as usize;
        let times = [8, 24][self.roll(0, 1) as usize];
        let spread = [3, 60, 60_000][self.roll(0, 2) as usize];
        let ramp = [3, 30, 400][self.roll(0, 2) as usize];
        let mut case = Case {
            capacity,
            minimum,
            rampup: self.roll(1, ramp),
            rampdown: self.roll(1, ramp),
            minup: self.roll(1, times),
            mindown: self.roll(1, times),
            variable: i32::from(spread / 2),
            fixed: i32::from(self.roll(0, spread)),
            startcost: i32::from(self.roll(0, spread)),
            stopcost: i32::from(self.roll(0, spread)),
            initial: if on { self.roll(minimum, capacity) } else { 0 },
            elapsed: self.roll(if on { rises as u16 } else { 1 }, times + 4),
            rise: self.rise(rises, minimum),
            rises,
            falls,
            hours,
            ..Case::default()
        };
        let fall = self.rise(falls, minimum);
        for i in 0..falls {
            case.fall[i] = fall[falls - 1 - i];
        }
        if self.roll(0, 2) == 0 {
            self.open_inside(&mut case, times + 8);
        }
        let orders = [1, 3, 30, 300][self.roll(0, 3) as usize];
        let below = self.roll(0, 1) == 1;
        for k in 0..hours {
            case.prices[k] = self.price(spread, below);
            let order = self.roll(0, 10 * orders);
            case.orders[k] = if order == 1 || order == 2 { order as u8 } else { 0 };
        }
        case
    }

    /// Opens a day inside a start-up or inside a shut-down, if it has entries for it, after at most so many
    /// hours.
    fn open_inside(&mut self, case: &mut Case, most: u16) {
        if self.roll(0, 1) == 0 && case.rises > 1 {
            let stage = self.roll(1, case.rises as u16 - 1);
            (case.upstage, case.elapsed) = (stage as u8, stage);
            case.initial = case.rise[usize::from(stage) - 1];
        } else if case.falls > 1 {
            let stage = self.roll(2, case.falls as u16);
            case.downstage = stage as u8;
            case.initial = case.fall[usize::from(stage) - 1];
            case.elapsed = self.roll(case.rises as u16 + stage - 1, most);
        }
    }

    /// One of several.
    fn pick<T: Copy>(&mut self, of: &[T]) -> T {
        of[usize::from(self.roll(0, of.len() as u16 - 1))]
    }

    /// Writes the first bytes of a number at a limit, or next to one, somewhere into others.
    fn touch(&mut self, bytes: &mut [u8]) {
        let number = self.pick(&LIMITS) + i32::from(self.roll(0, 2)) - 1;
        let count = self.pick(&[1, 2, 4]).min(bytes.len());
        let at = usize::from(self.roll(0, (bytes.len() - count) as u16));
        bytes[at..at + count].copy_from_slice(&number.to_le_bytes()[..count]);
    }

    /// Changes the sections of a file: a number, a length, or how many there are.
    fn change(&mut self, sections: &mut Vec<Vec<u8>>) {
        let i = usize::from(self.roll(0, sections.len() as u16 - 1));
        match self.roll(0, 9) {
            0 => sections.insert(i + 1, Vec::new()),
            1 => sections[i].resize(usize::from(self.roll(0, 900)), 0),
            _ => self.touch(&mut sections[i]),
        }
    }

    /// Changes a file in its pairs or at its end.
    fn damage(&mut self, file: &mut Vec<u8>) {
        let length = file.len();
        match self.roll(0, 2) {
            0 => self.touch(&mut file[..length.min(20)]),
            1 => file.truncate(usize::from(self.roll(0, length as u16))),
            _ => file.push(0),
        }
    }

    /// The file of a day in any form, whole or damaged.
    pub fn file(&mut self) -> Vec<u8> {
        let case = self.day();
        let mut sections = self.pick(&[files::old, files::two, files::three])(&case);
        for _ in 0..self.roll(0, 2) {
            self.change(&mut sections);
        }
        let mut file = files::joined(&sections);
        if self.roll(0, 9) == 0 {
            self.damage(&mut file);
        }
        file
    }
}
