//! Exact amounts from 0 up for the arithmetic of a cost curve (request F-7): whole numbers of 2^-1074, of which every
//! 64-bit float is one. Sums and products by whole numbers are exact; rounding is by the digits that are dropped. No
//! operation of the machine's floats is used.

/// Places after the binary point: the least float above 0 is 2^-1074.
const PLACES: usize = 1074;

/// Digits that a float holds.
const DIGITS: usize = 53;

/// Words of 64 digits. The largest amount, 640,801,000,000, has 40 digits before the point.
const WORDS: usize = 18;

/// An amount, least significant word first.
#[derive(Clone, Copy, Debug, PartialEq, Eq)]
pub struct Amount([u64; WORDS]);

impl Amount {
    /// Nothing.
    pub const ZERO: Amount = Amount([0; WORDS]);

    /// A whole number.
    pub fn whole(number: u64) -> Amount {
        Amount::shifted(number, PLACES)
    }

    /// So many times 2^place of the least amount.
    fn shifted(number: u64, place: usize) -> Amount {
        let (word, within) = (place / 64, place % 64);
        let both = u128::from(number) << within;
        let mut words = [0; WORDS];
        words[word] = both as u64;
        if both >> 64 > 0 {
            words[word + 1] = (both >> 64) as u64;
        }
        Amount(words)
    }

    /// The amount that the bits of a float give, whatever its sign; none for one that is not a number, or is 2^21 or
    /// more, an infinite one among them.
    pub fn of_float(bits: u64) -> Option<Amount> {
        let (exponent, fraction) = ((bits >> 52 & 0x7ff) as usize, bits & ((1 << 52) - 1));
        match exponent {
            0 => Some(Amount::shifted(fraction, 0)),
            1..=1043 => Some(Amount::shifted(fraction + (1 << 52), exponent - 1)),
            _ => None,
        }
    }

    /// The exact sum.
    pub fn plus(&self, other: &Amount) -> Amount {
        let (mut words, mut carry) = ([0; WORDS], 0);
        for (place, word) in words.iter_mut().enumerate() {
            let sum = u128::from(self.0[place]) + u128::from(other.0[place]) + carry;
            (*word, carry) = (sum as u64, sum >> 64);
        }
        assert_eq!(carry, 0, "an amount has room for every sum");
        Amount(words)
    }

    /// The exact product by a whole number.
    pub fn times(&self, number: u64) -> Amount {
        let (mut words, mut carry) = ([0; WORDS], 0);
        for (place, word) in words.iter_mut().enumerate() {
            let product = u128::from(self.0[place]) * u128::from(number) + carry;
            (*word, carry) = (product as u64, product >> 64);
        }
        assert_eq!(carry, 0, "an amount has room for every product");
        Amount(words)
    }

    /// Whether it is at most another one.
    pub fn is_at_most(&self, other: &Amount) -> bool {
        self.0.iter().rev().le(other.0.iter().rev())
    }

    /// How many digits it has.
    fn digits(&self) -> usize {
        let last = self.0.iter().rposition(|&word| word > 0);
        last.map_or(0, |place| 64 * place + 64 - self.0[place].leading_zeros() as usize)
    }

    /// A digit by its place.
    fn digit(&self, place: usize) -> bool {
        self.0[place / 64] >> (place % 64) & 1 == 1
    }

    /// Whether any digit below a place is 1.
    fn some_below(&self, place: usize) -> bool {
        let (word, within) = (place / 64, place % 64);
        self.0[..word].iter().any(|&word| word > 0) || self.0[word] & ((1 << within) - 1) > 0
    }

    /// The nearest multiple of 2^place of the least amount; of two equally near the one whose last digit is 0.
    fn nearest(&self, place: usize) -> Amount {
        if place == 0 {
            return *self;
        }
        let (word, within) = (place / 64, place % 64);
        let mut words = self.0;
        words[..word].fill(0);
        words[word] &= !((1 << within) - 1);
        let half = self.digit(place - 1);
        let up = half && (self.some_below(place - 1) || self.digit(place));
        let kept = Amount(words);
        if up {
            kept.plus(&Amount::shifted(1, place))
        } else {
            kept
        }
    }

    /// The nearest float; of two equally near the one whose last digit is 0. The least floats have fewer digits, and
    /// every amount of so few digits is a float.
    pub fn rounded(&self) -> Amount {
        self.nearest(self.digits().saturating_sub(DIGITS))
    }

    /// The nearest whole number; of two equally near the even one.
    pub fn nearest_whole(&self) -> i64 {
        let whole = self.nearest(PLACES);
        let (word, within) = (PLACES / 64, PLACES % 64);
        let both = u128::from(whole.0[word + 1]) << 64 | u128::from(whole.0[word]);
        i64::try_from(both >> within).expect("a cost of an hour has 63 digits at the most")
    }

    /// Whether it lies just between two whole numbers.
    pub fn is_tie(&self) -> bool {
        self.digit(PLACES - 1) && !self.some_below(PLACES - 1)
    }
}
