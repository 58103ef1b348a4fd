//! The exact value of demand 3, as fractions of whole numbers of any size.

use crate::model::{offset, Sheet, ONE};
use std::cmp::Ordering;

/// A natural number of any size: digits to the base 2^64, the lowest first,
/// no zeros at the high end.
#[derive(Clone, PartialEq, Eq, Debug)]
struct Natural(Vec<u64>);

impl Natural {
    fn new(number: u128) -> Natural {
        Natural(vec![number as u64, (number >> 64) as u64]).trimmed()
    }

    fn trimmed(mut self) -> Natural {
        while self.0.last() == Some(&0) {
            self.0.pop();
        }
        self
    }

    fn digit(&self, i: usize) -> u64 {
        self.0.get(i).copied().unwrap_or(0)
    }

    fn add(&self, other: &Natural) -> Natural {
        let mut digits = Vec::new();
        let mut carry = 0u128;
        for i in 0..self.0.len().max(other.0.len()) + 1 {
            let sum = u128::from(self.digit(i)) + u128::from(other.digit(i)) + carry;
            digits.push(sum as u64);
            carry = sum >> 64;
        }
        Natural(digits).trimmed()
    }

    /// The difference, where `other` is not above `self`.
    fn sub(&self, other: &Natural) -> Natural {
        let mut digits = Vec::new();
        let mut borrow = false;
        for i in 0..self.0.len() {
            let (first, under) = self.digit(i).overflowing_sub(other.digit(i));
            let (second, under_again) = first.overflowing_sub(borrow.into());
            digits.push(second);
            borrow = under || under_again;
        }
        assert!(!borrow && other.0.len() <= self.0.len());
        Natural(digits).trimmed()
    }

    fn mul(&self, other: &Natural) -> Natural {
        let mut digits = vec![0u64; self.0.len() + other.0.len()];
        for (i, &a) in self.0.iter().enumerate() {
            let mut carry = 0u128;
            for (j, &b) in other.0.iter().enumerate() {
                let sum = u128::from(a) * u128::from(b) + u128::from(digits[i + j]) + carry;
                digits[i + j] = sum as u64;
                carry = sum >> 64;
            }
            digits[i + other.0.len()] = carry as u64;
        }
        Natural(digits).trimmed()
    }

    fn compare(&self, other: &Natural) -> Ordering {
        let by_length = self.0.len().cmp(&other.0.len());
        by_length.then_with(|| self.0.iter().rev().cmp(other.0.iter().rev()))
    }
}

/// A whole number of any size: its sign and its size.
#[derive(Clone, Debug)]
struct Whole {
    negative: bool,
    size: Natural,
}

impl Whole {
    fn new(number: i128) -> Whole {
        Whole {
            negative: number < 0,
            size: Natural::new(number.unsigned_abs()),
        }
    }

    fn mul(&self, other: &Whole) -> Whole {
        Whole {
            negative: self.negative != other.negative,
            size: self.size.mul(&other.size),
        }
    }

    fn add(&self, other: &Whole) -> Whole {
        if self.negative == other.negative {
            let size = self.size.add(&other.size);
            return Whole { size, ..*self };
        }
        let (larger, smaller) = match self.size.compare(&other.size) {
            Ordering::Less => (other, self),
            _ => (self, other),
        };
        Whole {
            negative: larger.negative,
            size: larger.size.sub(&smaller.size),
        }
    }

    fn negated(&self) -> Whole {
        Whole {
            negative: !self.negative,
            size: self.size.clone(),
        }
    }

    fn sub(&self, other: &Whole) -> Whole {
        self.add(&other.negated())
    }
}

const PI: i128 = 3_141_592_653_589_793_238;

/// A power series to its last power, sine's or cosine's: every second term of
/// theta^k / k!, with changing signs. With theta = A / B the sum is
/// N / (B^last × last!).
pub struct Series {
    first: u32,
    last: u32,
    /// For each power k: B^(last - k) × last! / k!.
    others: Vec<Whole>,
    denominator: Whole,
}

impl Series {
    fn new(first: u32, last: u32) -> Series {
        // theta = d × PI × n / (180,000,000 × 10^18 × ONE)
        let b = Whole::new(180_000_000)
            .mul(&Whole::new(10i128.pow(18)))
            .mul(&Whole::new(ONE));
        let mut others = vec![Whole::new(1)];
        for k in (0..last).rev() {
            let other = others[0].mul(&b).mul(&Whole::new(i128::from(k) + 1));
            others.insert(0, other);
        }
        Series {
            first,
            last,
            denominator: others[0].clone(),
            others,
        }
    }

    fn numerator(&self, a: &Whole) -> Whole {
        let square = a.mul(a);
        let mut power = if self.first == 1 {
            a.clone()
        } else {
            Whole::new(1)
        };
        let mut sum = Whole::new(0);
        for k in (self.first..=self.last).step_by(2) {
            let term = power.mul(&self.others[k as usize]);
            sum = if (k / 2) % 2 == 0 {
                sum.add(&term)
            } else {
                sum.sub(&term)
            };
            power = power.mul(&square);
        }
        sum
    }

    /// How many of 1, 2, 3 units the whole number is off r × the series, at
    /// least: 3 means 3 units or more.
    fn units_off(&self, value: i128, r: i128, a: &Whole) -> usize {
        let scaled = Whole::new(value).mul(&self.denominator);
        let exact = Whole::new(r).mul(&self.numerator(a));
        let off = scaled.sub(&exact).size;
        (1..=3)
            .filter(|&units| {
                off.compare(&self.denominator.size.mul(&Natural::new(units))) != Ordering::Less
            })
            .count()
    }
}

pub struct Exact {
    sine: Series,
    cosine: Series,
}

impl Exact {
    pub fn new() -> Exact {
        Exact {
            sine: Series::new(1, 21),
            cosine: Series::new(0, 22),
        }
    }

    /// Whether the exact sine and cosine of 60 degrees are what document 01's
    /// pi and powers give, worked out elsewhere to 30 digits.
    pub fn known_values_hold(&self) -> bool {
        let a = Whole::new(60_000_000)
            .mul(&Whole::new(PI))
            .mul(&Whole::new(ONE));
        let r = 10i128.pow(30);
        let sine = 866_025_403_784_438_646_686_727_464_771;
        let cosine = 500_000_000_000_000_000_133_548_774_077;
        self.sine.units_off(sine, r, &a) == 0 && self.cosine.units_off(cosine, r, &a) == 0
    }

    /// By how many whole units x and y are off the exact X and Y: 0, 1, 2,
    /// or 3 for 3 units and more.
    pub fn units_off(
        &self,
        s: &Sheet,
        latitude: i128,
        longitude: i128,
        [x, y]: [i128; 2],
    ) -> [usize; 2] {
        let d = offset(s, longitude);
        let a = Whole::new(d).mul(&Whole::new(PI)).mul(&Whole::new(s.n));
        let r = s.g - latitude;
        let r0 = s.g - s.f0;
        // y - Y = y - r0 + r × cosine, the size of (r0 - y) - r × cosine.
        [
            self.sine.units_off(x, r, &a),
            self.cosine.units_off(r0 - y, r, &a),
        ]
    }
}
