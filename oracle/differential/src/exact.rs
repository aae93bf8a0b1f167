//! Decimals without any rounding, for the boxes of request 2026-03: whole numbers of any size,
//! as their decimal digits, and such a number over a power of ten. No double is used.

use std::cmp::Ordering;

/// A whole number: its digits in ASCII, without leading zeros, so that 0 has none.
#[derive(Clone, Debug, PartialEq, Eq)]
pub struct Whole {
    digits: Vec<u8>,
}

impl Whole {
    /// Of digits in ASCII, with leading zeros or without.
    pub fn of(digits: &[u8]) -> Self {
        let zeros = digits.iter().take_while(|digit| **digit == b'0').count();
        let digits = digits[zeros..].to_vec();
        Whole { digits }
    }

    /// Ten to the power.
    pub fn ten_to(power: usize) -> Self {
        Whole::of(b"1").times_ten_to(power)
    }

    fn times_ten_to(&self, power: usize) -> Self {
        let zeros = match self.is_zero() {
            true => 0,
            false => power,
        };
        let digits = [&self.digits[..], &vec![b'0'; zeros]].concat();
        Whole { digits }
    }

    /// The quotient by ten to the power, and whether anything is left over.
    fn by_ten_to(&self, power: usize) -> (Self, bool) {
        let (kept, dropped) = self
            .digits
            .split_at(self.digits.len().saturating_sub(power));
        let is_left_over = dropped.iter().any(|digit| *digit != b'0');
        (Whole::of(kept), is_left_over)
    }

    pub fn is_zero(&self) -> bool {
        self.digits.is_empty()
    }

    /// `None` where it is too large.
    pub fn value(&self) -> Option<i64> {
        let digits = self.digits.iter().map(|digit| i64::from(digit - b'0'));
        digits.into_iter().try_fold(0_i64, |value, digit| {
            value.checked_mul(10)?.checked_add(digit)
        })
    }
}

impl Ord for Whole {
    fn cmp(&self, other: &Self) -> Ordering {
        let lengths = self.digits.len().cmp(&other.digits.len());
        lengths.then_with(|| self.digits.cmp(&other.digits))
    }
}

impl PartialOrd for Whole {
    fn partial_cmp(&self, other: &Self) -> Option<Ordering> {
        Some(self.cmp(other))
    }
}

/// A fraction of whole numbers whose denominator is ten to a power.
#[derive(Clone, Debug)]
pub struct Exact {
    /// Never of 0.
    is_negative: bool,
    numerator: Whole,
    power: usize,
}

impl Exact {
    /// The numerator times ten to the power, which may be negative.
    pub fn new(is_negative: bool, numerator: Whole, power: i64) -> Self {
        let size = power.unsigned_abs() as usize;
        let (numerator, power) = match power < 0 {
            true => (numerator, size),
            false => (numerator.times_ten_to(size), 0),
        };
        Exact {
            is_negative: is_negative && !numerator.is_zero(),
            numerator,
            power,
        }
    }

    pub fn of(value: i64) -> Self {
        let digits = value.unsigned_abs().to_string();
        Exact::new(value < 0, Whole::of(digits.as_bytes()), 0)
    }

    /// Without its sign.
    pub fn size(&self) -> Self {
        Exact {
            is_negative: false,
            ..self.clone()
        }
    }

    /// The greatest whole number that isn't above it; `None` where that is too large.
    pub fn floor(&self) -> Option<i64> {
        let (quotient, is_left_over) = self.numerator.by_ten_to(self.power);
        let quotient = quotient.value()?;
        Some(match self.is_negative {
            true => -quotient - i64::from(is_left_over),
            false => quotient,
        })
    }

    /// The least whole number that isn't below it.
    pub fn ceiling(&self) -> Option<i64> {
        let (quotient, is_left_over) = self.numerator.by_ten_to(self.power);
        let quotient = quotient.value()?;
        Some(match self.is_negative {
            true => -quotient,
            false => quotient + i64::from(is_left_over),
        })
    }

    /// Both over one denominator.
    fn compare_sizes(&self, other: &Self) -> Ordering {
        let ours = self.numerator.times_ten_to(other.power);
        let theirs = other.numerator.times_ten_to(self.power);
        ours.cmp(&theirs)
    }
}

impl Ord for Exact {
    fn cmp(&self, other: &Self) -> Ordering {
        match (self.is_negative, other.is_negative) {
            (false, false) => self.compare_sizes(other),
            (false, true) => Ordering::Greater,
            (true, false) => Ordering::Less,
            (true, true) => other.compare_sizes(self),
        }
    }
}

impl PartialOrd for Exact {
    fn partial_cmp(&self, other: &Self) -> Option<Ordering> {
        Some(self.cmp(other))
    }
}

/// `1.50` and `1.5` are equal, so this isn't that of the fields.
impl PartialEq for Exact {
    fn eq(&self, other: &Self) -> bool {
        self.cmp(other) == Ordering::Equal
    }
}

impl Eq for Exact {}

#[cfg(test)]
mod tests {
    use super::*;
    use crate::random::Random;

    fn exact(numerator: i64, power: i64) -> Exact {
        let digits = numerator.unsigned_abs().to_string();
        Exact::new(numerator < 0, Whole::of(digits.as_bytes()), power)
    }

    #[test]
    fn floors_and_ceilings() {
        for (numerator, power, floor, ceiling) in [
            (0, 0, 0, 0),
            (0, 9, 0, 0),
            (0, -9, 0, 0),
            (15, -1, 1, 2),
            (-15, -1, -2, -1),
            (10, -1, 1, 1),
            (-10, -1, -1, -1),
            (1, -9_999, 0, 1),
            (-1, -9_999, -1, 0),
            (-3, 4, -30_000, -30_000),
            (i64::MAX, 0, i64::MAX, i64::MAX),
        ] {
            let exact = exact(numerator, power);
            let whole = (exact.floor(), exact.ceiling());
            assert_eq!(whole, (Some(floor), Some(ceiling)), "{numerator}e{power}");
        }
        assert_eq!(exact(1, 19).floor(), None);
    }

    #[test]
    fn zero_has_no_sign() {
        let negative = Exact::new(true, Whole::of(b"000"), -3);
        assert_eq!(negative, Exact::of(0));
        assert!(negative < exact(1, -5_000));
        assert!(negative > exact(-1, -5_000));
    }

    /// Small ones beside the machine's own whole numbers: over one denominator of 10^12.
    #[test]
    fn small_ones_are_as_the_machine_has_them() {
        const ONE: i128 = 1_000_000_000_000;
        let mut random = Random::new(1);
        let mut draw = || {
            let numerator = random.below(200_001) as i64 - 100_000;
            let power = random.below(16) as i64 - 12;
            let scaled = i128::from(numerator) * 10_i128.pow((power + 12) as u32);
            (exact(numerator, power), scaled)
        };
        for _ in 0..20_000 {
            let ((first, scaled), (second, other)) = (draw(), draw());
            assert_eq!(first.cmp(&second), scaled.cmp(&other));
            assert_eq!(
                first.size().cmp(&second.size()),
                scaled.abs().cmp(&other.abs())
            );
            assert_eq!(first.floor().map(i128::from), Some(scaled.div_euclid(ONE)));
            let ceiling = -(-scaled).div_euclid(ONE);
            assert_eq!(first.ceiling().map(i128::from), Some(ceiling));
        }
    }
}
