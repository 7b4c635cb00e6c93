//! Exact fractions. Document 01, "The nine tiles": "points are A + (B-A)·k/n
//! for whole numbers".

use std::cmp::Ordering;
use std::ops::{Add, Div, Mul, Sub};

/// A fraction `above / below` with `below` above 0, not reduced. Coordinates
/// that keep rule 4 give parts under 10^20, which are multiplied by nothing
/// above 10^14: 128 bits hold it, and the build checks every operation.
#[derive(Clone, Copy, Debug)]
pub struct Fraction {
    above: i128,
    below: i128,
}

impl Fraction {
    /// The fraction `above / below`; `below` is not 0.
    pub fn new(above: i128, below: i128) -> Self {
        assert!(below != 0, "nothing is divided by 0");
        Self {
            above: above * below.signum(),
            below: below.abs(),
        }
    }

    /// The number in the middle between this one and another.
    pub fn halfway(self, other: Self) -> Self {
        (self + other) / Self::from(2)
    }
}

impl From<i128> for Fraction {
    fn from(whole: i128) -> Self {
        Self::new(whole, 1)
    }
}

impl From<i32> for Fraction {
    fn from(whole: i32) -> Self {
        Self::from(i128::from(whole))
    }
}

impl Add for Fraction {
    type Output = Self;

    fn add(self, other: Self) -> Self {
        Self::new(
            self.above * other.below + other.above * self.below,
            self.below * other.below,
        )
    }
}

impl Sub for Fraction {
    type Output = Self;

    fn sub(self, other: Self) -> Self {
        Self::new(
            self.above * other.below - other.above * self.below,
            self.below * other.below,
        )
    }
}

impl Mul for Fraction {
    type Output = Self;

    fn mul(self, other: Self) -> Self {
        Self::new(self.above * other.above, self.below * other.below)
    }
}

impl Div for Fraction {
    type Output = Self;

    fn div(self, other: Self) -> Self {
        Self::new(self.above * other.below, self.below * other.above)
    }
}

impl Ord for Fraction {
    fn cmp(&self, other: &Self) -> Ordering {
        (self.above * other.below).cmp(&(other.above * self.below))
    }
}

impl PartialOrd for Fraction {
    fn partial_cmp(&self, other: &Self) -> Option<Ordering> {
        Some(self.cmp(other))
    }
}

impl PartialEq for Fraction {
    fn eq(&self, other: &Self) -> bool {
        self.cmp(other) == Ordering::Equal
    }
}

impl Eq for Fraction {}

#[cfg(test)]
mod tests {
    use super::Fraction;

    #[test]
    fn equal_values_are_equal_however_they_are_written() {
        assert_eq!(Fraction::new(2, 4), Fraction::new(-1, -2));
        assert_ne!(Fraction::new(1, 2), Fraction::new(-1, 2));
        assert_eq!(Fraction::new(0, -7), Fraction::from(0_i32));
    }

    #[test]
    fn order_is_that_of_the_numbers() {
        let rising = [(-3, 2), (4, -3), (0, 5), (1, 3), (-2, -4), (7, 1)];
        for pair in rising.windows(2) {
            let [(a, b), (c, d)] = [pair[0], pair[1]];
            assert!(Fraction::new(a, b) < Fraction::new(c, d));
        }
    }

    #[test]
    fn arithmetic_is_exact() {
        let third = Fraction::new(1, 3);
        let sixth = Fraction::new(1, -6);
        assert_eq!(third + sixth, Fraction::new(1, 6));
        assert_eq!(third - sixth, Fraction::new(1, 2));
        assert_eq!(third * sixth, Fraction::new(-1, 18));
        assert_eq!(third / sixth, Fraction::from(-2_i32));
        assert_eq!(third.halfway(sixth), Fraction::new(1, 12));
    }
}
