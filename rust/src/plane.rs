//! Whole-number vectors and the nearest division, for the reference.

use std::ops::{Add, Mul, Sub};

#[derive(Clone, Copy, Debug, PartialEq, Eq)]
pub(crate) struct Vector {
    pub x: i64,
    pub y: i64,
}

impl Add for Vector {
    type Output = Vector;
    fn add(self, other: Vector) -> Vector {
        Vector { x: self.x + other.x, y: self.y + other.y }
    }
}

impl Sub for Vector {
    type Output = Vector;
    fn sub(self, other: Vector) -> Vector {
        Vector { x: self.x - other.x, y: self.y - other.y }
    }
}

impl Mul<i64> for Vector {
    type Output = Vector;
    fn mul(self, by: i64) -> Vector {
        Vector { x: self.x * by, y: self.y * by }
    }
}

impl Vector {
    pub fn dot(self, other: Vector) -> i64 {
        self.x * other.x + self.y * other.y
    }

    pub fn right_normal(self) -> Vector {
        Vector { x: self.y, y: -self.x }
    }

    pub fn nearest(self, divisor: i64) -> Vector {
        Vector { x: nearest(self.x, divisor), y: nearest(self.y, divisor) }
    }

    pub fn settle(self, length: i64) -> Vector {
        let square = length * length;
        (self * (3 * square - self.dot(self))).nearest(2 * square)
    }
}

/// The nearest whole number to a quotient by a positive divisor, halves away from zero.
pub(crate) fn nearest(dividend: i64, divisor: i64) -> i64 {
    let (quotient, rest) = (dividend / divisor, dividend % divisor);
    if 2 * rest.abs() >= divisor {
        quotient + dividend.signum()
    } else {
        quotient
    }
}
