//! Whole numbers of any size, reckoned in decimal as on paper.

use std::ops::{Add, Mul, Sub};

/// The digits, the lowest first: each 0 to 9, and behind those of a number below zero a -1.
#[derive(Clone)]
pub struct Whole(Vec<i64>);

impl Whole {
    /// The number with these digits, which may be of any size and sign: what makes no digit is carried on to the next.
    fn carried(digits: impl IntoIterator<Item = i64>) -> Whole {
        let (mut carried, mut carry) = (Vec::new(), 0);
        let mut put = |sum: i64| {
            carried.push(sum.rem_euclid(10));
            sum.div_euclid(10)
        };
        for digit in digits {
            carry = put(carry + digit);
        }
        while carry != 0 && carry != -1 {
            carry = put(carry);
        }
        if carry == -1 {
            carried.push(carry);
        }
        Whole(carried)
    }

    /// Puts the digits of both together, place by place.
    fn by_place(self, other: Whole, together: fn(i64, i64) -> i64) -> Whole {
        let digit = |whole: &Whole, place: usize| whole.0.get(place).copied().unwrap_or(0);
        let places = 0..self.0.len().max(other.0.len());
        Whole::carried(places.map(|place| together(digit(&self, place), digit(&other, place))))
    }

    pub fn is_negative(&self) -> bool {
        self.0.last() == Some(&-1)
    }
}

impl From<i64> for Whole {
    fn from(number: i64) -> Whole {
        Whole::carried([number])
    }
}

impl Add for Whole {
    type Output = Whole;

    fn add(self, other: Whole) -> Whole {
        self.by_place(other, |digit, other| digit + other)
    }
}

impl Sub for Whole {
    type Output = Whole;

    fn sub(self, other: Whole) -> Whole {
        self.by_place(other, |digit, other| digit - other)
    }
}

impl Mul for Whole {
    type Output = Whole;

    fn mul(self, other: Whole) -> Whole {
        let mut digits = vec![0; self.0.len() + other.0.len()];
        for (place, digit) in self.0.iter().enumerate() {
            for (above, other) in other.0.iter().enumerate() {
                digits[place + above] += digit * other;
            }
        }
        Whole::carried(digits)
    }
}
