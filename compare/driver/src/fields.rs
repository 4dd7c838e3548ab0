//! Two small fields, written plainly.

use ark_ff::Field;
use std::ops::{Add, AddAssign, Mul, MulAssign, Neg, Sub};

/// A field whose numbers are written as 0 to `GREATEST`.
pub trait Number: Field {
    const GREATEST: u64;

    /// The number written as `n`, or nothing if `n` is above `GREATEST`.
    fn from_number(n: u64) -> Option<Self>;

    fn number(self) -> u64;
}

/// The integers modulo 2^31 - 1, always reduced.
#[derive(Clone, Copy, Debug, Default, PartialEq, Eq)]
pub struct P31(u64);

const P: u64 = 2147483647;

impl P31 {
    fn plus(self, other: P31) -> P31 {
        P31((self.0 + other.0) % P)
    }

    fn times(self, other: P31) -> P31 {
        P31((self.0 * other.0) % P)
    }

    fn minus(self) -> P31 {
        P31((P - self.0) % P)
    }
}

impl Number for P31 {
    const GREATEST: u64 = P - 1;

    fn from_number(n: u64) -> Option<P31> {
        (n < P).then_some(P31(n))
    }

    fn number(self) -> u64 {
        self.0
    }
}

/// The bytes of FIPS 197, section 4: polynomials over two elements modulo
/// x^8 + x^4 + x^3 + x + 1.
#[derive(Clone, Copy, Debug, Default, PartialEq, Eq)]
pub struct Gf8(u8);

impl Gf8 {
    fn plus(self, other: Gf8) -> Gf8 {
        Gf8(self.0 ^ other.0)
    }

    /// The product of the two polynomials, then the remainder, bit by bit.
    fn times(self, other: Gf8) -> Gf8 {
        let mut product: u16 = 0;
        for bit in 0..8 {
            if other.0 >> bit & 1 == 1 {
                product ^= u16::from(self.0) << bit;
            }
        }
        for bit in (8..15).rev() {
            if product >> bit & 1 == 1 {
                product ^= 0b1_0001_1011 << (bit - 8);
            }
        }
        Gf8(product as u8)
    }

    fn minus(self) -> Gf8 {
        self
    }
}

impl Number for Gf8 {
    const GREATEST: u64 = 255;

    fn from_number(n: u64) -> Option<Gf8> {
        u8::try_from(n).ok().map(Gf8)
    }

    fn number(self) -> u64 {
        u64::from(self.0)
    }
}

macro_rules! operators {
    ($field:ident) => {
        impl Add for $field {
            type Output = Self;
            fn add(self, other: Self) -> Self {
                self.plus(other)
            }
        }

        impl Sub for $field {
            type Output = Self;
            fn sub(self, other: Self) -> Self {
                self.plus(other.minus())
            }
        }

        impl Mul for $field {
            type Output = Self;
            fn mul(self, other: Self) -> Self {
                self.times(other)
            }
        }

        impl<'a> Mul<&'a Self> for $field {
            type Output = Self;
            fn mul(self, other: &'a Self) -> Self {
                self.times(*other)
            }
        }

        impl Neg for $field {
            type Output = Self;
            fn neg(self) -> Self {
                self.minus()
            }
        }

        impl AddAssign for $field {
            fn add_assign(&mut self, other: Self) {
                *self = self.plus(other);
            }
        }

        impl<'a> AddAssign<&'a Self> for $field {
            fn add_assign(&mut self, other: &'a Self) {
                *self = self.plus(*other);
            }
        }

        impl MulAssign for $field {
            fn mul_assign(&mut self, other: Self) {
                *self = self.times(other);
            }
        }

        impl<'a> MulAssign<&'a Self> for $field {
            fn mul_assign(&mut self, other: &'a Self) {
                *self = self.times(*other);
            }
        }

        impl Field for $field {
            fn zero() -> Self {
                $field(0)
            }

            fn one() -> Self {
                $field(1)
            }

            fn is_zero(&self) -> bool {
                self.0 == 0
            }
        }
    };
}

operators!(P31);
operators!(Gf8);

#[cfg(test)]
mod tests {
    use super::*;

    #[test]
    fn p31_stays_reduced() {
        let last = P31(P - 1);
        assert_eq!(last + P31(1), P31(0));
        assert_eq!(last + last, P31(P - 2));
        assert_eq!(last * last, P31(1));
        assert_eq!(-P31(0), P31(0));
        assert_eq!(-P31(1), last);
        assert_eq!(P31(0) - P31(1), last);
        assert_eq!(P31::from_number(P), None);
    }

    /// The worked products of FIPS 197, sections 4.2 and 4.2.1.
    #[test]
    fn gf8_products_of_the_standard() {
        let product = |a: u8, b: u8| (Gf8(a) * Gf8(b)).0;
        assert_eq!(product(0x57, 0x83), 0xc1);
        assert_eq!(product(0x57, 0x02), 0xae);
        assert_eq!(product(0x57, 0x04), 0x47);
        assert_eq!(product(0x57, 0x08), 0x8e);
        assert_eq!(product(0x57, 0x10), 0x07);
        assert_eq!(product(0x57, 0x13), 0xfe);
        assert_eq!(Gf8(0x57) + Gf8(0x83), Gf8(0xd4));
        assert_eq!(-Gf8(9), Gf8(9));
        assert_eq!(Gf8::from_number(256), None);
    }

    /// Every byte but zero has exactly one inverse.
    #[test]
    fn gf8_inverses() {
        for a in 1..=255 {
            let ones = (0..=255).filter(|b| Gf8(a) * Gf8(*b) == Gf8(1)).count();
            assert_eq!(ones, 1);
        }
    }
}
