// Absent from the published text; written from document 01's working rules.

use std::fmt::Debug;
use std::ops::{Add, Div, Mul, Neg, Sub};

/// What the text asks of its number type.
pub trait Real:
    Copy
    + Default
    + Debug
    + PartialOrd
    + Add<Output = Self>
    + Sub<Output = Self>
    + Mul<Output = Self>
    + Div<Output = Self>
    + Neg<Output = Self>
    + 'static
{
    fn zero() -> Self;
    fn one() -> Self;
    fn two() -> Self;
    fn four() -> Self;

    /// The default tolerance.
    fn fuzzy_epsilon() -> Self;

    /// The number nearest to `value`.
    fn from(value: f64) -> Option<Self>;

    fn abs(self) -> Self;
    fn sqrt(self) -> Self;
    fn sin(self) -> Self;
    fn cos(self) -> Self;
    fn atan(self) -> Self;
    fn atan2(self, other: Self) -> Self;

    /// Fuzzily equal: the magnitude of the difference is strictly below the tolerance.
    #[inline]
    fn fuzzy_eq_eps(self, other: Self, fuzzy_epsilon: Self) -> bool {
        (self - other).abs() < fuzzy_epsilon
    }

    #[inline]
    fn fuzzy_eq(self, other: Self) -> bool {
        self.fuzzy_eq_eps(other, Self::fuzzy_epsilon())
    }

    #[inline]
    fn fuzzy_eq_zero(self) -> bool {
        self.fuzzy_eq(Self::zero())
    }
}

macro_rules! impl_real {
    ($float:ident) => {
        impl Real for $float {
            #[inline]
            fn zero() -> Self {
                0.0
            }

            #[inline]
            fn one() -> Self {
                1.0
            }

            #[inline]
            fn two() -> Self {
                2.0
            }

            #[inline]
            fn four() -> Self {
                4.0
            }

            #[inline]
            fn fuzzy_epsilon() -> Self {
                1e-8
            }

            #[inline]
            fn from(value: f64) -> Option<Self> {
                Some(value as $float)
            }

            #[inline]
            fn abs(self) -> Self {
                $float::abs(self)
            }

            #[inline]
            fn sqrt(self) -> Self {
                $float::sqrt(self)
            }

            #[inline]
            fn sin(self) -> Self {
                $float::sin(self)
            }

            #[inline]
            fn cos(self) -> Self {
                $float::cos(self)
            }

            #[inline]
            fn atan(self) -> Self {
                $float::atan(self)
            }

            #[inline]
            fn atan2(self, other: Self) -> Self {
                $float::atan2(self, other)
            }
        }
    };
}

impl_real!(f64);
impl_real!(f32);
