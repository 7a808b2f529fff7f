//! Stand-in for `num`: the traits that the supplied Rust names, for the types it uses them with.
//! The float methods are f32's own; roots are counted, unless with `--cfg uncounted`.

use std::cell::Cell;
use std::ops::{Add, Div, Mul, Neg, Rem, Sub};

thread_local! {
    static ROOTS: Cell<u64> = const { Cell::new(0) };
}

/// How many roots were taken.
pub fn roots() -> u64 {
    ROOTS.get()
}

pub trait Zero: Sized + Add<Self, Output = Self> {
    fn zero() -> Self;
}

pub trait One: Sized + Mul<Self, Output = Self> {
    fn one() -> Self;
}

pub trait Num:
    PartialEq + Zero + One + Sub<Output = Self> + Div<Output = Self> + Rem<Output = Self>
{
}

pub trait Bounded {
    fn min_value() -> Self;
    fn max_value() -> Self;
}

pub trait Signed: Num + Neg<Output = Self> {
    fn abs(&self) -> Self;
}

pub trait Float: Num + Copy + PartialOrd + Neg<Output = Self> {
    fn sqrt(self) -> Self;
    fn abs(self) -> Self;
    fn min(self, other: Self) -> Self;
    fn max(self, other: Self) -> Self;
    fn is_nan(self) -> bool;
}

pub mod traits {
    pub trait Pow<E> {
        type Output;
        fn pow(self, exponent: E) -> Self::Output;
    }

    impl Pow<f32> for f32 {
        type Output = f32;

        fn pow(self, exponent: f32) -> f32 {
            self.powf(exponent)
        }
    }
}

macro_rules! number {
    ($t:ty, $zero:expr, $one:expr) => {
        impl Zero for $t {
            fn zero() -> $t {
                $zero
            }
        }

        impl One for $t {
            fn one() -> $t {
                $one
            }
        }

        impl Num for $t {}

        impl Bounded for $t {
            fn min_value() -> $t {
                <$t>::MIN
            }

            fn max_value() -> $t {
                <$t>::MAX
            }
        }

        impl Signed for $t {
            fn abs(&self) -> $t {
                <$t>::abs(*self)
            }
        }
    };
}

number!(f32, 0.0, 1.0);
number!(isize, 0, 1);

impl Float for f32 {
    fn sqrt(self) -> f32 {
        if cfg!(not(uncounted)) {
            ROOTS.set(ROOTS.get() + 1);
        }

        f32::sqrt(self)
    }

    fn abs(self) -> f32 {
        f32::abs(self)
    }

    fn min(self, other: f32) -> f32 {
        f32::min(self, other)
    }

    fn max(self, other: f32) -> f32 {
        f32::max(self, other)
    }

    fn is_nan(self) -> bool {
        f32::is_nan(self)
    }
}
