//! The number traits that flussab-cnf names, for the widths it uses. Each is what its name says of
//! the standard integers; nothing else of the published crate is here.

/// A type with a zero.
pub trait Zero {
    /// The number zero.
    fn zero() -> Self;
}

/// A type with a largest value.
pub trait Bounded {
    /// The largest value of the type.
    fn max_value() -> Self;
}

/// A type that small numbers can be turned into.
pub trait FromPrimitive: Sized {
    /// The same number in this type, or `None` where it does not fit.
    fn from_u8(value: u8) -> Option<Self>;
}

/// Operations.
pub mod ops {
    /// Operations that say whether they left the type.
    pub mod overflowing {
        /// Addition.
        pub trait OverflowingAdd: Sized {
            /// The sum, wrapped, and whether it left the type.
            fn overflowing_add(&self, other: &Self) -> (Self, bool);
        }

        /// Subtraction.
        pub trait OverflowingSub: Sized {
            /// The difference, wrapped, and whether it left the type.
            fn overflowing_sub(&self, other: &Self) -> (Self, bool);
        }

        /// Multiplication.
        pub trait OverflowingMul: Sized {
            /// The product, wrapped, and whether it left the type.
            fn overflowing_mul(&self, other: &Self) -> (Self, bool);
        }
    }
}

macro_rules! integer {
    ($($t:ident)*) => {$(
        impl Zero for $t {
            fn zero() -> Self {
                0
            }
        }

        impl Bounded for $t {
            fn max_value() -> Self {
                $t::MAX
            }
        }

        impl FromPrimitive for $t {
            fn from_u8(value: u8) -> Option<Self> {
                $t::try_from(value).ok()
            }
        }

        impl ops::overflowing::OverflowingAdd for $t {
            fn overflowing_add(&self, other: &Self) -> (Self, bool) {
                $t::overflowing_add(*self, *other)
            }
        }

        impl ops::overflowing::OverflowingSub for $t {
            fn overflowing_sub(&self, other: &Self) -> (Self, bool) {
                $t::overflowing_sub(*self, *other)
            }
        }

        impl ops::overflowing::OverflowingMul for $t {
            fn overflowing_mul(&self, other: &Self) -> (Self, bool) {
                $t::overflowing_mul(*self, *other)
            }
        }
    )*};
}

integer!(u64 usize isize);
