//! A stand-in for the crate `num_traits`, with what the published files call and no more: zero and one of a number,
//! and the test for each.

pub trait Zero: Sized {
    fn zero() -> Self;
    fn is_zero(&self) -> bool;
}

pub trait One: Sized {
    fn one() -> Self;
    fn is_one(&self) -> bool;
}

macro_rules! numbers {
    ($($number:ty),*) => {$(
        impl Zero for $number {
            fn zero() -> Self {
                0
            }
            fn is_zero(&self) -> bool {
                *self == 0
            }
        }

        impl One for $number {
            fn one() -> Self {
                1
            }
            fn is_one(&self) -> bool {
                *self == 1
            }
        }
    )*};
}

numbers!(u32, u64, u128, usize);
