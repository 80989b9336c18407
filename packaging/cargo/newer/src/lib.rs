//! Methods that Rust's library has only since a version after 1.63. A later library's own methods are preferred.
#![no_std]

pub trait DivCeil {
    fn div_ceil(self, divisor: Self) -> Self;
}

impl DivCeil for u32 {
    #[inline(always)]
    fn div_ceil(self, divisor: u32) -> u32 {
        self / divisor + u32::from(self % divisor != 0)
    }
}

impl DivCeil for usize {
    #[inline(always)]
    fn div_ceil(self, divisor: usize) -> usize {
        self / divisor + usize::from(self % divisor != 0)
    }
}

pub trait FirstChunk<T> {
    fn first_chunk<const N: usize>(&self) -> Option<&[T; N]>;
}

impl<T> FirstChunk<T> for [T] {
    #[inline(always)]
    fn first_chunk<const N: usize>(&self) -> Option<&[T; N]> {
        self.get(..N)?.try_into().ok()
    }
}
