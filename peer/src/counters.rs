//! Counts of Keccak permutations and wide products, for benchmarks.
//!
//! They are kept only with the cargo feature `count`; without it the counting
//! functions are empty and `counters` always answers zero.

/// What the current thread has done since its counters were last reset.
#[derive(Clone, Copy, Debug, Default, PartialEq, Eq)]
pub struct Counters {
    pub keccak_permutations: u64,
    pub wide_products: u64,
}

#[cfg(feature = "count")]
mod counting {
    use super::Counters;
    use std::cell::Cell;

    thread_local! {
        static PERMUTATIONS: Cell<u64> = const { Cell::new(0) };
        static PRODUCTS: Cell<u64> = const { Cell::new(0) };
    }

    pub fn counters() -> Counters {
        Counters {
            keccak_permutations: PERMUTATIONS.get(),
            wide_products: PRODUCTS.get(),
        }
    }

    pub fn reset_counters() {
        PERMUTATIONS.set(0);
        PRODUCTS.set(0);
    }

    pub fn count_permutation() {
        PERMUTATIONS.set(PERMUTATIONS.get() + 1);
    }

    pub fn count_product() {
        PRODUCTS.set(PRODUCTS.get() + 1);
    }
}

#[cfg(not(feature = "count"))]
mod counting {
    use super::Counters;

    pub fn counters() -> Counters {
        Counters::default()
    }

    pub fn reset_counters() {}

    #[inline(always)]
    pub fn count_permutation() {}

    #[inline(always)]
    pub fn count_product() {}
}

pub(crate) use counting::{count_permutation, count_product};
pub use counting::{counters, reset_counters};
