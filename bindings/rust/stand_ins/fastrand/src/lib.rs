//! A stand-in: a number below another, from a counter that is mixed.
use std::ops::{Bound, RangeBounds};
use std::sync::atomic::{AtomicU64, Ordering};

pub fn usize(range: impl RangeBounds<usize>) -> usize {
    static COUNT: AtomicU64 = AtomicU64::new(1);
    let low = match range.start_bound() {
        Bound::Included(&n) => n,
        Bound::Excluded(&n) => n + 1,
        Bound::Unbounded => 0,
    };
    let high = match range.end_bound() {
        Bound::Included(&n) => n + 1,
        Bound::Excluded(&n) => n,
        Bound::Unbounded => usize::MAX,
    };
    let count = COUNT.fetch_add(1, Ordering::Relaxed);
    let mixed = count.wrapping_mul(0x9e37_79b9_7f4a_7c15).rotate_left(29).wrapping_mul(0xbf58_476d_1ce4_e5b9);
    low + (mixed >> 33) as usize % (high - low)
}
