//! The function that scoring.rs names; it is not called.

pub fn bounded_min_heapify<T: Ord>(_slice: &mut [T], _k: usize) {
    unimplemented!()
}
