//! Stand-in for rayon: chunks one after the other. rayon collects them in the same order.

/// What rayon's users bring in.
pub mod prelude {
    /// Slices in chunks.
    pub trait ParallelSlice<T> {
        /// The chunks of a length, the last one shorter if need be.
        fn par_chunks(&self, length: usize) -> std::slice::Chunks<'_, T>;
    }

    impl<T> ParallelSlice<T> for [T] {
        fn par_chunks(&self, length: usize) -> std::slice::Chunks<'_, T> {
            self.chunks(length)
        }
    }
}
