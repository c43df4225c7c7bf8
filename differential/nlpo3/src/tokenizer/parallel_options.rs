//! Stand-in: nothing is cut in parallel.
pub struct ParallelOptions {
    pub enabled: bool,
    pub chunk_size: usize,
}

impl ParallelOptions {
    pub fn from_chunk_size(_: Option<usize>) -> Self {
        Self {
            enabled: false,
            chunk_size: 0,
        }
    }

    pub fn auto_for_text(_: usize) -> Self {
        Self::from_chunk_size(None)
    }

    pub fn should_parallelize(&self, _: usize) -> bool {
        self.enabled
    }
}
