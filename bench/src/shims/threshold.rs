//! A threshold: k of a list, with a greatest length MAX (0: none).

/// Whether 1 ≤ k ≤ n and n is at most MAX.
pub fn validate_k_n<const MAX: usize>(k: usize, n: usize) -> Result<(), ()> {
    if k == 0 || k > n || (MAX > 0 && n > MAX) {
        Err(())
    } else {
        Ok(())
    }
}

/// k of `data`.
#[derive(Clone, PartialEq, Eq, PartialOrd, Ord, Hash, Debug)]
pub struct Threshold<T, const MAX: usize> {
    k: usize,
    data: Vec<T>,
}

impl<T, const MAX: usize> Threshold<T, MAX> {
    /// The threshold, if 1 ≤ k ≤ n and n is at most MAX.
    pub fn new(k: usize, data: Vec<T>) -> Result<Self, ()> {
        validate_k_n::<MAX>(k, data.len())?;
        Ok(Threshold { k, data })
    }

    pub fn k(&self) -> usize {
        self.k
    }

    pub fn n(&self) -> usize {
        self.data.len()
    }

    pub fn data(&self) -> &[T] {
        &self.data
    }

    pub fn iter(&self) -> core::slice::Iter<'_, T> {
        self.data.iter()
    }

    pub fn is_and(&self) -> bool {
        self.k == self.data.len()
    }

    pub fn map_ref<U, F: FnMut(&T) -> U>(&self, f: F) -> Threshold<U, MAX> {
        Threshold { k: self.k, data: self.data.iter().map(f).collect() }
    }

    pub fn set_maximum<const NEWMAX: usize>(self) -> Result<Threshold<T, NEWMAX>, ()> {
        Threshold::new(self.k, self.data)
    }
}
