//! What the altered builder.rs asks for: which sets there are, in order of first appearance, and which elements come first in a step.

/// Takes the HashSet's place.
pub struct SetInOrder<T>(Vec<T>);

impl<T: PartialEq> SetInOrder<T> {
    pub fn new() -> Self {
        Self(Vec::new())
    }

    pub fn insert(&mut self, value: T) {
        if !self.0.contains(&value) {
            self.0.push(value);
        }
    }
}

impl<T> IntoIterator for SetInOrder<T> {
    type Item = T;
    type IntoIter = std::vec::IntoIter<T>;

    fn into_iter(self) -> Self::IntoIter {
        self.0.into_iter()
    }
}

/// Which places have come, up to the largest.
#[derive(Default)]
pub struct Places(Vec<bool>);

impl Places {
    /// Whether a place comes for the first time.
    pub fn comes_first(&mut self, place: usize) -> bool {
        if self.0.len() <= place {
            self.0.resize(place + 1, false);
        }
        !std::mem::replace(&mut self.0[place], true)
    }
}
