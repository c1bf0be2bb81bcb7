//! Stand-in for `intmap`: a map from whole numbers, over the standard one.

use std::collections::HashMap;

#[derive(Debug, Clone)]
pub struct IntMap<V>(HashMap<u64, V>);

impl<V> IntMap<V> {
    #[expect(clippy::new_without_default)]
    pub fn new() -> Self {
        Self(HashMap::new())
    }

    pub fn get(&self, key: u64) -> Option<&V> {
        self.0.get(&key)
    }

    pub fn insert(&mut self, key: u64, value: V) -> Option<V> {
        self.0.insert(key, value)
    }
}
