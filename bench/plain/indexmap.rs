//! A map of the names of a plant, in the place of the kit's `indexmap`. Nothing asks for its order.
#![allow(warnings)]

use kit::alloc::{AllocError, Global};
use std::borrow::Borrow;
use std::collections::HashMap;
use std::hash::Hash;

pub struct IndexMap<K, V>(HashMap<K, V>);

impl<K: Hash + Eq, V> IndexMap<K, V> {
    pub fn new(_alloc: Global) -> IndexMap<K, V> {
        IndexMap(HashMap::new())
    }

    pub fn get<Q: Hash + Eq + ?Sized>(&self, key: &Q) -> Option<&V>
    where
        K: Borrow<Q>,
    {
        self.0.get(key)
    }

    pub fn insert(&mut self, key: K, value: V) -> Result<Option<V>, AllocError> {
        Ok(self.0.insert(key, value))
    }
}
