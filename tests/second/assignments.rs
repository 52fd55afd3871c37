//! Whether keys can be held: an assignment that grows key by key, and buckets that are too few where it cannot.

use crate::cells::Words;
use std::collections::{HashMap, HashSet};

/// An assignment of keys to buckets, which need not be where a table has them.
pub struct Assignment {
    /// The cells of a bucket.
    capacity: usize,
    /// The own buckets of each key.
    own: HashMap<Words, Vec<usize>>,
    /// The keys of each bucket.
    buckets: Vec<Vec<Words>>,
}

impl Assignment {
    pub fn new(buckets: usize, capacity: usize) -> Assignment {
        Assignment { capacity, own: HashMap::new(), buckets: vec![Vec::new(); buckets] }
    }

    /// Adds a key, or gives buckets that are too few: `proves_full` tells that they are.
    pub fn add(&mut self, key: Words, own: Vec<usize>) -> Result<(), HashSet<usize>> {
        self.own.insert(key, own);
        let mut tried = HashSet::new();
        if self.place(key, &mut tried) {
            return Ok(());
        }
        Err(tried)
    }

    /// Takes a key away, placed or not.
    pub fn remove(&mut self, key: Words) {
        for bucket in self.own.remove(&key).unwrap_or_default() {
            self.buckets[bucket].retain(|other| *other != key);
        }
    }

    /// Whether more keys than there is room for have all their own buckets among these. That is plain counting, and then no
    /// assignment of all keys exists.
    pub fn proves_full(&self, few: &HashSet<usize>) -> bool {
        let keys = self.own.values().filter(|own| own.iter().all(|bucket| few.contains(bucket)));
        keys.count() > self.capacity * few.len()
    }

    /// Whether the key finds a bucket, where others may go on to one not tried yet.
    fn place(&mut self, key: Words, tried: &mut HashSet<usize>) -> bool {
        for bucket in self.own[&key].clone() {
            if !tried.insert(bucket) {
                continue;
            }
            if self.buckets[bucket].len() < self.capacity {
                self.buckets[bucket].push(key);
                return true;
            }
            for at in 0..self.capacity {
                if self.place(self.buckets[bucket][at], tried) {
                    self.buckets[bucket][at] = key;
                    return true;
                }
            }
        }
        false
    }
}
