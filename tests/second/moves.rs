//! The least number of moves: over all assignments of some keys, how few of them need lie elsewhere than they do.

use std::collections::VecDeque;

/// A key with its own buckets, each once, and the bucket in which it lies. A new key lies in none.
pub struct Key {
    pub own: Vec<usize>,
    pub lies: Option<usize>,
}

impl Key {
    fn cost(&self, bucket: usize) -> i64 {
        i64::from(self.lies.is_some_and(|lies| lies != bucket))
    }
}

/// The least number of moves, or nothing where the keys cannot be held. One key after the other is assigned by a cheapest
/// chain of changes, which leaves a cheapest assignment of the keys so far.
pub fn least(keys: &[Key], buckets: usize, capacity: usize) -> Option<u64> {
    let mut held = vec![Vec::new(); buckets];
    let mut moves = 0;
    for key in 0..keys.len() {
        moves += add(keys, &mut held, capacity, key)?;
    }
    u64::try_from(moves).ok()
}

/// Adds a key to a cheapest assignment and gives what that costs.
fn add(keys: &[Key], held: &mut [Vec<usize>], capacity: usize, key: usize) -> Option<i64> {
    // one more key never costs less, so where it costs nothing nothing is cheaper
    if let Some(lies) = keys[key].lies.filter(|lies| held[*lies].len() < capacity) {
        held[lies].push(key);
        return Some(0);
    }
    // the cheapest way into each bucket that is known so far: its cost, the key that comes in and the bucket it leaves
    let mut ways: Vec<Option<(i64, usize, Option<usize>)>> = vec![None; held.len()];
    let mut changed = VecDeque::new();
    for bucket in &keys[key].own {
        ways[*bucket] = Some((keys[key].cost(*bucket), key, None));
        changed.push_back(*bucket);
    }
    while let Some(bucket) = changed.pop_front() {
        let (before, ..) = ways[bucket].expect("a way leads to a changed bucket");
        if held[bucket].len() < capacity {
            continue;
        }
        for other in &held[bucket] {
            for to in &keys[*other].own {
                let cost = before - keys[*other].cost(bucket) + keys[*other].cost(*to);
                if *to != bucket && ways[*to].is_none_or(|(known, ..)| cost < known) {
                    ways[*to] = Some((cost, *other, Some(bucket)));
                    changed.push_back(*to);
                }
            }
        }
    }
    let ends = (0..held.len()).filter(|bucket| held[*bucket].len() < capacity);
    let (cost, end) = ends.filter_map(|bucket| Some((ways[bucket]?.0, bucket))).min()?;
    let mut last = Some(end);
    while let Some(bucket) = last {
        let (_, comes, leaves) = ways[bucket].expect("a way leads here");
        held[bucket].push(comes);
        if let Some(left) = leaves {
            held[left].retain(|other| *other != comes);
        }
        last = leaves;
    }
    Some(cost)
}

/// Whether there are at most this many ways to give each key one of its own buckets, too many to a bucket or not.
pub fn ways_at_most(keys: &[Key], most: usize) -> bool {
    let ways = keys.iter().try_fold(1_usize, |ways, key| ways.checked_mul(key.own.len()));
    ways.is_some_and(|ways| ways <= most)
}

/// The least number of moves once more, by going through all assignments.
pub fn least_of_all(keys: &[Key], buckets: usize, capacity: usize) -> Option<u64> {
    let mut least = None;
    go_on(keys, &mut vec![capacity; buckets], 0, &mut least);
    least
}

/// Goes through the assignments of the keys that are left, after so many moves. Those with no fewer than the least so far
/// are passed over.
fn go_on(keys: &[Key], room: &mut [usize], moves: u64, least: &mut Option<u64>) {
    if least.is_some_and(|least| least <= moves) {
        return;
    }
    let Some((key, others)) = keys.split_first() else {
        *least = Some(moves);
        return;
    };
    for bucket in &key.own {
        if room[*bucket] > 0 {
            room[*bucket] -= 1;
            go_on(others, room, moves + key.cost(*bucket) as u64, least);
            room[*bucket] += 1;
        }
    }
}
