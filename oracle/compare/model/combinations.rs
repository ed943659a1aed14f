//! The fours of a kept list, by sum and then lexicographically.

use std::cell::RefCell;
use std::collections::HashMap;
use std::rc::Rc;

/// Four positions in a kept list.
pub type Four = [u32; 4];

thread_local! {
    /// The lists worked out so far, by their count.
    static LISTS: RefCell<HashMap<usize, Rc<Vec<Four>>>> = RefCell::new(HashMap::new());
}

/// Every four strictly rising positions below `count`, in the order they are tried.
pub fn fours(count: usize) -> Rc<Vec<Four>> {
    LISTS.with(|lists| lists.borrow_mut().entry(count).or_insert_with(|| Rc::new(list(count))).clone())
}

/// Where the order puts a four.
fn rank(four: &Four) -> (u32, Four) {
    (four.iter().sum(), *four)
}

/// All fours below `count`, sorted.
fn list(count: usize) -> Vec<Four> {
    let count = count as u32;
    let mut all = Vec::new();
    for a in 0..count {
        for b in a + 1..count {
            for c in b + 1..count {
                for d in c + 1..count {
                    all.push([a, b, c, d]);
                }
            }
        }
    }
    all.sort_by_key(rank);
    all
}

/// The four after this one, if there is one.
pub fn after(count: usize, four: Four) -> Option<Four> {
    let all = fours(count);
    let next = all.partition_point(|other| rank(other) <= rank(&four));
    all.get(next).copied()
}
