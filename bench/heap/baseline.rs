// The load of crates/heap_bench in plain Rust, over BTreeSet or BinaryHeap. Prints the checksum.
use std::cmp::Reverse;
use std::collections::{BTreeSet, BinaryHeap};

const KEYS: u32 = 1024;

fn next(seed: u32) -> u32 {
    seed.wrapping_mul(1_664_525).wrapping_add(1_013_904_223)
}

fn number_of(seed: u32) -> u32 {
    (seed >> 8) % KEYS
}

fn left_of(seed: u32) -> u32 {
    (seed >> 8) % 10_000 + 1
}

// A set of keys by number, of which the first can be had.
trait Ranking {
    fn insert(&mut self, left: u32, number: u32);
    fn replace(&mut self, left: u32, number: u32);
    fn remove(&mut self, number: u32);
    fn first(&mut self) -> Option<u32>;
}

// An ordered set of (left, number), and the left of each number (0: not held).
struct Tree {
    set: BTreeSet<(u32, u32)>,
    left: Vec<u32>,
}

impl Ranking for Tree {
    fn insert(&mut self, left: u32, number: u32) {
        if self.left[number as usize] == 0 {
            self.left[number as usize] = left;
            self.set.insert((left, number));
        }
    }

    fn replace(&mut self, left: u32, number: u32) {
        let old = self.left[number as usize];
        if old != 0 {
            self.set.remove(&(old, number));
            self.set.insert((left, number));
            self.left[number as usize] = left;
        }
    }

    fn remove(&mut self, number: u32) {
        let old = self.left[number as usize];
        if old != 0 {
            self.set.remove(&(old, number));
            self.left[number as usize] = 0;
        }
    }

    fn first(&mut self) -> Option<u32> {
        self.set.first().map(|key| key.1)
    }
}

// A binary heap that is not indexed: old keys stay in it, and are skipped when they come first.
struct Lazy {
    heap: BinaryHeap<Reverse<(u32, u32)>>,
    left: Vec<u32>,
}

impl Ranking for Lazy {
    fn insert(&mut self, left: u32, number: u32) {
        if self.left[number as usize] == 0 {
            self.left[number as usize] = left;
            self.heap.push(Reverse((left, number)));
        }
    }

    fn replace(&mut self, left: u32, number: u32) {
        if self.left[number as usize] != 0 {
            self.left[number as usize] = left;
            self.heap.push(Reverse((left, number)));
        }
    }

    fn remove(&mut self, number: u32) {
        self.left[number as usize] = 0;
    }

    fn first(&mut self) -> Option<u32> {
        while let Some(&Reverse((left, number))) = self.heap.peek() {
            if self.left[number as usize] == left {
                return Some(number);
            }
            self.heap.pop();
        }
        None
    }
}

fn run(ranking: &mut impl Ranking, rounds: u32) -> u32 {
    let mut seed = 1;
    let mut sum: u32 = 0;
    for _ in 0..rounds {
        for number in 0..KEYS {
            seed = next(seed);
            ranking.insert(left_of(seed), number);
        }
        for _ in 0..4096 {
            let at = next(seed);
            seed = next(at);
            ranking.replace(left_of(seed), number_of(at));
        }
        for _ in 0..512 {
            seed = next(seed);
            ranking.remove(number_of(seed));
        }
        while let Some(number) = ranking.first() {
            sum = sum.wrapping_mul(31).wrapping_add(number);
            ranking.remove(number);
        }
    }
    sum
}

fn main() {
    let left = vec![0; KEYS as usize];
    let sum = match std::env::args().nth(1).as_deref() {
        Some("tree") => run(&mut Tree { set: BTreeSet::new(), left }, 1000),
        _ => run(&mut Lazy { heap: BinaryHeap::new(), left }, 1000),
    };
    println!("1000 rounds, checksum {sum}");
}
