//! A list of weighed items in a weight-balanced tree of boxes, with the balance of `crates/weight_tree`: the size and
//! one of no side is more than three times that of its sibling. As there, a node has the sums of its left side too, so
//! that a descent reads no node off its path.
use crate::dice::Dice;
use std::mem;

pub trait Weigh {
    fn weight(&self) -> u64;
}

pub struct Tree<T> {
    root: Option<Box<Branch<T>>>,
}

pub struct Branch<T> {
    item: T,
    left_size: usize,
    left: Tree<T>,
    right: Tree<T>,
    left_weight: u64,
    size: usize,
    weight: u64,
    height: u8,
    left_height: u8,
    right_height: u8,
}

impl<T: Weigh> Branch<T> {
    /// All sums, from both sides.
    fn sum_up(&mut self) {
        self.left_size = self.left.len();
        self.left_weight = self.left.weight();
        self.left_height = self.left.height();
        self.right_height = self.right.height();
        self.size = self.left_size + self.right.len() + 1;
        self.weight = self.left_weight + self.item.weight() + self.right.weight();
        self.sum_heights();
    }

    fn sum_heights(&mut self) {
        self.height = self.left_height.max(self.right_height) + 1;
    }
}

impl<T: Weigh> Tree<T> {
    pub fn new() -> Self {
        Tree { root: None }
    }

    pub fn len(&self) -> usize {
        self.root.as_ref().map_or(0, |branch| branch.size)
    }

    pub fn weight(&self) -> u64 {
        self.root.as_ref().map_or(0, |branch| branch.weight)
    }

    fn height(&self) -> u8 {
        self.root.as_ref().map_or(0, |branch| branch.height)
    }

    pub fn get(&self, rank: usize) -> &T {
        let branch = self.root.as_ref().expect("the rank is in range");
        let left = branch.left_size;
        if rank < left {
            branch.left.get(rank)
        } else if rank == left {
            &branch.item
        } else {
            branch.right.get(rank - left - 1)
        }
    }

    pub fn insert(&mut self, rank: usize, item: T) {
        let weight = item.weight();
        match &mut self.root {
            None => {
                self.root = Some(Box::new(Branch {
                    item,
                    left_size: 0,
                    left: Tree::new(),
                    right: Tree::new(),
                    left_weight: 0,
                    size: 1,
                    weight,
                    height: 1,
                    left_height: 0,
                    right_height: 0,
                }));
            }
            Some(branch) => {
                let left = branch.left_size;
                branch.size += 1;
                branch.weight += weight;
                if rank <= left {
                    branch.left_size += 1;
                    branch.left_weight += weight;
                    branch.left.insert(rank, item);
                    branch.left_height = branch.left.height();
                } else {
                    branch.right.insert(rank - left - 1, item);
                    branch.right_height = branch.right.height();
                }
                branch.sum_heights();
                self.rebalance();
            }
        }
    }

    /// Puts an item in the place of the one at a rank.
    pub fn replace(&mut self, rank: usize, item: T) {
        let branch = self.root.as_mut().expect("the rank is in range");
        let left = branch.left_size;
        if rank < left {
            branch.left.replace(rank, item);
            let weight = branch.left.weight();
            branch.weight = branch.weight - branch.left_weight + weight;
            branch.left_weight = weight;
        } else if rank == left {
            branch.weight = branch.weight - branch.item.weight() + item.weight();
            branch.item = item;
        } else {
            let before = branch.right.weight();
            branch.right.replace(rank - left - 1, item);
            branch.weight = branch.weight - before + branch.right.weight();
        }
    }

    /// The item that a number falls in, and how far.
    pub fn find(&self, number: u64) -> Option<(&T, u64)> {
        let branch = self.root.as_ref()?;
        let left = branch.left_weight;
        if number < left {
            return branch.left.find(number);
        }
        let (offset, weight) = (number - left, branch.item.weight());
        if offset < weight {
            return Some((&branch.item, offset));
        }
        branch.right.find(offset - weight)
    }

    /// The weight of the items before a rank.
    pub fn before(&self, rank: usize) -> u64 {
        let Some(branch) = &self.root else { return 0 };
        let left = branch.left_size;
        if rank <= left {
            branch.left.before(rank)
        } else {
            branch.left_weight + branch.item.weight() + branch.right.before(rank - left - 1)
        }
    }

    /// How many items in front are below a place.
    pub fn rank_by(&self, below: impl Fn(&T) -> bool + Copy) -> usize {
        let Some(branch) = &self.root else { return 0 };
        if below(&branch.item) {
            branch.left_size + 1 + branch.right.rank_by(below)
        } else {
            branch.left.rank_by(below)
        }
    }

    fn rebalance(&mut self) {
        let Some(branch) = &mut self.root else { return };
        let left = branch.left_size + 1;
        let right = branch.size - branch.left_size;
        if left > 3 * right {
            if branch.left.inner_is_heavy(|side| (&side.left, &side.right)) {
                branch.left.rotate_left();
            }
            self.rotate_right();
        } else if right > 3 * left {
            if branch
                .right
                .inner_is_heavy(|side| (&side.right, &side.left))
            {
                branch.right.rotate_right();
            }
            self.rotate_left();
        }
    }

    /// Whether the inner part of a heavy side is too heavy for a single rotation.
    fn inner_is_heavy(&self, parts: impl Fn(&Branch<T>) -> (&Tree<T>, &Tree<T>)) -> bool {
        self.root.as_ref().is_some_and(|side| {
            let (outer, inner) = parts(side);
            inner.len() + 1 >= 2 * (outer.len() + 1)
        })
    }

    fn rotate_right(&mut self) {
        let Some(mut below) = self.root.take() else {
            return;
        };
        let Some(mut above) = below.left.root.take() else {
            return;
        };
        mem::swap(&mut below.left, &mut above.right);
        below.sum_up();
        above.right.root = Some(below);
        above.sum_up();
        self.root = Some(above);
    }

    fn rotate_left(&mut self) {
        let Some(mut below) = self.root.take() else {
            return;
        };
        let Some(mut above) = below.right.root.take() else {
            return;
        };
        mem::swap(&mut below.right, &mut above.left);
        below.sum_up();
        above.left.root = Some(below);
        above.sum_up();
        self.root = Some(above);
    }

    pub fn iter(&self) -> Iter<'_, T> {
        let mut iter = Iter {
            waiting: Vec::with_capacity(self.height().into()),
        };
        iter.descend(self);
        iter
    }
}

pub struct Iter<'a, T> {
    waiting: Vec<&'a Branch<T>>,
}

impl<'a, T> Iter<'a, T> {
    fn descend(&mut self, mut tree: &'a Tree<T>) {
        while let Some(branch) = &tree.root {
            self.waiting.push(branch);
            tree = &branch.left;
        }
    }
}

impl<'a, T> Iterator for Iter<'a, T> {
    type Item = &'a T;

    fn next(&mut self) -> Option<&'a T> {
        let branch = self.waiting.pop()?;
        self.descend(&branch.right);
        Some(&branch.item)
    }
}

struct Stone {
    number: u32,
    weight: u32,
}

impl Weigh for Stone {
    fn weight(&self) -> u64 {
        u64::from(self.weight)
    }
}

/// A tree of that many stones, each put at a random rank.
fn grown(dice: &mut Dice, size: u32) -> Tree<Stone> {
    let mut tree = Tree::new();
    for number in 0..size {
        let rank = dice.roll(u64::from(number) + 1) as usize;
        let weight = dice.roll(10) as u32;
        tree.insert(rank, Stone { number, weight });
    }
    tree
}

/// Grows trees, and looks at each at a thousand random ranks.
pub fn insert(size: u32, times: u32) -> String {
    let mut dice = Dice::new();
    let (mut weight, mut levels, mut check) = (0, 0, 0u32);
    for _ in 0..times {
        let tree = grown(&mut dice, size);
        weight += tree.weight();
        levels += usize::from(tree.height());
        if size == 0 {
            continue;
        }
        for _ in 0..1000 {
            let stone = tree.get(dice.roll(u64::from(size)) as usize);
            check = check.wrapping_mul(31).wrapping_add(stone.number);
        }
    }
    format!("weight {weight}, levels {levels}, check {check}")
}

/// Goes over all items of one tree that many times.
pub fn iterate(size: u32, times: u32) -> String {
    let tree = grown(&mut Dice::new(), size);
    let (mut items, mut check) = (0u64, 0u32);
    for _ in 0..times {
        for stone in tree.iter() {
            items += 1;
            check = check.wrapping_mul(31).wrapping_add(stone.number);
        }
    }
    format!("items {items}, check {check}")
}
