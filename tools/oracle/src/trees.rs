//! Trees over given labels.

use crate::agree::Label;
use crate::random::Random;
use crate::text::Tree;

pub fn leaf(x: &[u8]) -> Tree {
    Tree::Leaf(x.to_vec())
}

pub fn join(a: Tree, b: Tree) -> Tree {
    Tree::Node(Box::new(a), Box::new(b))
}

/// A caterpillar: each label in turn joined above all before it.
pub fn caterpillar(labels: &[Label]) -> Tree {
    let mut t = leaf(&labels[0]);
    for x in &labels[1..] {
        t = join(t, leaf(x));
    }
    t
}

/// Pairs of trees joined until one is left.
pub fn random_tree(r: &mut Random, labels: &[Label]) -> Tree {
    let mut parts: Vec<Tree> = labels.iter().map(|x| leaf(x)).collect();
    while parts.len() > 1 {
        let a = parts.swap_remove(r.below(parts.len()));
        let b = parts.swap_remove(r.below(parts.len()));
        parts.push(join(a, b));
    }
    parts.pop().unwrap()
}

/// A tree whose nodes have halves of their labels below each child.
pub fn balanced(labels: &[Label]) -> Tree {
    if labels.len() == 1 {
        return leaf(&labels[0]);
    }
    let (a, b) = labels.split_at(labels.len() / 2);
    join(balanced(a), balanced(b))
}

/// The tree with some pairs of leaves exchanged.
pub fn perturbed(r: &mut Random, t: &Tree, swaps: usize) -> Tree {
    let before = t.leaves();
    let mut after = before.clone();
    for _ in 0..swaps {
        let (i, j) = (r.below(after.len()), r.below(after.len()));
        after.swap(i, j);
    }
    let mut next = after.into_iter();
    t.relabelled(&mut |_| next.next().unwrap())
}
