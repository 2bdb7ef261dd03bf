//! The answer by definition: closer pairs of all threes, all subsets tried.

use crate::text::Tree;

/// The bytes of a label: decoded, or its key, by which an edition compares it.
pub type Label = Vec<u8>;

/// A label of a list, told by its number there, that the first tree lacks, or only the second.
#[derive(Clone, Debug, PartialEq)]
pub enum Lacks {
    First(usize),
    Second(usize),
}

/// What two trees and a required list come to, 1 to 5 and 9 to 12 left aside.
#[derive(Clone, Debug, PartialEq)]
pub enum Answer {
    Lacking(Lacks),
    Disagree([Label; 3]),
    Set(Vec<Label>),
}

fn holds(t: &Tree, x: &[u8]) -> bool {
    match t {
        Tree::Leaf(y) => y == x,
        Tree::Node(a, b) => holds(a, x) || holds(b, x),
    }
}

/// The smallest subtree that holds both.
fn lca<'a>(t: &'a Tree, x: &[u8], y: &[u8]) -> &'a Tree {
    if let Tree::Node(a, b) = t {
        for child in [a, b] {
            if holds(child, x) && holds(child, y) {
                return lca(child, x, y);
            }
        }
    }
    t
}

/// Which of the three is left out of the closer pair.
fn outer(t: &Tree, three: [&Label; 3]) -> usize {
    let [x, y, z] = three;
    if !holds(lca(t, x, y), z) {
        2
    } else if !holds(lca(t, x, z), y) {
        1
    } else {
        0
    }
}

/// The first three of a sorted list, compared label by label, that have different closer pairs.
pub fn first_clash(s: &Tree, t: &Tree, xs: &[Label]) -> Option<[Label; 3]> {
    for i in 0..xs.len() {
        for j in i + 1..xs.len() {
            for k in j + 1..xs.len() {
                let three = [&xs[i], &xs[j], &xs[k]];
                if outer(s, three) != outer(t, three) {
                    return Some([xs[i].clone(), xs[j].clone(), xs[k].clone()]);
                }
            }
        }
    }
    None
}

pub fn common(s: &Tree, t: &Tree) -> Vec<Label> {
    let mut xs: Vec<Label> = s.leaves().into_iter().filter(|x| holds(t, x)).collect();
    xs.sort();
    xs
}

/// The number, counted from 0 and from left to right, of the first leaf that the other tree lacks.
pub fn stray(t: &Tree, other: &Tree) -> Option<usize> {
    t.leaves().iter().position(|x| !holds(other, x))
}

/// The first label of a list, in its order, that a tree lacks.
pub fn lacking(s: &Tree, t: &Tree, list: &[Label]) -> Option<Lacks> {
    for (i, x) in list.iter().enumerate() {
        if !holds(s, x) {
            return Some(Lacks::First(i));
        }
        if !holds(t, x) {
            return Some(Lacks::Second(i));
        }
    }
    None
}

pub fn sorted(xs: &[Label]) -> Vec<Label> {
    let mut ys = xs.to_vec();
    ys.sort();
    ys
}

/// All subsets of a few labels, each in the labels' order.
pub fn subsets(all: &[Label]) -> impl Iterator<Item = Vec<Label>> + '_ {
    assert!(all.len() <= 16);
    (0..1u32 << all.len()).map(|mask| (0..all.len()).filter(|i| mask >> i & 1 == 1).map(|i| all[i].clone()).collect())
}

/// Whether the common leaves are few enough to try all subsets.
pub fn few(s: &Tree, t: &Tree) -> bool {
    common(s, t).len() <= 10
}

pub fn by_trying_all(s: &Tree, t: &Tree, required: &[Label]) -> Answer {
    if let Some(lacks) = lacking(s, t, required) {
        return Answer::Lacking(lacks);
    }
    if let Some(three) = first_clash(s, t, &sorted(required)) {
        return Answer::Disagree(three);
    }
    let mut best: Option<Vec<Label>> = None;
    for set in subsets(&common(s, t)) {
        let better = match &best {
            None => true,
            Some(b) => set.len() > b.len() || set.len() == b.len() && set < *b,
        };
        if better && required.iter().all(|x| set.contains(x)) && first_clash(s, t, &set).is_none() {
            best = Some(set);
        }
    }
    Answer::Set(best.unwrap())
}

/// The tree without the leaves outside the set, and without nodes left with one child.
pub fn restrict(t: &Tree, set: &[Label]) -> Option<Tree> {
    match t {
        Tree::Leaf(x) => set.contains(x).then(|| t.clone()),
        Tree::Node(a, b) => match (restrict(a, set), restrict(b, set)) {
            (Some(p), Some(q)) => Some(Tree::Node(Box::new(p), Box::new(q))),
            (p, q) => p.or(q),
        },
    }
}
