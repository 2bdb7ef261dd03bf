//! Trees over required leaves, with other leaves above their nodes: each list of leaves above a node is a piece.

use crate::agree::Label;
use crate::families::Family;
use crate::limits::{LEAVES, REQUIRED};
use crate::random::Random;
use crate::spelling::Bodies;
use crate::text::Tree;
use crate::trees::{join, leaf, random_tree};

/// The tree with more leaves above its nodes: a list for each node, a node after its children. A list becomes subtrees drawn at random.
fn hung(r: &mut Random, t: &Tree, lists: &mut impl Iterator<Item = Vec<Label>>) -> Tree {
    let mut out = match t {
        Tree::Leaf(_) => t.clone(),
        Tree::Node(a, b) => join(hung(r, a, lists), hung(r, b, lists)),
    };
    let mut rest = lists.next().unwrap_or_default();
    r.shuffle(&mut rest);
    while !rest.is_empty() {
        let part = rest.split_off(r.below(rest.len()));
        out = join(out, random_tree(r, &part));
    }
    out
}

/// The tree with the two children of some nodes exchanged.
pub fn turned(r: &mut Random, t: &Tree) -> Tree {
    match t {
        Tree::Leaf(_) => t.clone(),
        Tree::Node(a, b) => {
            let (a, b) = (turned(r, a), turned(r, b));
            if r.below(2) == 0 {
                join(a, b)
            } else {
                join(b, a)
            }
        }
    }
}

/// The tree of required leaves with these lists above its nodes, in two ways.
fn two_trees(r: &mut Random, required: &[Label], lists: [Vec<Vec<Label>>; 2]) -> Bodies {
    let tree = random_tree(r, required);
    let [first, second] = lists.map(|lists| {
        let made = hung(r, &tree, &mut lists.into_iter());
        turned(r, &made)
    });
    Bodies { first, second, required: required.to_vec() }
}

/// Where a leaf is in each of two trees: mostly at one place in both, sometimes at two or in one tree only.
fn drawn_places(r: &mut Random, places: usize) -> [Option<usize>; 2] {
    let place = r.below(places);
    match r.below(10) {
        0 => [Some(place), None],
        1 => [None, Some(place)],
        2 | 3 => [Some(place), Some(r.below(places))],
        _ => [Some(place); 2],
    }
}

/// Two trees of at most so many leaves that agree on the required ones.
pub fn pieced_over(r: &mut Random, mut pool: Vec<Label>, most: usize) -> Bodies {
    r.shuffle(&mut pool);
    let n = 1 + r.below(most);
    let k = 1 + r.below(n);
    let places = 2 * k - 1;
    let mut lists = [vec![Vec::new(); places], vec![Vec::new(); places]];
    for x in &pool[k..n] {
        let chosen = drawn_places(r, places);
        for (list, place) in lists.iter_mut().zip(chosen) {
            place.into_iter().for_each(|place| list[place].push(x.clone()));
        }
    }
    two_trees(r, &pool[..k], lists)
}

/// The first of these labels required, so many of them, and the others above their places by turns.
pub fn evenly(r: &mut Random, xs: &[Label], k: usize) -> Bodies {
    let mut lists = vec![Vec::new(); 2 * k - 1];
    xs[k..].iter().enumerate().for_each(|(i, x)| lists[i % (2 * k - 1)].push(x.clone()));
    two_trees(r, &xs[..k], [lists.clone(), lists])
}

/// The families for pieces, over as many labels as may be: no piece but the whole, one piece, as many as may be, one of one leaf, none.
pub fn piece_families(r: &mut Random, xs: &[Label]) -> Vec<Family> {
    let mut mixed = xs.to_vec();
    r.shuffle(&mut mixed);
    let free = Bodies { first: random_tree(r, &mixed), second: random_tree(r, xs), required: Vec::new() };
    let rows = [
        ("one required", 1),
        ("as many pieces as may be", REQUIRED),
        ("all but one required", LEAVES - 1),
        ("all required", LEAVES),
    ];
    let mut out = vec![Family { name: "none required", bodies: free }];
    out.extend(rows.map(|(name, k)| Family { name, bodies: evenly(r, &mixed, k) }));
    out
}

/// The tree with one more leaf, above each of its nodes in turn.
fn above_each(t: &Tree, x: &Label) -> Vec<Tree> {
    let mut out = vec![join(t.clone(), leaf(x))];
    if let Tree::Node(a, b) = t {
        out.extend(above_each(a, x).into_iter().map(|a| join(a, (**b).clone())));
        out.extend(above_each(b, x).into_iter().map(|b| join((**a).clone(), b)));
    }
    out
}

/// Every tree over these labels, left and right aside.
pub fn every_tree(xs: &[Label]) -> Vec<Tree> {
    match xs {
        [] => Vec::new(),
        [x] => vec![leaf(x)],
        [rest @ .., x] => every_tree(rest).iter().flat_map(|t| above_each(t, x)).collect(),
    }
}
