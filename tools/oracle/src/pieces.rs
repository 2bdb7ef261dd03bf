//! The pieces into which required leaves divide two trees. A leaf's place is found by climbing from the leaf. Each piece can be answered by
//! itself, so that the set of the whole can be compared with the sets of its pieces.

use crate::agree::{common, restrict, sorted, Answer, Label};
use crate::fast::checked_answer;
use crate::text::Tree;
use std::collections::HashMap;
use std::iter::successors;

/// What a line `at` shows: the smallest required label below a place, or none if nothing is required, and the leaves that hang there in both
/// trees, in label order.
#[derive(Clone, Debug, PartialEq)]
pub struct Piece {
    pub head: Option<Label>,
    pub leaves: Vec<Label>,
}

impl Piece {
    /// The labels of its line, in the line's order.
    pub fn labels(&self) -> Vec<Label> {
        self.head.iter().chain(&self.leaves).cloned().collect()
    }

    /// The same piece with another label for each.
    pub fn relabelled(&self, f: impl Fn(&Label) -> Label) -> Piece {
        Piece { head: self.head.as_ref().map(&f), leaves: self.leaves.iter().map(&f).collect() }
    }
}

/// A tree to climb in: the parent of each node, none for the root, and the node of each leaf.
struct Parents {
    parent: Vec<Option<usize>>,
    leaf: HashMap<Label, usize>,
}

impl Parents {
    fn of(t: &Tree) -> Parents {
        let mut out = Parents { parent: Vec::new(), leaf: HashMap::new() };
        out.add(t, None);
        out
    }

    fn add(&mut self, t: &Tree, parent: Option<usize>) {
        let node = self.parent.len();
        self.parent.push(parent);
        match t {
            Tree::Leaf(x) => drop(self.leaf.insert(x.clone(), node)),
            Tree::Node(a, b) => [a, b].iter().for_each(|child| self.add(child, Some(node))),
        }
    }

    /// The leaf and its ancestors up to the root.
    fn up(&self, x: &Label) -> impl Iterator<Item = usize> + '_ {
        successors(Some(self.leaf[x]), |&node| self.parent[node])
    }
}

/// The place of each of these leaves: the required leaves, one at least, below its lowest ancestor with any, in label order.
fn places(t: &Tree, required: &[Label], leaves: &[Label]) -> Vec<Vec<Label>> {
    let tree = Parents::of(t);
    let mut below = vec![Vec::new(); tree.parent.len()];
    for x in sorted(required) {
        tree.up(&x).for_each(|node| below[node].push(x.clone()));
    }
    leaves.iter().map(|x| tree.up(x).map(|node| &below[node]).find(|xs| !xs.is_empty()).unwrap().clone()).collect()
}

/// The leaves below each node, in label order: a node after its children, and of these the one with the smaller smallest label first.
fn clades(t: &Tree) -> Vec<Vec<Label>> {
    match t {
        Tree::Leaf(x) => vec![vec![x.clone()]],
        Tree::Node(a, b) => {
            let mut children = [clades(a), clades(b)];
            children.sort_by_key(|all| all.last().unwrap()[0].clone());
            let mut out = children.concat();
            out.push(sorted(&t.leaves()));
            out
        }
    }
}

/// The pieces of two trees that agree on the required leaves, in the order of their lines.
pub fn pieces(s: &Tree, t: &Tree, required: &[Label]) -> Vec<Piece> {
    let mut others = common(s, t);
    others.retain(|x| !required.contains(x));
    let all = match restrict(s, required) {
        None => vec![Piece { head: None, leaves: others }],
        Some(tree) => {
            let [first, second] = [s, t].map(|tree| places(tree, required, &others));
            let hangs = |i: usize, place: &Vec<Label>| first[i] == *place && second[i] == *place;
            let leaves = |place| (0..others.len()).filter(|&i| hangs(i, place)).map(|i| others[i].clone()).collect();
            clades(&tree).iter().map(|place| Piece { head: Some(place[0].clone()), leaves: leaves(place) }).collect()
        }
    };
    all.into_iter().filter(|piece| !piece.leaves.is_empty()).collect()
}

/// The set of one piece: both trees restricted to its labels, its head required.
fn set_of(s: &Tree, t: &Tree, piece: &Piece) -> Vec<Label> {
    let labels = piece.labels();
    let [s, t] = [s, t].map(|tree| restrict(tree, &labels).unwrap());
    match checked_answer(&s, &t, piece.head.as_slice()) {
        Answer::Set(set) => set,
        other => panic!("a piece of one required label is answered with {other:?}"),
    }
}

/// The required leaves joined with the sets of the pieces, in label order.
pub fn joined_sets(s: &Tree, t: &Tree, required: &[Label], pieces: &[Piece]) -> Vec<Label> {
    let mut all = required.to_vec();
    all.extend(pieces.iter().flat_map(|piece| set_of(s, t, piece)));
    all.sort();
    all.dedup();
    all
}
