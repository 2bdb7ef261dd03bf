//! The same answer by one recurrence over pairs of nodes, for trees too large to try all subsets: a cell holds how many required
//! labels are in its best set, its size, and the set as a number whose highest bit is the smallest label, so that the greatest
//! cell is the first of the largest sets.

use crate::agree::{by_trying_all, common, few, lacking, sorted, Answer, Label};
use crate::text::Tree;
use std::collections::HashMap;

#[derive(Clone, Copy, PartialEq, Eq, PartialOrd, Ord)]
struct Cell {
    required: u32,
    size: u32,
    set: u128,
}

const EMPTY: Cell = Cell { required: 0, size: 0, set: 0 };

fn plus(a: Cell, b: Cell) -> Cell {
    Cell { required: a.required + b.required, size: a.size + b.size, set: a.set | b.set }
}

/// A tree as nodes, children first: the children, or the rank of a common leaf.
pub struct Nodes {
    children: Vec<Option<(usize, usize)>>,
    rank: Vec<Option<usize>>,
}

fn number(t: &Tree, ranks: &HashMap<Label, usize>, out: &mut Nodes) -> usize {
    match t {
        Tree::Leaf(x) => {
            out.children.push(None);
            out.rank.push(ranks.get(x).copied());
        }
        Tree::Node(a, b) => {
            let l = number(a, ranks, out);
            let r = number(b, ranks, out);
            out.children.push(Some((l, r)));
            out.rank.push(None);
        }
    }
    out.children.len() - 1
}

pub fn nodes(t: &Tree, ranks: &HashMap<Label, usize>) -> Nodes {
    let mut out = Nodes { children: Vec::new(), rank: Vec::new() };
    number(t, ranks, &mut out);
    out
}

fn table(s: &Nodes, t: &Nodes, weight: &[Cell]) -> Cell {
    let width = t.children.len();
    let mut cells = vec![EMPTY; s.children.len() * width];
    for u in 0..s.children.len() {
        for v in 0..width {
            let at = |u: usize, v: usize| cells[u * width + v];
            let best = match (s.children[u], t.children[v]) {
                (None, None) => match (s.rank[u], t.rank[v]) {
                    (Some(a), Some(b)) if a == b => weight[a],
                    _ => EMPTY,
                },
                (None, Some((c, d))) => at(u, c).max(at(u, d)),
                (Some((a, b)), None) => at(a, v).max(at(b, v)),
                (Some((a, b)), Some((c, d))) => [
                    at(a, v),
                    at(b, v),
                    at(u, c),
                    at(u, d),
                    plus(at(a, c), at(b, d)),
                    plus(at(a, d), at(b, c)),
                ]
                .into_iter()
                .max()
                .unwrap(),
            };
            cells[u * width + v] = best;
        }
    }
    cells[cells.len() - 1]
}

/// The largest and first set, or nothing where the required labels cannot all be held.
pub fn solve(s: &Tree, t: &Tree, required: &[Label]) -> Option<Vec<Label>> {
    let all = common(s, t);
    let ranks: HashMap<Label, usize> = all.iter().cloned().enumerate().map(|(i, x)| (x, i)).collect();
    let weight: Vec<Cell> = all
        .iter()
        .enumerate()
        .map(|(i, x)| Cell { required: required.contains(x) as u32, size: 1, set: 1 << (127 - i) })
        .collect();
    let best = table(&nodes(s, &ranks), &nodes(t, &ranks), &weight);
    (best.required as usize == required.len())
        .then(|| all.iter().enumerate().filter(|(i, _)| best.set >> (127 - i) & 1 == 1).map(|(_, x)| x.clone()).collect())
}

/// The lca numbers of all pairs, then all threes of a sorted list.
pub fn first_clash(s: &Tree, t: &Tree, xs: &[Label]) -> Option<[Label; 3]> {
    let ranks: HashMap<Label, usize> = xs.iter().cloned().enumerate().map(|(i, x)| (x, i)).collect();
    let lcas = |t: &Tree| {
        let nodes = nodes(t, &ranks);
        let mut below: Vec<u128> = Vec::new();
        let mut lca = vec![vec![0; xs.len()]; xs.len()];
        for u in 0..nodes.children.len() {
            let set = match nodes.children[u] {
                None => nodes.rank[u].map_or(0, |r| 1 << r),
                Some((a, b)) => {
                    for i in 0..xs.len() {
                        for j in 0..xs.len() {
                            if below[a] >> i & 1 == 1 && below[b] >> j & 1 == 1 {
                                lca[i][j] = u;
                                lca[j][i] = u;
                            }
                        }
                    }
                    below[a] | below[b]
                }
            };
            below.push(set);
        }
        lca
    };
    let (p, q) = (lcas(s), lcas(t));
    let outer = |m: &Vec<Vec<usize>>, i: usize, j: usize, k: usize| {
        if m[i][j] < m[i][k] {
            2
        } else if m[i][k] < m[i][j] {
            1
        } else {
            0
        }
    };
    for i in 0..xs.len() {
        for j in i + 1..xs.len() {
            for k in j + 1..xs.len() {
                if outer(&p, i, j, k) != outer(&q, i, j, k) {
                    return Some([xs[i].clone(), xs[j].clone(), xs[k].clone()]);
                }
            }
        }
    }
    None
}

pub fn answer(s: &Tree, t: &Tree, required: &[Label]) -> Answer {
    if let Some(lacks) = lacking(s, t, required) {
        return Answer::Lacking(lacks);
    }
    match solve(s, t, required) {
        Some(set) => Answer::Set(set),
        None => Answer::Disagree(first_clash(s, t, &sorted(required)).unwrap()),
    }
}

/// The answer by definition where there are few enough leaves; the recurrence must say the same.
pub fn checked_answer(s: &Tree, t: &Tree, required: &[Label]) -> Answer {
    let quick = answer(s, t, required);
    if few(s, t) {
        assert_eq!(by_trying_all(s, t, required), quick);
    }
    quick
}
