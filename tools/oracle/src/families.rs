//! Pairs of trees that ask the most of an engine, by name. The benchmark, the measure of the stack and the test of the programs all
//! go through them.

use crate::agree::Label;
use crate::job::{job, strict, with_edition, SECOND};
use crate::limits::{LABEL, LEAVES};
use crate::random::Random;
use crate::spelling::{cycled, quoted, Bodies, Form};
use crate::text::Tree;
use crate::trees::{balanced, caterpillar, join, leaf, perturbed, random_tree};

pub struct Family {
    pub name: &'static str,
    pub bodies: Bodies,
}

impl Family {
    pub fn job(&self) -> Vec<u8> {
        let [s, t, k] = self.bodies.texts();
        job(&s, &t, &k)
    }
}

pub fn short_labels(n: usize) -> Vec<Label> {
    (0..n).map(|i| format!("taxon{i:02}").into_bytes()).collect()
}

/// Labels as long as may be that differ in their last two bytes only, bare.
pub fn long_labels(n: usize) -> Vec<Label> {
    long_with(n, "Label_of_leaf.")
}

fn long_with(n: usize, words: &str) -> Vec<Label> {
    let head = cycled(words, LABEL - 2);
    (0..n).map(|i| format!("{head}{i:02}").into_bytes()).collect()
}

/// The same labels decoded.
pub fn long_decoded(n: usize) -> Vec<Label> {
    long_with(n, "Label of leaf.")
}

/// Labels like these that hold an underscore, and so stand in quotes wherever they are read or written.
pub fn long_quoted(n: usize) -> Vec<Label> {
    long_with(n, "Label_of leaf.").iter().map(|x| quoted(x)).collect()
}

/// Labels as long as may be that all have one slot where the engine's readers keep their marks (`trees::slot`), so that each is compared with
/// every one before it. The three letters at the end see to that.
pub fn one_slot(n: usize) -> Vec<Label> {
    let slot = |x: &str| x.bytes().fold(0, |n, b| (n * 139 + usize::from(b)) % 1024);
    let letters = || 'a'..='z';
    let ends: Vec<String> =
        letters().flat_map(|a| letters().flat_map(move |b| letters().map(move |c| format!("{a}{b}{c}")))).collect();
    let label = |i: usize| {
        let head = format!("{i:0>0$}", LABEL - 3);
        ends.iter().map(|end| format!("{head}{end}")).find(|x| slot(x) == 0).unwrap().into_bytes()
    };
    (0..n).map(label).collect()
}

/// Labels that stand in no tree of these ones, and differ from them in their last digit only: it becomes a letter.
pub fn strangers(xs: &[Label]) -> Vec<Label> {
    let mut ys = xs.to_vec();
    for y in &mut ys {
        *y.iter_mut().rfind(|b| b.is_ascii_digit()).unwrap() += b'a' - b'0';
    }
    ys
}

/// The three labels as a tree with the first two, or the first and the last, as its closer pair.
fn last_three(xs: &[Label], other: bool) -> Tree {
    let [x, y, z] = [&xs[0], &xs[1], &xs[2]].map(|x| leaf(x));
    if other {
        join(join(x, z), y)
    } else {
        join(join(x, y), z)
    }
}

/// The tree with a subtree in place of the leaf x.
fn put(t: &Tree, x: &Label, part: &Tree) -> Tree {
    match t {
        Tree::Leaf(y) if y == x => part.clone(),
        Tree::Leaf(_) => t.clone(),
        Tree::Node(a, b) => join(put(a, x, part), put(b, x, part)),
    }
}

/// All labels are required, and of all threes only the last one, in label order, has different closer pairs.
fn worst_eight(name: &'static str, rest: &Tree, xs: &[Label]) -> Family {
    let n = xs.len();
    let tree = |other| put(rest, &xs[n - 3], &last_three(&xs[n - 3..], other));
    Family { name, bodies: Bodies { first: tree(false), second: tree(true), required: xs.to_vec() } }
}

/// Every family over these labels, at least four of them and in label order.
pub fn families(r: &mut Random, xs: &[Label]) -> Vec<Family> {
    let n = xs.len();
    let mut back = xs.to_vec();
    back.reverse();
    let mut mixed = xs.to_vec();
    r.shuffle(&mut mixed);
    let mut exchanged = xs.to_vec();
    exchanged.chunks_mut(2).for_each(|pair| pair.reverse());
    let others = strangers(xs);
    let half: Vec<Label> = (0..n).map(|i| if i % 2 == 0 { &xs[i] } else { &others[i] }.clone()).collect();
    // the rest of the trees of number 8, its last label deepest
    let mut eight = xs[..n - 2].to_vec();
    eight.reverse();
    let random = random_tree(r, &mixed);
    let other = random_tree(r, xs);
    let near = perturbed(r, &random, 3);
    let up = caterpillar(xs);
    let eight_random = random_tree(r, &eight);
    let half = random_tree(r, &half);
    let others = random_tree(r, &others);
    let family = |name, first: &Tree, second: &Tree, required: &[Label]| Family {
        name,
        bodies: Bodies { first: first.clone(), second: second.clone(), required: required.to_vec() },
    };
    vec![
        family("random, random", &random, &other, &[]),
        family("random, nearly the same", &random, &near, &[]),
        family("random, the same", &random, &random, &[]),
        family("random, half of the labels shared", &random, &half, &[]),
        family("random, no label shared", &random, &others, &[]),
        family("balanced, shuffled balanced", &balanced(xs), &balanced(&mixed), &[]),
        family("caterpillar, its reverse", &up, &caterpillar(&back), &[]),
        family("caterpillar, the same", &up, &up, &[]),
        family("caterpillar, mirrored", &up, &up.mirrored(), &[]),
        family("caterpillar, random", &up, &random, &[]),
        family("random, caterpillar", &random, &up, &[]),
        family("caterpillar, shuffled caterpillar", &up, &caterpillar(&mixed), &[]),
        family("caterpillar, neighbours exchanged", &up, &caterpillar(&exchanged), &[]),
        family("random, the same, all required", &random, &random, &mixed),
        family("caterpillar, the same, all required", &up, &up, &back),
        worst_eight("number 8 at its worst, caterpillars", &caterpillar(&eight), xs),
        worst_eight("number 8 at its worst, mirrored caterpillars", &caterpillar(&eight).mirrored(), xs),
        worst_eight("number 8 at its worst, random", &eight_random, xs),
    ]
}

/// The families of as many leaves as may be, over each sort of labels, which is named.
pub fn all_families(r: &mut Random) -> Vec<(String, Vec<Family>)> {
    let short = families(r, &short_labels(LEAVES));
    let long = families(r, &long_labels(LEAVES));
    let mut mixed = families(r, &long_decoded(LEAVES));
    mixed.iter_mut().for_each(|f| f.bodies = f.bodies.spelled(r, [Form::Bare, Form::Quoted, Form::Quoted]));
    let quoted = families(r, &long_quoted(LEAVES));
    let one_slot = families(r, &one_slot(LEAVES));
    let mut capitals = families(r, &long_labels(LEAVES));
    capitals.iter_mut().for_each(|f| f.bodies.second = f.bodies.second.relabelled(&mut |x| x.to_ascii_uppercase()));
    vec![
        (String::new(), short),
        (format!(", labels of {LABEL} bytes"), long),
        (format!(", labels of {LABEL} bytes, the second tree's in quotes"), mixed),
        (format!(", labels of {LABEL} bytes in quotes"), quoted),
        (format!(", labels of {LABEL} bytes that share a slot"), one_slot),
        // under the first edition these trees share no label
        (format!(", labels of {LABEL} bytes, the second tree's in capitals"), capitals),
    ]
}

/// Each family as a job and as a strict one, under both editions.
pub fn family_jobs() -> Vec<Vec<u8>> {
    let all = all_families(&mut Random(80));
    let jobs = all.iter().flat_map(|(_, fs)| fs).flat_map(|f| [f.job(), strict(&f.job())]);
    jobs.flat_map(|j| [with_edition(SECOND, &j), j]).collect()
}
