//! Bodies drawn at random.

use crate::agree::Label;
use crate::hanging::pieced_over;
use crate::limits::{LABEL, LEAVES};
use crate::random::Random;
use crate::spelling::{confusable, cycled, forms, lettered, recased, Bodies};
use crate::trees::{caterpillar, perturbed, random_tree};

pub fn labels(n: usize) -> Vec<Label> {
    (0..n).map(|i| format!("t{i}").into_bytes()).collect()
}

/// Names that begin alike, differ in case only, or are as long as may be, as they stand in a text.
fn names() -> Vec<Label> {
    let long = cycled("abcdefghijklmnop", LABEL);
    ["a", "a-", "aa", "A", "_", "-", "Z9", "z", &long, &long[..LABEL - 1], "0", "b.c"].iter().map(|x| x.as_bytes().to_vec()).collect()
}

/// Two small trees over some of the names, and a list.
pub fn small_bodies(r: &mut Random) -> [Vec<u8>; 3] {
    let pool = if r.below(3) == 0 { names() } else { labels(12) };
    small_over(r, pool).texts()
}

fn small_over(r: &mut Random, mut pool: Vec<Label>) -> Bodies {
    r.shuffle(&mut pool);
    let n = 1 + r.below(9);
    let s = random_tree(r, &pool[..n]);
    let t = match r.below(3) {
        0 => {
            let swaps = r.below(4);
            perturbed(r, &s, swaps)
        }
        1 => {
            r.shuffle(&mut pool[..n]);
            random_tree(r, &pool[..n])
        }
        _ => {
            let from = r.below(3);
            let to = from + 1 + r.below(9);
            let mut some = pool[from..to.min(pool.len())].to_vec();
            r.shuffle(&mut some);
            random_tree(r, &some)
        }
    };
    let mut k = if r.below(4) == 0 { pool.clone() } else { s.leaves() };
    r.shuffle(&mut k);
    let m = r.below(k.len().min(5) + 1);
    k.truncate(m);
    Bodies { first: s, second: t, required: k }
}

/// Two trees of up to 80 leaves, some of them shared, and a list that is mostly short.
pub fn large_bodies(r: &mut Random) -> [Vec<u8>; 3] {
    large_over(r, labels(100)).texts()
}

fn large_over(r: &mut Random, mut pool: Vec<Label>) -> Bodies {
    r.shuffle(&mut pool);
    let n = 1 + r.below(LEAVES);
    let from = if r.below(2) == 0 { 0 } else { r.below(pool.len() - n + 1) };
    let some = pool[from..from + n].to_vec();
    let s = if r.below(3) == 0 { caterpillar(&pool[..n]) } else { random_tree(r, &pool[..n]) };
    let t = match r.below(4) {
        0 => {
            let swaps = r.below(6);
            perturbed(r, &s, swaps)
        }
        1 => caterpillar(&some),
        _ => random_tree(r, &some),
    };
    let mut k = s.leaves();
    r.shuffle(&mut k);
    let m = if r.below(8) == 0 { n } else { r.below(n.min(4) + 1) };
    k.truncate(m);
    Bodies { first: s, second: t, required: k }
}

/// Two trees over the same labels, at most so many; or one or both over labels of which one was exchanged, added or dropped. And a short
/// list.
pub fn alike_bodies(r: &mut Random, most: usize) -> [Vec<u8>; 3] {
    let pool = if most + 2 <= names().len() && r.below(3) == 0 { names() } else { labels(most + 2) };
    alike_over(r, pool, most).texts()
}

fn alike_over(r: &mut Random, mut pool: Vec<Label>, most: usize) -> Bodies {
    r.shuffle(&mut pool);
    let n = 1 + r.below(most);
    let tree = |r: &mut Random, other: &Label| {
        let mut xs = pool[..n].to_vec();
        let i = r.below(n);
        match r.below(9) {
            0 => xs[i] = other.clone(),
            1 if n < most => xs.push(other.clone()),
            2 if n > 1 => drop(xs.remove(i)),
            _ => (),
        }
        random_tree(r, &xs)
    };
    let (first, second) = (tree(r, &pool[n]), tree(r, &pool[n + 1]));
    let k = r.below(n.min(4) + 1);
    Bodies { first, second, required: pool[..k].to_vec() }
}

/// So many labels, decoded, with blanks and underscores here and there.
fn spaced(r: &mut Random, n: usize) -> Vec<Label> {
    let joints = [" ", "_", "-", ".", "", "  ", "_ ", "0", "Z"];
    // room is left for `a`, a joint and a number
    let long = [" bcdefghi", "_bcdefghi"].map(|x| cycled(x, LABEL - 5));
    let ends = ["", "", "", " ", "_", "-", &long[0], &long[1]];
    (0..n).map(|i| format!("a{}{i}{}", r.pick(&joints), r.pick(&ends)).into_bytes()).collect()
}

/// Labels as long as may be, decoded, that are alike but for one byte.
pub fn one_byte_apart(n: usize) -> Vec<Label> {
    let label = |i: usize| {
        let mut x = vec![b'a'; LABEL];
        x[i % LABEL] = b"b _-A"[i / LABEL];
        x
    };
    (0..n).map(label).collect()
}

/// Bodies over such labels, which stand bare or in quotes: small ones, and those of up to 80 leaves.
pub fn long_bodies(r: &mut Random, large: bool) -> [Vec<u8>; 3] {
    let pool = one_byte_apart(4 * LABEL);
    let bodies = if large { large_over(r, pool) } else { small_over(r, pool) };
    let forms = forms(r);
    bodies.spelled(r, forms).texts()
}

/// Small bodies over such labels, which stand bare or in quotes.
fn small_spelled(r: &mut Random, pool: Vec<Label>) -> [Vec<u8>; 3] {
    let bodies = if r.below(2) == 0 { small_over(r, pool) } else { alike_over(r, pool, 9) };
    let forms = forms(r);
    bodies.spelled(r, forms).texts()
}

/// Small bodies whose labels have blanks and underscores.
pub fn small_quoted(r: &mut Random) -> [Vec<u8>; 3] {
    small_spelled(r, confusable())
}

/// The same of up to 80 leaves, over labels that are drawn.
fn large_spelled(r: &mut Random, labels: fn(&mut Random, usize) -> Vec<Label>) -> [Vec<u8>; 3] {
    let bodies = if r.below(2) == 0 {
        let pool = labels(r, 100);
        large_over(r, pool)
    } else {
        let pool = labels(r, LEAVES + 2);
        alike_over(r, pool, LEAVES)
    };
    let forms = forms(r);
    bodies.spelled(r, forms).texts()
}

/// Bodies of up to 80 leaves whose labels have blanks and underscores.
pub fn large_quoted(r: &mut Random) -> [Vec<u8>; 3] {
    large_spelled(r, spaced)
}

/// Small bodies of capital and small letters: a label is the same in all three, or each body has letters of its own choice. Sometimes two
/// labels are equal under the second edition only.
pub fn small_cased(r: &mut Random) -> [Vec<u8>; 3] {
    let mut pool: Vec<Label> = lettered().iter().map(|x| recased(r, x)).collect();
    if r.below(4) == 0 {
        pool.truncate(11);
        let again = recased(r, &pool[0]);
        pool.push(again);
    }
    let texts = small_spelled(r, pool);
    sometimes_recased(r, texts)
}

/// Bodies of up to 80 leaves like these, the labels of each different under both editions.
pub fn large_cased(r: &mut Random) -> [Vec<u8>; 3] {
    let texts = large_spelled(r, |r, n| spaced(r, n).iter().map(|x| recased(r, x)).collect());
    sometimes_recased(r, texts)
}

fn sometimes_recased(r: &mut Random, texts: [Vec<u8>; 3]) -> [Vec<u8>; 3] {
    if r.below(3) == 0 {
        return texts;
    }
    texts.map(|x| recased(r, &x))
}

/// Small bodies whose trees agree on the required labels, with other leaves between them.
pub fn small_pieced(r: &mut Random) -> [Vec<u8>; 3] {
    let pool = if r.below(2) == 0 { labels(12) } else { lettered() };
    pieced_spelled(r, pool, 10)
}

/// The same of up to 80 leaves.
pub fn large_pieced(r: &mut Random) -> [Vec<u8>; 3] {
    let pool = spaced(r, LEAVES);
    pieced_spelled(r, pool, LEAVES)
}

fn pieced_spelled(r: &mut Random, pool: Vec<Label>, most: usize) -> [Vec<u8>; 3] {
    let bodies = pieced_over(r, pool, most);
    let forms = forms(r);
    bodies.spelled(r, forms).texts()
}

/// A text with a few bytes changed, dropped or added, many of them quotes, blanks and underscores.
pub fn damaged_quoted(r: &mut Random, text: &[u8]) -> Vec<u8> {
    r.damaged(text, b"'''''  __ab(),;-\n\t")
}
