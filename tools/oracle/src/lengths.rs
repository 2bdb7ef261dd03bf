//! Stored texts and jobs about the lengths of labels, of bodies and of whole jobs: around each limit, around the limits that were smaller once
//! (labels of 16 bytes, jobs of 8,192, lengths of four digits), and as much of everything as may be.

use crate::agree::Label;
use crate::drawn::{long_bodies, one_byte_apart};
use crate::families::long_quoted;
use crate::job::{job, printed, strict};
use crate::jobs::{bytes, filled, list};
use crate::limits::{JOB, LABEL, LEAVES, LIST, RECORD};
use crate::random::Random;
use crate::spelling::{cycled, quoted};
use crate::text::shown;
use crate::trees::{caterpillar, join, leaf};

const FORMER_LABEL: usize = 16;
const FORMER_JOB: usize = 8192;

/// Lengths of labels: each limit and its neighbours.
fn sizes() -> Vec<usize> {
    [FORMER_LABEL, LABEL].iter().flat_map(|&n| n - 1..=n + 2).collect()
}

/// Labels of these sizes, bare and in quotes, as they stand in a text.
fn tokens() -> Vec<Vec<u8>> {
    let mut out = Vec::new();
    for n in sizes() {
        out.extend(["a", "_", "Z9.-"].map(|x| cycled(x, n).into_bytes()));
        out.extend(["a", " ", "_", "b _"].map(|x| quoted(cycled(x, n).as_bytes())));
    }
    out
}

/// Pairs of labels of one size that are equal, or differ in their last byte.
fn pairs() -> Vec<[Vec<u8>; 2]> {
    let mut out = Vec::new();
    for n in sizes() {
        let [x, y] = [b'a', b' '].map(|b| [&vec![b'a'; n - 1][..], &[b]].concat());
        out.extend([[shown(&y), quoted(&y)], [shown(&x), shown(&y)], [quoted(&y), quoted(&x)]]);
    }
    out
}

/// Three labels as long as may be; the first two differ in one byte only, and each byte has its turn.
fn threes() -> Vec<[Label; 3]> {
    one_byte_apart(4 * LABEL).into_iter().map(|x| [x, vec![b'a'; LABEL], vec![b'.'; LABEL]]).collect()
}

/// A tree of one leaf, and one whose first two leaves are closer.
pub fn one(x: &[u8]) -> Vec<u8> {
    leaf(x).text()
}

pub fn closer(x: &[u8], y: &[u8], z: &[u8]) -> Vec<u8> {
    join(join(leaf(x), leaf(y)), leaf(z)).text()
}

pub fn tree_texts() -> Vec<Vec<u8>> {
    let mut out: Vec<Vec<u8>> = tokens().iter().flat_map(|x| [one(x), closer(b"b", x, b"a")]).collect();
    out.extend(pairs().iter().map(|[x, y]| join(leaf(x), leaf(y)).text()));
    for xs in threes() {
        let [x, y, z] = xs.each_ref().map(|x| shown(x));
        out.extend([closer(&x, &y, &z), closer(&quoted(&xs[1]), &z, &x)]);
    }
    out
}

pub fn list_texts() -> Vec<Vec<u8>> {
    let mut out = tokens();
    out.extend(tokens().iter().map(|x| [b"b,", &x[..], b",a"].concat()));
    out.extend(pairs().iter().map(|pair| pair.join(&b","[..])));
    out
}

/// Labels of each size in each body.
fn label_jobs() -> Vec<Vec<u8>> {
    let mut out = Vec::new();
    for x in tokens() {
        let tree = one(&x);
        out.extend([job(&tree, b"a;", b""), job(b"a;", &tree, b""), job(b"a;", b"a;", &x), job(&tree, &tree, &x)]);
        out.push(strict(&job(&tree, b"(a,b);", b",")));
    }
    for xs in threes() {
        let [x, y, z] = xs.each_ref().map(|x| shown(x));
        let s = closer(&x, &y, &z);
        let t = closer(&quoted(&xs[0]), &z, &quoted(&xs[1]));
        // a tie, one label required, 8 with its three labels, and 12 for labels that differ in that byte only
        out.extend([job(&s, &t, b""), job(&s, &t, &quoted(&xs[1])), job(&t, &s, &list(&[y.clone(), z, x.clone()]))]);
        out.push(strict(&job(&one(&x), &one(&y), b"")));
    }
    out
}

/// Contents with lengths of as many digits as may be, and of one more.
fn digit_jobs() -> Vec<Vec<u8>> {
    let mut out = Vec::new();
    for n in [9_999, 10_000] {
        for (i, bodies) in [[&b"(b,"[..], b"a;", b""], [b"a;", b"(b,", b""], [b"a;", b"a;", b"b,"]].into_iter().enumerate() {
            let mut bodies = bodies.map(|x| x.to_vec());
            bodies[i].resize(n, b'a');
            let [s, t, k] = bodies;
            out.push(job(&s, &t, &k));
        }
    }
    // a zero in front, a digit too many, a sum that is not right
    for digits in ["00002", "000002", "0000000002", "10002", "99999", "100000", "100002", "999999", "0x002", "2e000", "16360"] {
        let heads = ["S #\nT 2\nK 1\n\n", "S 2\nT #\nK 1\n\n", "S 2\nT 2\nK #\n\n"];
        out.extend(heads.map(|x| bytes(&format!("{}a;a;a", x.replace('#', digits)))));
    }
    out
}

/// Jobs around each limit, of blanks and with contents that are right, the line `strict` counted.
fn whole_jobs() -> Vec<Vec<u8>> {
    let line = strict(b"").len();
    let mut out = Vec::new();
    for n in [FORMER_JOB, FORMER_JOB + 1, JOB - 1, JOB, JOB + 1] {
        out.push(vec![b' '; n]);
    }
    let bodies: [&[u8]; 3] = [b"(a,b);", b"(b,a);", b"a"];
    out.extend((0..3).map(|body| filled(JOB, bodies, body, b"a")));
    out.extend([JOB, JOB + 1].map(|n| strict(&filled(n - line, bodies, 2, b","))));
    out
}

/// As many labels of as many bytes as may be in each body, all in quotes and with an underscore.
pub fn greatest_bodies() -> [Vec<u8>; 3] {
    let up = caterpillar(&long_quoted(LEAVES));
    [up.text(), up.mirrored().text(), list(&long_quoted(LIST))]
}

/// Their job: no other that is answered is longer, but for the lines `strict` and of an edition, and no answer.
pub fn greatest() -> Vec<u8> {
    let [s, t, k] = greatest_bodies();
    let made = job(&s, &t, &k);
    assert_eq!(printed(&made).len(), RECORD);
    made
}

/// The same in a job of just so many bytes, by a list that goes on after its last label.
fn greatest_filled(n: usize) -> Vec<u8> {
    let [s, t, k] = greatest_bodies();
    filled(n, [&s, &t, &k], 2, b",'a_ b'")
}

fn greatest_jobs() -> Vec<Vec<u8>> {
    vec![greatest(), strict(&greatest()), greatest_filled(JOB), greatest_filled(JOB + 1)]
}

pub fn length_jobs() -> Vec<Vec<u8>> {
    let mut r = Random(14);
    let mut out = label_jobs();
    out.extend(digit_jobs());
    out.extend(whole_jobs());
    out.extend(greatest_jobs());
    for i in 0..230 {
        let [s, t, k] = long_bodies(&mut r, i % 23 == 0);
        let plain = job(&s, &t, &k);
        out.push(if i % 3 == 0 { strict(&plain) } else { plain });
    }
    out
}
