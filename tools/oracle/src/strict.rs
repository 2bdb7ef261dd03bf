//! The stored jobs about the contents line `strict`: trees with equal and with unequal leaf sets, and the line where it may not stand.

use crate::agree::{restrict, Label};
use crate::drawn::{alike_bodies, labels};
use crate::families::{long_labels, strangers};
use crate::job::{job, strict};
use crate::jobs::{damaged, damaged_bodies, filled, headed, list, small_job, spoilt, P, Q, R};
use crate::limits::{JOB, LABEL, LEAVES};
use crate::random::Random;
use crate::text::Tree;
use crate::trees::{caterpillar, join, leaf, random_tree};

/// Each as a job without the line, with it, and with it and the trees exchanged.
pub fn small_jobs() -> Vec<Vec<u8>> {
    let over = "a".repeat(LABEL + 1);
    let rows = [
        // equal leaf sets: the answers and refusals of the job without the line
        ("((a,b),(c,d));", "((a,c),(b,d));", "a"),
        (P, P, ""),
        (P, Q, ""),
        (P, Q, "c"),
        (P, Q, "a,b,c"),
        (P, R, "d,e"),
        (P, R, "e,d,c,b,a"),
        (P, "(e,(d,(c,(b,a))));", "e"),
        (P, "((e,c),(d,(b,a)));", ""),
        ("a;", "a;", ""),
        ("a;", "a;", "a"),
        ("(a,b);", "(b,a);", "b,a"),
        ("(a,b);", "(b,a);", "b,z"),
        ("((A,a),(a-,aa));", "((aa,A),(a,a-));", ""),
        // one leaf too many
        ("((a,b),x);", "(a,b);", ""),
        ("((a,x),b);", "(a,b);", "a"),
        ("((x,a),b);", "(b,a);", "b,a"),
        // one in each tree: the first tree's goes first, also where the other's place is smaller
        ("((a,b),x);", "((a,b),y);", ""),
        ("((a,b),x);", "((y,a),b);", ""),
        ("((a,b),(c,x));", "((y,b),(c,a));", "a"),
        ("((a,b),(c,x));", "((a,b),(c,y));", ""),
        // labels that begin alike, or differ in case only
        ("(ab,abc);", "(ab,abd);", ""),
        ("(ab,abc);", "(abc,abcd);", ""),
        ("(t1,(t10,t2));", "((t1,t2),t11);", ""),
        ("((a,b),aa);", "((b,a),a-);", ""),
        ("(A,b);", "(a,b);", "b"),
        ("(abcdefghijklmnop,a);", "(a,abcdefghijklmnoq);", ""),
        // several: first in the text, not in label order, nor by depth
        ("(z,(y,x));", "a;", ""),
        ("((c,z),(y,a));", "(a,c);", ""),
        ("((c,(z,b)),(y,a));", "(a,c);", "c"),
        ("(((q,r),z),(b,a));", "((b,p),a);", ""),
        ("((a,b),(y,x));", "((b,a),(w,z));", ""),
        ("(a,((d,c),b));", "((b,a),(f,e));", "a,b"),
        // no leaf shared
        ("a;", "b;", ""),
        ("a;", "b;", "a"),
        ("(a,b);", "(c,d);", ""),
        ("(b,a);", "((c,d),e);", "b"),
        ("a;", "(a,b);", "a"),
        ("a;", "(b,a);", "b"),
        // a tree that cannot be read goes before 12, whatever the leaf sets are
        ("(a,b)", "(a,b);", ""),
        ("(a,b)", "(a,c);", ""),
        ("(a,b c);", "(a,b);", ""),
        ("(a,a);", "(a,b);", "a,"),
        ("(a,x);", "(a,a);", ""),
        ("(a,x);", "(a,b),", ",,"),
        ("(a,b);", "(a,b)", ""),
        ("(a,x);", &over, "a"),
        ("", "a;", ""),
        ("a;", "", ""),
        ("", "", ""),
        // a list that cannot be read goes after 12
        ("(a,b);", "(b,a);", "a,"),
        ("(a,b);", "(b,c);", "a,"),
        ("(a,b);", "(b,a);", "a,a"),
        ("(a,b);", "(b,c);", "b,b"),
        ("(a,b);", "(b,a);", "a b"),
        ("(a,b);", "((b,a),c);", "a b"),
        ("(a,b);", "(b,a);", &over),
        ("((a,b),c);", "(b,a);", &over),
        // so do 6, 7 and 8
        ("(a,b);", "(b,c);", "a"),
        ("(a,b);", "(b,c);", "c"),
        ("(a,b);", "(b,c);", "b,a,c"),
        ("(a,b);", "(b,c);", "z"),
        ("((a,b),c);", "((a,c),b);", "a,b,c"),
        ("(((a,b),c),x);", "((a,c),b);", "a,b,c"),
        ("((a,b),c);", "(((a,c),b),x);", "c,b,a"),
    ];
    let texts = rows.map(|(s, t, k)| [s, t, k].map(str::as_bytes));
    texts.iter().flat_map(|[s, t, k]| [job(s, t, k), strict(&job(s, t, k)), strict(&job(t, s, k))]).collect()
}

/// The line where it may stand and where it may not, before equal and before unequal leaf sets.
fn contents_jobs() -> Vec<Vec<u8>> {
    // in front of the lengths
    let fronts = [
        "strict\n", "strict\nstrict\n", "Strict\n", "STRICT\n", "strict \n", " strict\n", "strict\r\n", "strict\r", "stric\n", "strictt\n", "strict",
        "strict ", "strict 1\n", "strict\n\n", "\nstrict\n", "strict\n ", "strict\nloose\n",
    ];
    // behind them, and before contents that break their rules; last as the first tree's bytes
    let heads = [
        "S 2\nstrict\nT 2\nK 1\n\n", "S 2\nT 2\nstrict\nK 1\n\n", "S 2\nT 2\nK 1\nstrict\n\n", "S 2\nT 2\nK 1\n\nstrict\n",
        "strict\nS 2\nstrict\nT 2\nK 1\n\n", "strict\nS 2\nT 2\nK 1\nstrict\n\n", "strict\nS 02\nT 2\nK 1\n\n", "strict\nT 2\nS 2\nK 1\n\n",
        "strict\nT 2\nK 1\n\n", "strict\nS 2\nT 2\nK 1\n", "strict\nS 2\nT 2\nK 1\n\n\n", "strict\nS 2\nT 2\nK 2\n\n", "strict\nS 2\nT 1\nK 1\n\n",
        "strict\nS 3\nT 1\nK 1\n\n", "strict\nS 0\nT 4\nK 1\n\n", "strict\nS 4\nT 0\nK 1\n\n", "S 9\nT 2\nK 1\n\nstrict\n",
    ];
    let mut out = headed(&fronts, &heads, ["a;a;a", "a;b;a"]);
    let line = strict(b"").len();
    out.extend(spoilt(&strict(&job(b"(a,b);", b"(b,a);", b"a")), line));
    // just as many bytes as a job may have, the line counted, and one more
    for (n, second) in [(JOB, &b"((a,c),(b,d));"[..]), (JOB, b"(d,b);"), (JOB + 1, b"(d,b);")] {
        out.push(strict(&filled(n - line, [b"((a,b),(c,d));", second, b""], 2, b"a")));
    }
    out
}

/// The tree with another label on the last leaf of its text.
fn ending(t: &Tree, x: &Label) -> Tree {
    match t {
        Tree::Leaf(_) => leaf(x),
        Tree::Node(a, b) => join((**a).clone(), ending(b, x)),
    }
}

/// The tree without the leaf that is the last in the other's text.
fn without_last(t: &Tree, other: &Tree) -> Tree {
    let mut xs = other.leaves();
    xs.pop();
    restrict(t, &xs).unwrap()
}

/// As many leaves as may be: the same in both trees, or one at the very end of a text that the other tree lacks.
fn large_jobs(r: &mut Random) -> Vec<Vec<u8>> {
    let mut out = Vec::new();
    for (xs, random) in [(labels(LEAVES), true), (labels(LEAVES), false), (long_labels(LEAVES), false)] {
        let mut mixed = xs.clone();
        r.shuffle(&mut mixed);
        let s = if random { random_tree(r, &mixed) } else { caterpillar(&xs) };
        let t = if random { random_tree(r, &xs) } else { caterpillar(&mixed) };
        let others = strangers(&xs);
        let pairs = [
            (s.clone(), t.clone()),
            (s.clone(), without_last(&t, &s)),
            (without_last(&s, &t), t.clone()),
            (ending(&s, &others[0]), t.clone()),
            (s.clone(), ending(&t, &others[1])),
            (ending(&s, &others[0]), ending(&t, &others[1])),
        ];
        out.extend(pairs.iter().map(|(s, t)| strict(&job(&s.text(), &t.text(), &list(&mixed[..2])))));
    }
    out
}

pub fn strict_jobs() -> Vec<Vec<u8>> {
    let mut r = Random(11);
    let mut out = small_jobs();
    out.extend(contents_jobs());
    out.extend(large_jobs(&mut r));
    for _ in 0..300 {
        let [s, t, k] = alike_bodies(&mut r, 8);
        let plain = job(&s, &t, &k);
        out.push(strict(&plain));
        if r.below(5) == 0 {
            out.push(damaged(&mut r, &strict(&plain)));
        }
        out.push(plain);
    }
    for _ in 0..100 {
        out.push(strict(&small_job(&mut r)));
        out.push(strict(&damaged_bodies(&mut r)));
    }
    out
}
