//! The stored jobs with the line `pieces`: where leaves hang, in which order the lines come, how many and how long they get, and what such a
//! job is refused for.

use crate::agree::{common, first_clash, subsets, Label};
use crate::drawn::{damaged_quoted, labels, large_pieced, small_bodies, small_cased, small_pieced, small_quoted};
use crate::edition_jobs::greatest_cased;
use crate::families::{all_families, families, long_quoted, one_slot, short_labels, Family};
use crate::hanging::{evenly, every_tree, piece_families, turned};
use crate::job::{job, printed, strict, with_edition, with_pieces, EDITION_LINES, FIRST, SECOND};
use crate::jobs::{damaged, list, paper_jobs};
use crate::limits::{LEAVES, LINES, REQUIRED, TOTAL};
use crate::piece_contents::contents_jobs;
use crate::piece_rows::row_jobs;
use crate::random::Random;
use crate::spelling::recased;
use crate::text::Tree;
use crate::trees::{caterpillar, random_tree};

/// The rows of the base and of the other requests. With the line they have the same refusals, and the same records after the pieces.
fn former_rows() -> Vec<Vec<u8>> {
    [paper_jobs(), crate::strict::small_jobs(), crate::quoted_jobs::row_jobs(), crate::edition_jobs::row_jobs()].concat()
}

/// Every pair of trees over labels among these four, with every list on which they agree.
fn every_small(r: &mut Random) -> Vec<Vec<u8>> {
    let four: Vec<Label> = (b'a'..=b'd').map(|b| vec![b]).collect();
    let trees: Vec<Tree> = subsets(&four).flat_map(|xs| every_tree(&xs)).collect();
    let mut out = Vec::new();
    for (s, t) in trees.iter().flat_map(|s| trees.iter().map(move |t| (s, t))) {
        for mut k in subsets(&common(s, t)).filter(|k| first_clash(s, t, k).is_none()) {
            r.shuffle(&mut k);
            out.push(job(&turned(r, s).text(), &turned(r, t).text(), &list(&k)));
        }
    }
    // with none required, and with one or more
    assert_eq!(out.len(), 1369 + 6487);
    out
}

/// One leaf or label too many, in each body.
fn full_jobs() -> Vec<Vec<u8>> {
    let more = labels(LEAVES + 1);
    let tree = caterpillar(&more).text();
    vec![job(&tree, b"(", b","), job(b"a;", &tree, b","), job(b"(a,t0);", b"(t0,a);", &list(&more))]
}

/// Numbers of common leaves and of required ones, 1 at least: totals of one, two and three digits, and the greatest.
const COUNTS: [(usize, usize); 14] = [
    (9, 1), (10, 1), (11, 1), (LEAVES, 1), (8, 2), (9, 2), (10, 2), (75, 25), (76, 25), (77, 25), (LEAVES, REQUIRED - 1), (LEAVES, REQUIRED),
    (LEAVES, REQUIRED + 1), (LEAVES, 2),
];

fn total_jobs(r: &mut Random) -> Vec<Vec<u8>> {
    let mut out = Vec::new();
    for (n, k) in COUNTS {
        let [s, t, required] = evenly(r, &labels(n), k).texts();
        let made = job(&s, &t, &required);
        let total = n - k + (n - k).min(2 * k - 1);
        assert!(total <= TOTAL);
        assert!(printed(&with_pieces(&made)).starts_with(format!("pieces {total}\n").as_bytes()));
        out.push(made);
    }
    // with none required the total is the number of common leaves
    for n in [9, 10, 11, LEAVES] {
        let xs = labels(n);
        out.push(job(&random_tree(r, &xs).text(), &random_tree(r, &xs).text(), b""));
    }
    out
}

/// As many leaves of labels as long as may be, with as many lines as may be: no answer is longer. With this line of an edition, the second
/// tree and the list in other letters.
pub fn greatest_pieces(line: &str) -> Vec<u8> {
    let [s, t, k] = evenly(&mut Random(17), &long_quoted(LEAVES), REQUIRED).texts();
    let [t, k] = if line == SECOND { [t.to_ascii_uppercase(), k.to_ascii_lowercase()] } else { [t, k] };
    let made = with_pieces(&with_edition(line, &strict(&job(&s, &t, &k))));
    assert_eq!(printed(&made).len(), LINES);
    made
}

/// The job of a family under the first edition, and strict under the second.
fn two_states(plain: &[u8]) -> [Vec<u8>; 2] {
    [plain.to_vec(), with_edition(SECOND, &strict(plain))]
}

/// As many leaves as may be.
fn large_jobs(r: &mut Random) -> Vec<Vec<u8>> {
    let xs = short_labels(LEAVES);
    let all = [piece_families(r, &xs), families(r, &xs)];
    all.iter().flatten().flat_map(|f| two_states(&f.job())).collect()
}

/// The same over each sort of labels, with the line. They are not stored.
pub fn family_piece_jobs() -> Vec<Vec<u8>> {
    let mut r = Random(82);
    let mut all: Vec<Family> = all_families(&mut r).into_iter().flat_map(|(_, fs)| fs).collect();
    for xs in [short_labels(LEAVES), long_quoted(LEAVES), one_slot(LEAVES)] {
        all.extend(piece_families(&mut r, &xs));
    }
    let jobs = all.iter().flat_map(|f| two_states(&f.job()));
    jobs.map(|j| with_pieces(&j)).chain(EDITION_LINES.map(greatest_pieces)).collect()
}

/// Bodies drawn at random, mostly with required leaves on which the trees agree; some with damage.
fn drawn_bodies(r: &mut Random, large: bool) -> [Vec<u8>; 3] {
    let mut texts = match r.below(12) {
        _ if large => large_pieced(r),
        0 => small_bodies(r),
        1 => small_quoted(r),
        2 => small_cased(r),
        _ => small_pieced(r),
    };
    if r.below(16) == 0 {
        let body = r.below(3);
        texts[body] = damaged_quoted(r, &texts[body].clone());
    }
    texts
}

/// Their job with the line, strict or not. Under the second edition each body has letters of its own choice.
pub fn drawn_job(r: &mut Random, large: bool) -> Vec<u8> {
    let line = *r.pick(&["", FIRST, SECOND, SECOND]);
    let texts = drawn_bodies(r, large);
    let [s, t, k] = if line == SECOND { texts.map(|x| recased(r, &x)) } else { texts };
    let plain = job(&s, &t, &k);
    let plain = if r.below(6) == 0 { strict(&plain) } else { plain };
    let whole = with_pieces(&with_edition(line, &plain));
    if r.below(16) == 0 {
        damaged(r, &whole)
    } else {
        whole
    }
}

pub fn piece_jobs() -> Vec<Vec<u8>> {
    let mut r = Random(1717);
    let plain = [former_rows(), full_jobs(), every_small(&mut r), total_jobs(&mut r), large_jobs(&mut r)].concat();
    let mut out = row_jobs();
    out.extend(contents_jobs());
    out.extend(plain.iter().map(|j| with_pieces(j)));
    out.extend(EDITION_LINES.map(greatest_pieces));
    // no job that is answered has more bytes
    out.push(with_pieces(&greatest_cased()));
    out.extend((0..500).map(|_| drawn_job(&mut r, false)));
    out.extend((0..30).map(|_| drawn_job(&mut r, true)));
    out
}
