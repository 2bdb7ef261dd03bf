//! The stored jobs with a claim: those that pass, each reason against one, in the table's order, and the contents line of a claim.

use crate::agree::{common, first_clash, sorted, subsets, Label};
use crate::bodies::{read, Options};
use crate::claim_contents::{contents_jobs, whole_jobs};
use crate::claim_rows::row_jobs;
use crate::claims::{drawn_claim, last_largest, less_one};
use crate::drawn::{alike_bodies, damaged_quoted, labels, large_cased, large_quoted, small_bodies, small_cased, small_quoted};
use crate::edition::Edition;
use crate::families::{all_families, families, short_labels, Family};
use crate::fast::solve;
use crate::job::{claim_job, every_state, strict, with_edition, FIRST, SECOND};
use crate::jobs::list;
use crate::lengths::{self, greatest_bodies};
use crate::limits::{LABEL, LEAVES, LIST};
use crate::places::cut_lists;
use crate::quotes;
use crate::random::Random;
use crate::spelling::{quoted, recased, spelled, Form};
use crate::trees::{caterpillar, random_tree};

/// Two trees of four to six leaves, all shared or most of them, and up to three required labels, which mostly go together.
fn pair(r: &mut Random) -> [Vec<u8>; 3] {
    let n = 4 + r.below(3);
    let mut pool: Vec<Label> = (b'a'..=b'h').map(|b| vec![b]).collect();
    r.shuffle(&mut pool);
    let s = random_tree(r, &pool[..n]);
    let from = r.below(3);
    let mut others = pool[from..from + n].to_vec();
    r.shuffle(&mut others);
    let t = random_tree(r, &others);
    let all = common(&s, &t);
    let k = loop {
        let mut k = if r.below(9) == 0 { pool.clone() } else { all.clone() };
        r.shuffle(&mut k);
        k.truncate(r.below(4));
        // such as disagree are told 8 whatever is claimed
        if r.below(9) == 0 || k.iter().any(|x| !all.contains(x)) || first_clash(&s, &t, &sorted(&k)).is_none() {
            break k;
        }
    };
    [s.text(), t.text(), list(&k)]
}

/// Every set of the common leaves as a claim; under the second edition each body has letters of its own choice.
fn every_claim(r: &mut Random, second: bool) -> Vec<Vec<u8>> {
    let texts = pair(r);
    let found = read(Options { strict: false, edition: Edition::First }, texts.each_ref().map(|x| &x[..])).unwrap();
    let [s, t, k] = if second { texts.map(|x| recased(r, &x)) } else { texts };
    let all = common(&found.s, &found.t);
    let claims = subsets(&all).map(|mut set| {
        r.shuffle(&mut set);
        let tokens: Vec<Vec<u8>> = set.iter().map(|x| spelled(r, Form::Either, x)).collect();
        let claim = if second { recased(r, &list(&tokens)) } else { list(&set) };
        let whole = claim_job(&s, &t, &k, &claim);
        if second {
            with_edition(SECOND, &whole)
        } else {
            whole
        }
    });
    claims.collect()
}

/// Texts of lists as claims, behind trees that hold most of their labels.
fn text_jobs() -> Vec<Vec<u8>> {
    let tree = b"(((a,b),(a_b,'a_b')),((c,_),('_','c d')));";
    let other = b"((('a','c'),('a b','a_b')),(('b',' '),('_',c_d)));";
    let texts = [quotes::list_texts(), quotes::full_lists(), lengths::list_texts()].concat();
    let mut out: Vec<Vec<u8>> = texts.iter().map(|x| claim_job(tree, other, b"'a'", x)).collect();
    // every byte value, alone and after a label
    for b in 0..=255u8 {
        out.push(claim_job(b"(a,b);", b"(b,a);", b"a", &[b]));
        out.push(claim_job(b"(a,b);", b"(b,a);", b"b", &[b'a', b]));
    }
    // places of one to four digits
    out.extend(cut_lists().iter().map(|x| claim_job(b"a;", b"a;", b"a", x)));
    out
}

/// Claims of as many labels as may be, and of one more.
fn full_claims() -> Vec<Vec<u8>> {
    let xs = labels(LEAVES);
    let (all, most) = (list(&xs), list(&xs[..LIST - 1]));
    let tree = caterpillar(&xs).text();
    let tails: [&[u8]; 7] = [b"", b",", b",t80", b",t0", b",''", b",T0", b";"];
    let mut out: Vec<Vec<u8>> = tails.iter().flat_map(|x| every_state(&claim_job(&tree, &tree, b"", &[&all[..], x].concat()))).collect();
    for claim in [&most[..], &[&most[..], b",T0"].concat(), &[&most[..], b",'t0'"].concat(), &all.to_ascii_uppercase()] {
        out.extend([FIRST, SECOND].map(|line| with_edition(line, &claim_job(&tree, &tree, b"t79,t0", claim))));
    }
    // behind trees of one leaf, and after a list that lacks and one that cannot be read
    out.extend([&all[..], &[&all[..], b",t80"].concat()].map(|claim| claim_job(b"a;", b"a;", b"a", claim)));
    out.extend([&b"z"[..], b"z,"].map(|k| claim_job(b"a;", b"a;", k, &[&all[..], b",t80"].concat())));
    out
}

/// All labels are required, in another order, and the claim lacks one of them: 13 at places of one to three digits.
fn missing_jobs(r: &mut Random) -> Vec<Vec<u8>> {
    let xs = labels(LEAVES);
    let tree = random_tree(r, &xs);
    let mut required = xs.clone();
    r.shuffle(&mut required);
    let mut out = Vec::new();
    for i in [0, 1, 2, 3, 24, 25, 26, 40, LIST - 2, LIST - 1] {
        let mut claim = required.clone();
        claim.remove(i);
        r.shuffle(&mut claim);
        out.push(claim_job(&tree.text(), &tree.mirrored().text(), &list(&required), &list(&claim)));
    }
    out
}

/// Labels of each length in a claim, as long as may be and longer.
fn long_jobs() -> Vec<Vec<u8>> {
    let [full, over] = [LABEL, LABEL + 1].map(|n| vec![b'a'; n]);
    let tree = [&full[..], b";"].concat();
    let tokens = [full.clone(), quoted(&full), over.clone(), quoted(&over)];
    let claims = [&tokens[..], &[&over, &quoted(&over)].map(|x| [b"b,", &x[..]].concat())].concat();
    let upper = claims.iter().map(|x| x.to_ascii_uppercase());
    claims.iter().cloned().chain(upper).flat_map(|c| every_state(&claim_job(&tree, &tree, &quoted(&full), &c))).collect()
}

/// As many labels of as many bytes as may be in each body: no job whose claim passes is longer. With this line of an edition, the labels of
/// all bodies but the first tree in other letters.
pub fn greatest_claim(line: &str) -> Vec<u8> {
    let [s, t, k] = greatest_bodies();
    let [t, k, c] = if line == SECOND { [t.to_ascii_uppercase(), k.to_ascii_uppercase(), k.to_ascii_lowercase()] } else { [t, k.clone(), k] };
    with_edition(line, &strict(&claim_job(&s, &t, &k, &c)))
}

/// A family's jobs with claims: the largest set, the last one of those that are tied, the set less one leaf, and all common leaves. Where
/// the required labels clash, only the last.
fn family_claims(r: &mut Random, f: &Family, edition: Edition) -> Vec<Vec<u8>> {
    let texts = f.bodies.texts();
    let read = read(Options { strict: false, edition }, texts.each_ref().map(|x| &x[..])).unwrap();
    let mut claims = vec![common(&read.s, &read.t)];
    if let (Some(first), Some(last)) = (solve(&read.s, &read.t, &read.k.labels), last_largest(&read)) {
        claims.extend([less_one(r, &first), first, last]);
    }
    let [s, t, k] = texts;
    let text = |set: &Vec<Label>| list(&set.iter().map(|x| spelled(r, Form::Either, x)).collect::<Vec<_>>());
    claims.iter().map(text).map(|c| claim_job(&s, &t, &k, &c)).collect()
}

/// Claims about as many leaves as may be.
fn large_claims(r: &mut Random) -> Vec<Vec<u8>> {
    let all = families(r, &short_labels(LEAVES));
    all.iter().flat_map(|f| family_claims(r, f, Edition::First)).collect()
}

/// The same over each sort of labels, under both editions. They are not stored.
pub fn family_claim_jobs() -> Vec<Vec<u8>> {
    let mut r = Random(81);
    let all = all_families(&mut r);
    let mut out = Vec::new();
    for f in all.iter().flat_map(|(_, fs)| fs) {
        out.extend(family_claims(&mut r, f, Edition::First));
        out.extend(family_claims(&mut r, f, Edition::Second).iter().map(|j| with_edition(SECOND, &strict(j))));
    }
    out
}

/// Bodies drawn at random with claims, in any state of the contents, some with damage.
fn drawn_jobs(r: &mut Random) -> Vec<Vec<u8>> {
    let mut out = Vec::new();
    for i in 0..700 {
        let mut texts = match i % 5 {
            0 => small_bodies(r),
            1 => alike_bodies(r, 8),
            2 => small_quoted(r),
            _ => small_cased(r),
        };
        if r.below(12) == 0 {
            let body = r.below(3);
            texts[body] = damaged_quoted(r, &texts[body].clone());
        }
        out.push(drawn_job(r, texts));
    }
    for i in 0..30 {
        let texts = if i % 2 == 0 { large_quoted(r) } else { large_cased(r) };
        out.push(drawn_job(r, texts));
    }
    for _ in 0..100 {
        let texts = small_bodies(r);
        let whole = drawn_job(r, texts);
        out.push(damaged_claim(r, &whole));
    }
    out
}

/// A job with a few bytes changed, dropped or added.
pub fn damaged_claim(r: &mut Random, job: &[u8]) -> Vec<u8> {
    r.damaged(job, b"(),;ab_-. '\n\x00\xff0123STKC")
}

/// A claim drawn for these bodies, and their job, strict or not and under either edition.
pub fn drawn_job(r: &mut Random, texts: [Vec<u8>; 3]) -> Vec<u8> {
    let edition = if r.below(2) == 0 { Edition::First } else { Edition::Second };
    let claim = drawn_claim(r, Options { strict: false, edition }, texts.each_ref().map(|x| &x[..]));
    let [s, t, k] = texts;
    let whole = claim_job(&s, &t, &k, &claim);
    let whole = if r.below(3) == 0 { strict(&whole) } else { whole };
    match edition {
        Edition::Second => with_edition(SECOND, &whole),
        Edition::First if r.below(3) == 0 => with_edition(FIRST, &whole),
        Edition::First => whole,
    }
}

pub fn claim_jobs() -> Vec<Vec<u8>> {
    let mut r = Random(1616);
    let mut out = row_jobs();
    for i in 0..60 {
        out.extend(every_claim(&mut r, i % 3 == 2));
    }
    out.extend(text_jobs());
    out.extend(full_claims());
    out.extend(missing_jobs(&mut r));
    out.extend(long_jobs());
    out.extend(contents_jobs());
    out.extend(whole_jobs());
    out.extend(["", FIRST, SECOND].map(greatest_claim));
    out.extend(large_claims(&mut r));
    out.extend(drawn_jobs(&mut r));
    out
}
