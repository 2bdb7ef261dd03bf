//! The stored stream of jobs: each is its length as two bytes and the job.

use crate::agree::Label;
use crate::claim_jobs::claim_jobs;
use crate::drawn::{labels, small_bodies};
use crate::edition_jobs::{edition_jobs, otherwise};
use crate::job::{job, job_of, printed};
use crate::lengths::length_jobs;
use crate::limits::{DIGITS, JOB, LEAVES, LIST};
use crate::piece_jobs::piece_jobs;
use crate::places::place_jobs;
use crate::quoted_jobs::quoted_jobs;
use crate::random::Random;
use crate::strict::strict_jobs;
use crate::trees::{caterpillar, perturbed, random_tree};

pub const P: &str = "((((a,b),c),d),e);";
pub const Q: &str = "((((a,c),b),d),e);";
pub const R: &str = "((((a,b),c),e),d);";
pub const TWO_PAIRS: &str = "((a,b),(c,d));";
pub const OTHER_PAIRS: &str = "((a,c),(b,d));";
pub const AB_C: &str = "((a,b),c);";
pub const AC_B: &str = "((a,c),b);";

pub fn bytes(x: &str) -> Vec<u8> {
    x.as_bytes().to_vec()
}

/// 01's trees to try and the examples of its table.
pub fn paper_jobs() -> Vec<Vec<u8>> {
    let rows = [
        ("((a,b),(c,d));", "((a,c),(b,d));", "a"),
        (P, Q, ""),
        (P, Q, "c"),
        (P, Q, "b,c"),
        (P, Q, "a,b,c"),
        (P, Q, "a,b,d"),
        (P, R, ""),
        (P, R, "d,e"),
        ("((a,b),c);", "((a,c),b);", "a"),
        ("a;", "a;", ""),
        ("(a,b);", "(c,d);", ""),
        (P, P, ""),
        (P, R, "c,d,e"),
        (P, R, "e,d,c,b,a"),
        ("a;", "b;", "b"),
        ("a;", "b;", "a"),
        ("((a,b),c);", "((a,c),b);", "a,b,c"),
        ("(a,b);", "(b,c);", "b,a,c"),
        ("(a,b);", "(b,c);", "z,"),
        ("(a,b);", "(b,c);", "z,z"),
        ("(a b);", "a;", ""),
        ("a;", "(a,b)", ""),
        ("", "a;", ""),
        ("a;", "", ""),
        ("", "", ""),
        ("aaaaaaaaaaaaaaaaa;", "a;", ""),
        ("(a,a);", "(", "a,"),
        ("a;", "a;", "a,a"),
        ("a;", "a;", "a,,"),
    ];
    rows.iter().map(|(s, t, k)| job(s.as_bytes(), t.as_bytes(), k.as_bytes())).collect()
}

/// Contents that break their rules, whatever options a job may have some day, and some that only look so.
fn contents_jobs() -> Vec<Vec<u8>> {
    let tail = "a;a;a";
    let heads = [
        "S 2\nT 2\nK 1\n\n", "S 02\nT 2\nK 1\n\n", "S 2\nT +2\nK 1\n\n", "S 2\nT 2\nK 0\n\n", "S 2\nT 2\nK 2\n\n", "S 3\nT 1\nK 1\n\n",
        "S 2 \nT 2\nK 1\n\n", "S  2\nT 2\nK 1\n\n", "S 2\r\nT 2\nK 1\n\n", "s 2\nT 2\nK 1\n\n", "T 2\nS 2\nK 1\n\n", "S 2\nT 2\nK 1\n",
        "S 2\nT 2\nK 1\n\n\n", "S 2\nK 1\nT 2\n\n", "S 2\nT 2\n\n", "S 2", "S", "", "S \nT 2\nK 1\n\n", "S 00002\nT 2\nK 1\n\n",
        "S 12345\nT 2\nK 1\n\n", "S 9999\nT 2\nK 1\n\n", "S 0\nT 4\nK 1\n\n", "S 4\nT 0\nK 1\n\n", "S 00\nT 4\nK 1\n\n", "S 2\nT 2\nK 1\n \n",
        "loose\nS 2\nT 2\nK 1\n\n", "E 0\nS 2\nT 2\nK 1\n\n", "S 2\nT 2\nX 0\nK 1\n\n",
    ];
    let mut out: Vec<Vec<u8>> = heads.iter().map(|h| bytes(&format!("{h}{tail}"))).collect();
    out.push(bytes("S 2"));
    out.push(vec![b' '; JOB]);
    out.push(vec![b' '; JOB + 1]);
    out.push(bytes("S 0\nT 0\nK 0\n\n"));
    out.extend([JOB, JOB + 1].map(|n| filled(n, [b"((a,b),(c,d));", b"a;", b""], 2, b"a")));
    out
}

/// Contents about bodies of 2, 2 and 1 bytes: those with lines in front of the lengths, and those that are told whole. Each before these
/// bodies.
pub fn headed(fronts: &[&str], heads: &[&str], bodies: [&str; 2]) -> Vec<Vec<u8>> {
    let all = fronts.iter().map(|x| format!("{x}S 2\nT 2\nK 1\n\n")).chain(heads.iter().map(|x| x.to_string()));
    all.flat_map(|x| bodies.map(|tail| bytes(&format!("{x}{tail}")))).collect()
}

/// All that the job may begin with, of which only the whole is answered; and each byte of its first lines, so many bytes of them, as its
/// neighbour or left out.
pub fn spoilt(whole: &[u8], lines: usize) -> Vec<Vec<u8>> {
    let mut out: Vec<Vec<u8>> = (0..=whole.len()).map(|n| whole[..n].to_vec()).collect();
    for i in 0..lines {
        let mut other = whole.to_vec();
        other[i] ^= 1;
        out.push(other);
        out.push([&whole[..i], &whole[i + 1..]].concat());
    }
    out
}

/// The job of just so many bytes, its contents right, that holds these bodies after one of them has grown too long by far.
pub fn filled<const N: usize>(n: usize, bodies: [&[u8]; N], body: usize, filler: &[u8]) -> Vec<u8> {
    let fixed = job_of(&bodies).len();
    // the contents tell the length of the body that grows in the most digits in the end
    let digits = DIGITS - bodies[body].len().to_string().len();
    let grown: Vec<u8> = bodies[body].iter().chain(filler.iter().cycle().take(n - fixed - digits)).copied().collect();
    let mut bodies = bodies;
    bodies[body] = &grown;
    let made = job_of(&bodies);
    assert_eq!(made.len(), n);
    made
}

pub fn list(xs: &[Label]) -> Vec<u8> {
    xs.join(&b","[..])
}

/// The job that holds such bodies.
pub fn small_job(r: &mut Random) -> Vec<u8> {
    let [s, t, k] = small_bodies(r);
    job(&s, &t, &k)
}

/// A job with a few bytes changed, dropped or added.
pub fn damaged(r: &mut Random, job: &[u8]) -> Vec<u8> {
    r.damaged(job, b"(),;ab_-. '\n\x00\xff0123STK")
}

/// Bodies with a few bytes changed, the contents fitting.
pub fn damaged_bodies(r: &mut Random) -> Vec<u8> {
    let pool = labels(8);
    let n = 1 + r.below(6);
    let mut texts = [random_tree(r, &pool[..n]).text(), random_tree(r, &pool[..n]).text(), list(&pool[..r.below(n + 1)])];
    let i = r.below(3);
    texts[i] = damaged(r, &texts[i].clone());
    job(&texts[0], &texts[1], &texts[2])
}

/// Trees of up to 80 leaves: against their reverse, themselves, others, with none or one leaf shared, all required.
pub fn large_jobs(r: &mut Random) -> Vec<Vec<u8>> {
    let mut out = Vec::new();
    for n in [20, 40, LEAVES - 1, LEAVES] {
        let xs = labels(n);
        let mut back = xs.clone();
        back.reverse();
        let mut mixed = xs.clone();
        r.shuffle(&mut mixed);
        let up = caterpillar(&xs);
        let down = caterpillar(&back);
        let random = random_tree(r, &mixed);
        let near = perturbed(r, &random, 4);
        let other = random_tree(r, &xs);
        for (s, t) in [(&up, &down), (&up, &up), (&random, &near), (&random, &other), (&up, &random), (&near, &down)] {
            out.push(job(&s.text(), &t.text(), b""));
            out.push(job(&s.text(), &t.text(), &list(&mixed[..2])));
            out.push(job(&s.text(), &t.text(), &list(&mixed[..8])));
            out.push(job(&s.text(), &t.text(), &list(&mixed)));
        }
        let strangers: Vec<Label> = (0..n).map(|i| format!("u{i}").into_bytes()).collect();
        out.push(job(&up.text(), &caterpillar(&strangers).text(), b""));
        let mut one = strangers.clone();
        one[n / 2] = xs[3].clone();
        out.push(job(&random.text(), &random_tree(r, &one).text(), b""));
        out.push(job(&random.text(), &random_tree(r, &one).text(), &xs[3]));
    }
    out.push(job(&caterpillar(&labels(LEAVES + 1)).text(), b"a;", b""));
    out.push(job(b"a;", b"a;", &list(&labels(LIST))));
    out.push(job(b"a;", b"a;", &list(&labels(LIST + 1))));
    out
}

pub fn jobs() -> Vec<Vec<u8>> {
    let mut r = Random(2026);
    let mut out = paper_jobs();
    out.extend(contents_jobs());
    for _ in 0..1500 {
        let j = small_job(&mut r);
        if r.below(6) == 0 {
            out.push(damaged(&mut r, &j));
        }
        out.push(j);
    }
    for _ in 0..300 {
        out.push(damaged_bodies(&mut r));
    }
    out.extend(large_jobs(&mut r));
    out.extend(strict_jobs());
    out.extend(quoted_jobs());
    out.extend(place_jobs());
    out.extend(length_jobs());
    let again = otherwise(&out);
    out.extend(edition_jobs());
    out.extend(again);
    out.extend(claim_jobs());
    out.extend(piece_jobs());
    out
}

pub fn stream(jobs: &[Vec<u8>]) -> Vec<u8> {
    let mut out = Vec::new();
    for j in jobs {
        out.extend((j.len() as u16).to_be_bytes());
        out.extend(j);
    }
    out
}

pub fn expected() -> Vec<u8> {
    jobs().iter().flat_map(|j| printed(j)).collect()
}
