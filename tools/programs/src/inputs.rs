//! What the programs are given.

use oracle::claim_jobs::{family_claim_jobs, greatest_claim};
use oracle::edition_jobs::greatest_cased;
use oracle::families::{family_jobs, long_labels, long_quoted};
use oracle::job::{claim_job, every_state, job, strict, with_edition, with_pieces, EDITION_LINES, SECOND};
use oracle::lengths::greatest;
use oracle::limits::{JOB, LABEL, LEAVES, LIST, TREE_TEXT};
use oracle::piece_jobs::{family_piece_jobs, greatest_pieces};
use oracle::trees::caterpillar;
use oracle::{cases, jobs};

const MEGABYTE: usize = 1 << 20;

/// The files of a folder whose names end so, each with its bytes.
fn files(folder: &str, end: &str) -> Vec<Vec<u8>> {
    let mut names: Vec<_> = std::fs::read_dir(folder).unwrap().map(|x| x.unwrap().path()).collect();
    names.retain(|x| x.to_string_lossy().ends_with(end));
    names.sort();
    assert!(!names.is_empty(), "no file of {folder} ends in {end}");
    names.iter().map(|x| std::fs::read(x).unwrap()).collect()
}

/// A job of just so many bytes whose contents are right: one of the bodies is too long by far.
fn of_length(n: usize, body: usize) -> Vec<u8> {
    let filler = [&b"a,"[..], b"a", b"(", b" ", b"'", b",'a '"][n % 6];
    jobs::filled(n, [b"((a,b),c);", b"((a,c),b);", b"a"], body, filler)
}

/// The same with these lines in front, which are counted.
fn of_length_after(lines: &[u8], n: usize, body: usize) -> Vec<u8> {
    [lines, &of_length(n - lines.len(), body)].concat()
}

/// The same with a claim that is too long by far.
fn claim_of_length(n: usize) -> Vec<u8> {
    let filler = [&b",a"[..], b"a", b" ", b"'"][n % 4];
    jobs::filled(n, [b"((a,b),c);", b"((a,c),b);", b"a", b"b"], 3, filler)
}

/// The same with the line `strict`.
fn strict_of_length(n: usize, body: usize) -> Vec<u8> {
    of_length_after(&strict(b""), n, body)
}

/// A strict job whose last leaf of the second tree is not in the first; its list cannot be read.
fn stray() -> Vec<u8> {
    strict(&job(b"((a,b),c);", b"((c,(b,a)),x);", b",,"))
}

/// All of these labels in both trees, in the list and so in the answer.
fn all_of(xs: &[Vec<u8>]) -> Vec<u8> {
    job(&caterpillar(xs).text(), &caterpillar(xs).mirrored().text(), &xs.join(&b","[..]))
}

/// A job that is answered.
fn answered() -> Vec<u8> {
    job(b"((a,b),(c,d));", b"((a,c),(b,d));", b"a")
}

/// A job whose claim passes, one that is too small, one without the required label, and one that disagrees.
fn claimed() -> [Vec<u8>; 4] {
    [&b"d,a"[..], b"a", b"b,c", b"c,b,a"].map(|claim| claim_job(b"((a,b),(c,d));", b"((a,c),(b,d));", b"a", claim))
}

/// The job, and bytes after it up to a length.
fn with_tail(mut job: Vec<u8>, n: usize, tail: u8) -> Vec<u8> {
    job.resize(n, tail);
    job
}

fn long_jobs() -> Vec<Vec<u8>> {
    let mut out = Vec::new();
    for n in JOB - 4..JOB + 5 {
        out.push(vec![b' '; n]);
        out.push(with_tail(answered(), n, b'a'));
        out.push(with_tail(strict(&answered()), n, b'a'));
        out.push(with_tail(stray(), n, b','));
        out.extend(claimed().map(|x| with_tail(x, n, b'a')));
        out.push(claim_of_length(n));
        out.push(with_tail(with_pieces(&answered()), n, b'a'));
        let states = every_state(b"");
        let lines = states.iter().cloned().chain(states.iter().map(|x| with_pieces(x)));
        out.extend(lines.flat_map(|lines| [0, 1, 2].map(|body| of_length_after(&lines, n, body))));
    }
    for n in [2 * JOB, 2 * JOB + 1, 65_536, 65_537, 5 * MEGABYTE] {
        out.push(vec![b' '; n]);
        out.push(with_tail(answered(), n, b'a'));
        out.push(with_tail(strict(&answered()), n, b'a'));
        out.push(with_tail(of_length(JOB, 2), n, b'a'));
        out.push(with_tail(strict_of_length(JOB, 2), n, b'a'));
        out.push(with_tail(with_edition(SECOND, &answered()), n, b'a'));
        out.push(with_tail(with_pieces(&answered()), n, b'a'));
        out.extend([claimed()[0].clone(), claim_of_length(JOB)].map(|x| with_tail(x, n, b'a')));
    }
    out
}

/// Each reason of a body in each body, and those that need more than one.
fn refusals() -> Vec<Vec<u8>> {
    let (long, deep, many) = ("a".repeat(LABEL + 1), "(".repeat(LEAVES), long_labels(LIST + 1).join(&b","[..]));
    let (quoted, open) = (format!("'{long}'"), long_quoted(LIST).join(&b","[..]));
    let mut out = Vec::new();
    for text in ["(a b);", "(a,b)", &long, &deep, "(a,a);", "(a,'');", "(a,'a", &quoted, "(a_b,'a b');"] {
        out.push(job(text.as_bytes(), b"(", b","));
        out.push(job(b"(a,b);", text.as_bytes(), b","));
    }
    let more = [&open[..], b",'"].concat();
    for list in [&b"a b"[..], b"a,", long.as_bytes(), &many, b"a,a", b"''", b"a,'a", quoted.as_bytes(), &more, b"a_b,'a b'"] {
        out.push(job(b"(a,b);", b"(b,c);", list));
        out.push(claim_job(b"(a,b);", b"(b,c);", b"z", list));
    }
    out.push(job(b"(a,b);", b"(b,c);", b"b,c"));
    out.push(job(b"(a,b);", b"(b,c);", b"b,a,c"));
    out.push(job(b"((a,b),c);", b"((a,c),b);", b"c,b,a"));
    out.push(job(b"((a_b,'c_d'),'e');", b"(('a b',e),'c_d');", b"'e','c_d',a_b"));
    // claims: each verdict, and what goes before it
    out.extend(claimed());
    for claim in [&b"x"[..], b"a,y", b"b,a", b"a", b"b", b""] {
        out.push(claim_job(b"((A,b),x);", b"((b,a),y);", b"b", claim));
    }
    out.push(claim_job(b"a;", b"b;", b"", b""));
    out.push(claim_job(b"((a,b),c);", b"((a,c),b);", b"c,b,a", b"a,x"));
    out.push(claim_job(b"((a_b,'c_d'),'e');", b"(('a b',e),'c_d');", b"'e'", b"'c_d',e,a_b"));
    out.push(b"S 2".to_vec());
    out.push(job(b"((a,b),c);", b"((b,a),x);", b""));
    out.push(job(b"(a,b);", b"((b,x),a);", b"x"));
    out.push(job(b"('a b',b);", b"((b,'a_b'),a_b);", b"'a_b'"));
    // under the second edition an answer, 5 and 8
    out.push(job(b"((Ab,c),D);", b"((aB,C),d);", b"AB,d"));
    out.push(job(b"(A,a);", b"(a,A);", b"a,A"));
    out.push(job(b"((A,b),C);", b"((a,c),B);", b"c,B,a"));
    // under it a claim that passes, 5 and 14
    out.push(claim_job(b"((Ab,c),D);", b"((aB,C),d);", b"AB", b"d,C,aB"));
    out.push(claim_job(b"(a,b);", b"(b,a);", b"a", b"a,A"));
    out.push(claim_job(b"((A,b),C);", b"((a,c),B);", b"", b"c,B,a"));
    out
}

pub fn jobs(examples: &str) -> Vec<Vec<u8>> {
    let mut out = files(examples, ".job");
    out.push(Vec::new());
    out.push(greatest());
    out.push(strict(&greatest()));
    out.push(greatest_cased());
    out.extend(EDITION_LINES.map(greatest_claim));
    out.extend(EDITION_LINES.map(greatest_pieces));
    out.push(all_of(&long_labels(LEAVES)));
    out.push(with_pieces(&all_of(&long_labels(LEAVES))));
    out.push(stray());
    out.extend(refusals().iter().flat_map(|x| every_state(x)).flat_map(|x| [with_pieces(&x), x]));
    out.extend(long_jobs());
    out.extend(family_jobs());
    out.extend(family_claim_jobs());
    out.extend(family_piece_jobs());
    out.extend(jobs::jobs());
    out
}

pub fn slow_jobs() -> Vec<Vec<u8>> {
    vec![
        Vec::new(),
        answered(),
        strict(&answered()),
        with_edition(SECOND, &answered()),
        stray(),
        job(b"((a,b),c);", b"((a,c),b);", b"a,b,c"),
        greatest(),
        strict(&greatest()),
        greatest_cased(),
        claimed()[0].clone(),
        claimed()[3].clone(),
        greatest_claim(SECOND),
        with_pieces(&answered()),
        with_pieces(&claimed()[0]),
        greatest_pieces(SECOND),
        claim_of_length(JOB),
        claim_of_length(JOB + 1),
        of_length(JOB, 2),
        of_length(JOB + 1, 2),
        strict_of_length(JOB, 2),
        strict_of_length(JOB + 1, 2),
        vec![b' '; JOB],
        vec![b' '; JOB + 1],
    ]
}

fn greatest_text() -> Vec<u8> {
    let made = caterpillar(&long_quoted(LEAVES)).mirrored().text();
    assert_eq!(made.len(), TREE_TEXT);
    made
}

/// The greatest tree text, and what may come after it.
fn long_texts() -> Vec<Vec<u8>> {
    let greatest = greatest_text();
    let mut out = vec![greatest.clone(), caterpillar(&long_labels(LEAVES)).mirrored().text()];
    for n in [TREE_TEXT + 1, 4095, 4096, 4097, JOB, JOB + 1, 65_536, 3 * MEGABYTE] {
        let mut x = greatest.clone();
        x.resize(n, b' ');
        out.push(x);
        out.push(vec![b'a'; n]);
        out.push(vec![b'('; n]);
        out.push(vec![b' '; n]);
        out.push([&b"("[..], &vec![b'a'; n]].concat());
        out.push(vec![b'\''; n]);
        out.push([&b"'"[..], &vec![b' '; n]].concat());
    }
    out
}

pub fn texts(examples: &str) -> Vec<Vec<u8>> {
    let mut out = files(examples, ".nwk");
    out.extend(long_texts());
    // the cases of the second edition have the same texts
    out.extend(cases::cases().into_iter().filter(|c| c.kind.is_ascii_lowercase()).map(|c| c.text));
    out
}

pub fn slow_texts() -> Vec<Vec<u8>> {
    let greatest = greatest_text();
    vec![Vec::new(), b"((d,c),(b,a));".to_vec(), b"(a,b c);".to_vec(), greatest.clone(), [greatest, b"\n".to_vec()].concat(), vec![b'('; 5000]]
}
