//! Stored jobs about the contents line of a claim, and about the length of a job that has one.

use crate::job::{claim_job, strict, with_edition, SECOND};
use crate::jobs::{bytes, filled, spoilt};
use crate::limits::JOB;

/// What follows the lines of bodies of 2, 2 and 1 bytes.
const AFTER_K: &[&[&str]] = &[
    &["C 1\n\n"],
    // twice, before and behind other lines
    &["C 1\nC 0\n\n", "C 0\nC 1\n\n", "C 01\nC 1\n\n", "C 1\nK 0\n\n", "K 1\n\n", "K 1\nC 0\n\n", "C 1\nX 0\n\n", "X 0\nC 1\n\n"],
    &["X 1\n\n", "B 1\n\n", "C 1\nE 2\n\n", "E 2\nC 1\n\n", "C 1\nE 1\n\n", "C 1\nstrict\n\n", "strict\nC 1\n\n", "strict\n\n"],
    // a length breaks its rules
    &["C 01\n\n", "C 00001\n\n", "C 000001\n\n", "C 100001\n\n", "C 100000\n\n", "C 999999\n\n", "C 00\n\n", "C +1\n\n", "C -1\n\n", "C 1.\n\n"],
    &["C 0x1\n\n", "C 1 1\n\n", "C a\n\n", "C C\n\n", "C 4294967297\n\n", "C 18446744073709551617\n\n"],
    // one blank, a capital, one line end and no more
    &["c 1\n\n", "C  1\n\n", "C1\n\n", "C\n\n", "C \n\n", " C 1\n\n", "C 1 \n\n", "C\t1\n\n", "C: 1\n\n", "CC 1\n\n", "C 1\r\n\n", "C\n1\n\n"],
    &["C 1\n", "C 1", "C 1\n\n\n", "\nC 1\n\n", "\nC 1\n", "C 1\n \n", "C 1\n\r\n", "C", "", "\n"],
    // lengths that do not add up
    &["C 0\n\n", "C 2\n\n", "C 99999\n\n", "C 16384\n\n"],
];

/// Contents that are told whole.
const HEADS: &[&[&str]] = &[
    // what may stand before the lengths
    &["E 1\nS 2\nT 2\nK 1\nC 1\n\n", "E 2\nS 2\nT 2\nK 1\nC 1\n\n", "strict\nS 2\nT 2\nK 1\nC 1\n\n"],
    &["strict\nE 1\nS 2\nT 2\nK 1\nC 1\n\n", "strict\nE 2\nS 2\nT 2\nK 1\nC 1\n\n"],
    // the line before others, and in place of them
    &["S 2\nT 2\nC 1\nK 1\n\n", "S 2\nC 1\nT 2\nK 1\n\n", "C 1\nS 2\nT 2\nK 1\n\n", "C 1\nT 2\nK 1\nS 2\n\n", "S 2\nT 2\nC 2\n\n"],
    &["S 2\nT 2\nC 1\nK 1\nC 0\n\n", "S 2\nT 2\nC 1\nC 1\n\n", "C 1\nS 2\nT 2\nK 1\nC 0\n\n", "S 2\nT 2\nC 1\n\n", "S 2\nK 1\nC 1\n\n"],
    &["E 2\nC 1\nS 2\nT 2\nK 1\n\n", "C 1\nE 2\nS 2\nT 2\nK 1\n\n", "C 1\nstrict\nS 2\nT 2\nK 1\n\n", "T 2\nS 2\nK 1\nC 1\n\n"],
    // another line breaks its rules
    &["S 2\nT 2\nK 1 C 1\n\n", "S 2\nT 2\nK 1C 1\n\n", "S 2\nT 2\nK 1\r\nC 1\n\n", "\nS 2\nT 2\nK 1\nC 1\n\n", "S 02\nT 2\nK 1\nC 1\n\n"],
    &["S 2\nT 2\nK 01\nC 1\n\n", "S 2\nT 2\nK \nC 1\n\n", "E 3\nS 2\nT 2\nK 1\nC 1\n\n", "S 99999\nT 2\nK 1\nC 1\n\n"],
    // lengths that add up otherwise, and such that do not
    &["S 2\nT 2\nK 2\nC 0\n\n", "S 2\nT 2\nK 0\nC 2\n\n", "S 2\nT 1\nK 1\nC 2\n\n", "S 1\nT 3\nK 1\nC 1\n\n", "S 0\nT 4\nK 1\nC 1\n\n"],
    &["S 0\nT 0\nK 0\nC 6\n\n", "S 2\nT 2\nK 2\n\n", "S 2\nT 2\nK 0\nC 1\n\n", "S 2\nT 2\nK 2\nC 1\n\n", "S 2\nT 3\nK 1\nC 1\n\n"],
];

/// The line where it may stand and where it may not, before a claim that passes, one that lacks, and one of another letter.
pub fn contents_jobs() -> Vec<Vec<u8>> {
    let after = AFTER_K.concat().into_iter().map(|x| format!("S 2\nT 2\nK 1\n{x}"));
    let heads = after.chain(HEADS.concat().into_iter().map(String::from));
    let mut out: Vec<Vec<u8>> = heads.flat_map(|head| ["a;a;aa", "a;a;ab", "A;a;aA"].map(|tail| bytes(&format!("{head}{tail}")))).collect();
    out.push(bytes("S 0\nT 0\nK 0\nC 0\n\n"));
    out.push(bytes("S 2\nT 2\nK 0\nC 0\n\na;b;"));
    let plain = claim_job(b"(A,b);", b"(B,a);", b"b", b"A,b");
    let asked = with_edition(SECOND, &strict(&claim_job(b"(A,b);", b"(B,a);", b"a", b"B,a")));
    for whole in [plain, asked] {
        let lines = whole.windows(2).position(|x| x == b"\n\n").unwrap() + 2;
        out.extend(spoilt(&whole, lines));
    }
    out
}

/// Just as many bytes as a job may have, by one body that is too long by far, and one more.
pub fn whole_jobs() -> Vec<Vec<u8>> {
    let bodies: [&[u8]; 4] = [b"((a,b),(c,d));", b"((a,c),(b,d));", b"a", b"a"];
    let mut out = Vec::new();
    for body in 0..4 {
        out.push(filled(JOB, bodies, body, b"a"));
    }
    for (n, filler) in [(JOB, &b","[..]), (JOB, b" "), (JOB, b"'"), (JOB, b",a"), (JOB + 1, b"a"), (JOB + 1, b",b")] {
        out.push(filled(n, bodies, 3, filler));
    }
    let lines = with_edition(SECOND, &strict(b""));
    out.extend([JOB, JOB + 1].map(|n| [&lines[..], &filled(n - lines.len(), bodies, 3, b",b")].concat()));
    // lengths of as many digits as may be
    for n in [9_999, 10_000] {
        let mut claim = b"b,".to_vec();
        claim.resize(n, b'a');
        out.push(claim_job(b"a;", b"a;", b"a", &claim));
    }
    out
}
