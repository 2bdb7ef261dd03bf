//! Stored jobs about the contents line `pieces`, and about the length of a job that has it.

use crate::job::{claim_job, every_state, job, strict, with_edition, with_pieces, SECOND};
use crate::jobs::{bytes, filled, headed, spoilt};
use crate::limits::JOB;

/// Lines in front of the lengths.
const FRONTS: &[&[&str]] = &[
    &["pieces\n", "strict\npieces\n", "E 1\npieces\n", "E 2\npieces\n", "strict\nE 1\npieces\n", "strict\nE 2\npieces\n"],
    // twice
    &["pieces\npieces\n", "strict\npieces\npieces\n", "E 2\npieces\npieces\n", "pieces\npieces\npieces\n", "pieces\nE 2\npieces\n"],
    // before `strict` or the line of an edition
    &["pieces\nE 1\n", "pieces\nE 2\n", "pieces\nstrict\n", "pieces\nstrict\nE 2\n", "strict\npieces\nE 1\n", "strict\npieces\nE 2\n"],
    &["E 2\npieces\nE 2\n", "E 2\npieces\nstrict\n", "strict\npieces\nstrict\n", "E 2\nstrict\npieces\n", "pieces\nE 2\nstrict\n"],
    // the whole line, in small letters, with one line end
    &["Pieces\n", "PIECES\n", "piece\n", "piecess\n", "peices\n", "pieces \n", " pieces\n", "pieces\t\n", "pieces\r\n", "pieces\r", "pieces"],
    &["pieces ", "pieces 0\n", "pieces 1\n", "pieces 2\n", "pieces:\n", "pieces;", "pieces\n\n", "\npieces\n", "pieces\n ", "pieces\n\r", "P\n"],
    // next to other lines
    &["pieces\nloose\n", "loose\npieces\n", "strict pieces\n", "strictpieces\n", "pieces strict\n", "E 2 pieces\n", "E 2pieces\n", "pieces E 2\n"],
    &["E 0\npieces\n", "E 3\npieces\n", "Strict\npieces\n", "strict\n\npieces\n", "E 2\n\npieces\n", "pieces\nat\n", "at\n", "pieces\nS 2\n"],
];

/// Whole contents: the line after the lengths, and the line before contents that break another rule. In the last ones it is part of the first
/// tree.
const HEADS: &[&[&str]] = &[
    &["S 2\npieces\nT 2\nK 1\n\n", "S 2\nT 2\npieces\nK 1\n\n", "S 2\nT 2\nK 1\npieces\n\n", "S 2\nT 2\nK 1\n\npieces\n"],
    &["pieces\nS 2\npieces\nT 2\nK 1\n\n", "pieces\nS 2\nT 2\nK 1\npieces\n\n", "strict\nS 2\npieces\nT 2\nK 1\n\n"],
    &["E 2\nS 2\npieces\nT 2\nK 1\n\n", "pieces\nS 2\nE 2\nT 2\nK 1\n\n", "pieces\nS 2\nstrict\nT 2\nK 1\n\n", "pieces\nS 2\nT 2\nK 1\nE 2\n\n"],
    &["pieces\nS 02\nT 2\nK 1\n\n", "pieces\nT 2\nS 2\nK 1\n\n", "pieces\nT 2\nK 1\n\n", "pieces\nS 2\nT 2\n\n", "pieces\nS 2\nT 2\nK 1\n"],
    &["pieces\nS 2\nT 2\nK 1\n\n\n", "pieces\nS 2\nT 2\nK 2\n\n", "pieces\nS 2\nT 1\nK 1\n\n", "pieces\nS 2\nT 2\nX 0\nK 1\n\n"],
    &["pieces\nS 3\nT 1\nK 1\n\n", "pieces\nS 0\nT 4\nK 1\n\n", "pieces\nS 4\nT 0\nK 1\n\n", "S 9\nT 2\nK 1\n\npieces\n"],
];

/// Contents with a claim of one byte, and of none.
const CLAIMED: &[&str] = &[
    "pieces\nS 2\nT 2\nK 1\nC 1\n\n", "strict\npieces\nS 2\nT 2\nK 1\nC 1\n\n", "E 2\npieces\nS 2\nT 2\nK 1\nC 1\n\n",
    "strict\nE 1\npieces\nS 2\nT 2\nK 1\nC 1\n\n", "pieces\nS 2\nT 2\nK 2\nC 0\n\n", "E 1\npieces\nS 2\nT 2\nK 2\nC 0\n\n",
    "strict\npieces\nS 2\nT 2\nK 2\nC 0\n\n", "pieces\nS 2\nT 2\nK 0\nC 2\n\n", "pieces\nS 2\nT 2\nC 1\nK 1\n\n", "pieces\nC 1\nS 2\nT 2\nK 1\n\n",
    "C 1\npieces\nS 2\nT 2\nK 1\n\n", "S 2\nT 2\nK 1\npieces\nC 1\n\n", "S 2\nT 2\nK 1\nC 1\npieces\n\n", "pieces\nS 2\nT 2\nK 1\nC 01\n\n",
    "pieces\nS 2\nT 2\nK 1\nC 2\n\n", "pieces\nS 2\nT 2\nK 1\nC\n\n", "pieces\nS 2\nT 2\nK 1\n\nC 1\n", "pieces\nS 2\nT 2\nK 1\nC 1\nC 0\n\n",
];

/// The line and a claim in one job, whatever the bodies are.
fn claimed_jobs() -> Vec<Vec<u8>> {
    let mut out: Vec<Vec<u8>> = CLAIMED.iter().flat_map(|head| ["a;a;aa", "a;b;ab"].map(|tail| bytes(&format!("{head}{tail}")))).collect();
    let pairs: [&[u8]; 2] = [b"((a,b),(c,d));", b"((a,c),(b,d));"];
    // claims that would pass, are too small, lack a required label, disagree or cannot be read
    let claims = [&b"a,b"[..], b"a", b"b,c", b"c,b,a", b"a,", b""].map(|claim| claim_job(pairs[0], pairs[1], b"a", claim));
    let others = [claim_job(b"a;", b"b;", b"", b""), claim_job(b"(a b);", b"b;", b"", b"a")];
    out.extend(claims.iter().chain(&others).flat_map(|x| every_state(x)).map(|x| with_pieces(&x)));
    out
}

/// The line where it is allowed and where it is not, before bodies that both editions answer alike and bodies that they answer differently.
pub fn contents_jobs() -> Vec<Vec<u8>> {
    let mut out = headed(&FRONTS.concat(), &HEADS.concat(), ["a;a;a", "A;a;a"]);
    out.extend(claimed_jobs());
    out.push(with_pieces(&bytes("S 0\nT 0\nK 0\n\n")));
    let plain = job(b"((A,x),b);", b"(B,(X,a));", b"b");
    for lines in [b"".to_vec(), strict(b""), with_edition(SECOND, b""), with_edition(SECOND, &strict(b""))].map(|x| with_pieces(&x)) {
        out.extend(spoilt(&[&lines[..], &plain].concat(), lines.len()));
        // just as many bytes as a job may have, the lines counted, and one more
        for n in [JOB, JOB + 1] {
            out.push([&lines[..], &filled(n - lines.len(), [b"((a,b),c);", b"((a,c),b);", b"a"], 2, b"a")].concat());
        }
    }
    out
}
