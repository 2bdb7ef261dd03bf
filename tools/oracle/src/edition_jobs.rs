//! The stored jobs about the editions of the naming code: bodies that the editions answer otherwise, and the contents line that picks one.

use crate::drawn::{damaged_quoted, labels, large_cased, small_cased};
use crate::job::{every_state, job, printed, strict, with_edition, FIRST, SECOND};
use crate::jobs::{filled, headed, list, spoilt};
use crate::lengths::{closer, greatest, greatest_bodies, one};
use crate::letters::{one_capital, pairs, tokens};
use crate::limits::{JOB, LIST, RECORD};
use crate::random::Random;
use crate::spelling::quoted;

/// Two trees and a list.
const ROWS: &[(&str, &str, &str)] = &[
    // a label that repeats under the second edition, in each body
    ("(A,a);", "(a,b);", ""),
    ("(a,b);", "(a,A);", "a"),
    ("(a,b);", "(b,a);", "a,A"),
    ("((a,b),(c,B));", "((a,b),c);", "b"),
    ("(ab,(aB,(Ab,AB)));", "(AB,ab);", "aB"),
    ("(a_b,'A B');", "a_b;", ""),
    ("('a_b','A_B');", "'a_b';", ""),
    ("(a_b,'A_B');", "('a_B',A_b);", ""),
    ("(a,b);", "(b,a);", "a,'A'"),
    ("(a,b);", "(b,a);", "b,a,B"),
    // a repeat goes before what follows it, and before 6; a label that is not whole is not compared
    ("(a,A b);", "a;", ""),
    ("(a,'A'b);", "a;", ""),
    ("(a,'A", "a;", ""),
    ("a;", "(a,A", ""),
    ("(a,b);", "(b,a);", "z,Z"),
    ("(a,b);", "(b,a);", "z,Z,"),
    ("(a,b);", "(b,a);", "a,A b"),
    ("(a,b);", "(b,a);", "a,'A"),
    // one leaf, none, all: each label as the first tree spells it
    ("A;", "a;", ""),
    ("a;", "A;", "A"),
    ("(a,b);", "(A,B);", ""),
    ("(A,b);", "(c,D);", ""),
    ("((((a,b),c),d),e);", "((((A,B),C),D),E);", ""),
    ("((((A,b),C),d),E);", "((((a,c),b),d),e);", "B,C"),
    ("((Ab,c),D);", "((aB,C),d);", "AB,d"),
    ("((aB,C),d);", "((Ab,c),D);", "ab"),
    // quotes are no spelling
    ("(('Ab',c),'D');", "((aB,'C'),d);", "'AB'"),
    ("(('A b',c),'D_e');", "((a_B,'C'),'d_E');", "'d_e'"),
    ("((A_b,c),'D_e');", "(('a B','C'),'d_E');", "'D_E','A b'"),
    // order of the set and of the text
    ("(B,a);", "(a,B);", ""),
    ("(B,a);", "(A,b);", "b"),
    ("((b,C),(a,D));", "((D,a),(C,b));", ""),
    ("((b,C),(a,D));", "((d,A),(c,B));", ""),
    ("((z,A),(Y,b));", "((A,z),(b,Y));", ""),
    ("(aB,(AC,(aA,Ad)));", "(((Ad,aA),AC),aB);", ""),
    ("(aB,(A,(ab-,a.)));", "(((a.,ab-),A),aB);", ""),
    // ties
    ("((a,B),c);", "((a,c),B);", ""),
    ("((b,C),D);", "((b,D),C);", ""),
    ("((b,C),D);", "((b,D),C);", "D"),
    ("((b,C),D);", "((B,d),c);", ""),
    ("((b,C),D);", "((B,d),c);", "d"),
    ("((a,B),(c,D));", "((a,c),(B,D));", ""),
    ("((a,B),(c,D));", "((a,c),(B,D));", "D"),
    ("((((c,B),a),D),e);", "((((c,a),B),D),e);", ""),
    ("((((b,A),C),d),E);", "((((b,C),A),E),d);", ""),
    ("((((b,A),C),d),E);", "((((B,c),a),e),D);", ""),
    ("((aa,aB),AC);", "((aa,AC),aB);", ""),
    // a quoted underscore stands after the capitals, or before every letter
    ("(('_',B),C);", "(('_',C),B);", ""),
    ("(('_',b),c);", "(('_',c),b);", ""),
    ("(('_',B),c);", "(('_',c),B);", ""),
    ("(('_',B),C);", "(('_',c),b);", "c"),
    ("(('a_',aB),AC);", "(('a_',AC),aB);", ""),
    ("(('a_',aB),aC);", "(('A_',Ac),Ab);", ""),
    ("(('_',A),(' ','0'));", "(('_',' '),('0',A));", ""),
    ("(((Z,'_'),a),-);", "(((Z,a),'_'),-);", ""),
    ("(((z,'_'),Y),-);", "(((Z,y),'_'),-);", "y"),
    // 6 and 7
    ("(a,b);", "(a,b);", "A"),
    ("(A,b);", "(a,b);", "a"),
    ("(A,b);", "(a,b);", "A"),
    ("(a,b);", "(A,b);", "b,a"),
    ("(a,b);", "(b,c);", "B,C,A"),
    ("(a,b);", "(b,c);", "B,A,C"),
    ("(a_B,c);", "('A b',C);", "A_b"),
    ("('a_B',c);", "('A_b',C);", "'A_B'"),
    ("(a_B,c);", "('A_b',C);", "C,A_b"),
    ("(a_B,c);", "('A_b',C);", "'A_b'"),
    // 8: the first three, spelled as in the first tree
    ("((a,b),c);", "((A,C),B);", "C,b,A"),
    ("((A,b),C);", "((a,c),B);", "c,B,a"),
    ("((a,B),c);", "((a,c),B);", "c,B,a"),
    ("((((a,B),c),D),e);", "((((a,B),c),e),D);", "e,D,c,B,a"),
    ("((((a,B),c),D),e);", "((((A,b),c),e),d);", "E,d,C,b,A"),
    ("((a_b,'C_d'),'E f');", "((A_B,'e F'),'c_D');", "E_F,'c_d','A b'"),
    ("(('_',B),C);", "(('_',C),B);", "C,B,'_'"),
    ("(('_',B),C);", "(('_',c),b);", "c,b,'_'"),
    ("((z,'Z_'),Y);", "((Z,y),'z_');", "'z_',y,Z"),
    // 12: the first leaf without a partner; 8 and a list that cannot be read come after it
    ("(a,B);", "(b,A);", ""),
    ("(a,b);", "(A,c);", "A"),
    ("('a b',c);", "(C,A_B);", "C"),
    ("('a b',c);", "(C,'A_B');", "c"),
    ("((a,b),C);", "((B,A),d);", ","),
    ("((a,b),C);", "((B,A),c);", ","),
    ("((a,b),c);", "((A,C),(B,D));", "c,b,a"),
    ("((x,a),B);", "((b,A),X);", "x"),
    // labels that begin alike, and such that differ in more than their letters
    ("((A,ab),(aBc,b));", "((a,AB),(ABC,B));", "AB"),
    ("((a1,A2),b_1);", "((A1,a2),B-1);", "a1"),
    ("(a-,(a.,(a0,a_)));", "(A_,(A0,(A.,A-)));", ""),
];

/// Each row in every state of the contents, and with the trees exchanged.
pub fn row_jobs() -> Vec<Vec<u8>> {
    let texts = ROWS.iter().map(|&(s, t, k)| [s, t, k].map(str::as_bytes));
    texts.flat_map(|[s, t, k]| [every_state(&job(s, t, k)), vec![with_edition(SECOND, &job(t, s, k))]].concat()).collect()
}

/// Under the first edition, told by its line, and under the second.
fn both_editions(plain: &[u8]) -> [Vec<u8>; 2] {
    [FIRST, SECOND].map(|line| with_edition(line, plain))
}

/// Pairs of labels: whether they are one, and which comes first, before or after a third one.
fn pair_jobs() -> Vec<Vec<u8>> {
    let short = pairs().into_iter().map(|pair| pair.map(|x| quoted(&x)));
    let mut out = Vec::new();
    for [x, y] in short.chain(one_capital().iter().map(tokens)) {
        out.extend(both_editions(&job(&one(&x), &one(&y), &x)));
        out.extend(both_editions(&job(&closer(&x, &y, b"mm"), &closer(&x, b"mm", &y), b"")));
    }
    // as long as may be: three that clash, and leaves that are strict partners
    for pair in one_capital() {
        let [x, y] = tokens(&pair);
        let (s, t) = (closer(&x, b"b", b"C"), closer(&y, b"c", b"B"));
        let k = [b"c,", &y[..], b",B"].concat();
        out.extend(both_editions(&job(&s, &t, &k)));
        out.extend(both_editions(&strict(&job(&s, &t, &y))));
    }
    out
}

/// Lines in front of the lengths: such that pick an edition, and others.
const FRONTS: &[&[&str]] = &[
    &["", "E 1\n", "E 2\n", "strict\nE 1\n", "strict\nE 2\n"],
    // no edition of that number
    &["E 0\n", "E 3\n", "E 4\n", "E 9\n", "E 10\n", "E 11\n", "E 12\n", "E 20\n", "E 21\n", "E 22\n", "E 257\n", "E 258\n", "E 65538\n"],
    &["E 4294967298\n", "E 01\n", "E 02\n", "E +2\n", "E -2\n", "E 2.\n", "E 2,1\n", "E 2 2\n", "E b\n", "E two\n", "E II\n", "E E\n", "E \u{2}\n"],
    // one blank, a capital, one line end and no more
    &["E\n", "E \n", "E 1 \n", "E 2 \n", "E  1\n", "E  2\n", " E 1\n", " E 2\n", "E1\n", "E2\n", "E\t2\n", "E\n2\n", "E: 2\n", "EE 2\n", "E 2E 2\n"],
    &["e 1\n", "e 2\n", "Edition 2\n", "E 1\r\n", "E 2\r\n", "E 2\r", "E 1", "E 2", "E 2 ", "E 2\n ", "E 2\n\n", "\nE 2\n"],
    // before `strict`, twice, beside other lines
    &["E 1\nstrict\n", "E 2\nstrict\n", "strict\nE 2\nstrict\n", "strict\nstrict\nE 2\n", "E 1\nE 1\n", "E 2\nE 2\n", "E 1\nE 2\n", "E 2\nE 1\n"],
    &["strict\nE 1\nE 2\n", "strict\nE 2\nE 2\n", "E 2\nE 2\nE 2\n", "strict\nE 0\n", "strict\nE 3\n", "strict\n E 2\n", "strict\n\nE 2\n"],
    &["strict E 2\n", "strictE 2\n", "E 2\nloose\n", "loose\nE 2\n", "E 2\nS 2\n"],
];

/// Contents with the line behind the lengths, and such that are broken behind it; last as the first tree's bytes.
const HEADS: &[&[&str]] = &[
    &["S 2\nE 2\nT 2\nK 1\n\n", "S 2\nE 1\nT 2\nK 1\n\n", "S 2\nT 2\nE 2\nK 1\n\n", "S 2\nT 2\nK 1\nE 2\n\n", "S 2\nT 2\nK 1\nE 1\n\n"],
    &["S 2\nT 2\nK 1\n\nE 2\n", "E 2\nS 2\nE 2\nT 2\nK 1\n\n", "E 1\nS 2\nT 2\nE 2\nK 1\n\n", "E 2\nS 2\nT 2\nK 1\nE 2\n\n"],
    &["E 2\nS 2\nstrict\nT 2\nK 1\n\n", "E 2\nS 02\nT 2\nK 1\n\n", "E 2\nT 2\nS 2\nK 1\n\n", "E 2\nT 2\nK 1\n\n", "E 2\nS 2\nT 2\nK 1\n"],
    &["E 2\nS 2\nT 2\nK 1\n\n\n", "E 2\nS 2\nT 2\nK 2\n\n", "E 2\nS 2\nT 1\nK 1\n\n", "E 2\nS 3\nT 1\nK 1\n\n", "E 2\nS 0\nT 4\nK 1\n\n"],
    &["E 2\nS 4\nT 0\nK 1\n\n", "S 6\nT 2\nK 1\n\nE 2\n", "E 2\nS 6\nT 2\nK 1\n\nE 2\n"],
];

/// The line where it may stand and where it may not, before bodies that both editions answer alike and before such that they do not.
fn contents_jobs() -> Vec<Vec<u8>> {
    let mut out = headed(&FRONTS.concat(), &HEADS.concat(), ["a;a;a", "A;a;a"]);
    let plain = job(b"(A,b);", b"(B,a);", b"a");
    for whole in both_editions(&plain).into_iter().chain([strict(&with_edition(SECOND, &plain))]) {
        let lines = whole.len() - plain.len();
        out.extend(spoilt(&whole, lines));
    }
    // just as many bytes as a job may have, the lines counted, and one more
    for lines in [b"".to_vec(), strict(b"")].map(|x| with_edition(SECOND, &x)) {
        for n in [JOB, JOB + 1] {
            let rest = filled(n - lines.len(), [b"((a,b),(c,D));", b"((A,C),(B,d));", b"C"], 2, b"a");
            out.push([lines.clone(), rest].concat());
        }
    }
    out
}

/// As many labels of as many bytes as may be, the second tree and the list in capitals, strict: no job that is answered is longer.
pub fn greatest_cased() -> Vec<u8> {
    let [s, t, k] = greatest_bodies();
    let made = with_edition(SECOND, &strict(&job(&s, &t.to_ascii_uppercase(), &k.to_ascii_uppercase())));
    assert_eq!(printed(&made).len(), RECORD);
    made
}

/// Lists of as many labels as may be: a repeat under the second edition is 5, but the 81st label is 4 all the same.
fn full_lists() -> Vec<Vec<u8>> {
    let (all, most) = (list(&labels(LIST)), list(&labels(LIST - 1)));
    let lists = [[&all[..], b",T0"].concat(), [&most[..], b",T0"].concat(), [&most[..], b",T0,t0"].concat(), all.to_ascii_uppercase()];
    lists.iter().flat_map(|k| every_state(&job(b"(t0,T1);", b"(t1,T0);", k))).collect()
}

/// Bodies drawn at random, in every state of the contents, some with damage; and large ones, under both editions and strict.
fn drawn_jobs(r: &mut Random) -> Vec<Vec<u8>> {
    let mut out = Vec::new();
    for i in 0..300 {
        let mut texts = small_cased(r);
        if i % 4 == 0 {
            let body = r.below(3);
            texts[body] = damaged_quoted(r, &texts[body].clone());
        }
        let [s, t, k] = texts;
        out.extend(every_state(&job(&s, &t, &k)));
    }
    for _ in 0..30 {
        let [s, t, k] = large_cased(r);
        let plain = job(&s, &t, &k);
        out.extend(both_editions(&plain));
        out.push(strict(&with_edition(SECOND, &plain)));
    }
    out
}

pub fn edition_jobs() -> Vec<Vec<u8>> {
    let mut r = Random(1515);
    let mut out = row_jobs();
    out.extend(pair_jobs());
    out.extend(contents_jobs());
    out.extend(full_lists());
    out.extend([greatest_cased(), with_edition(SECOND, &greatest())]);
    out.extend(drawn_jobs(&mut r));
    out
}

/// Of these jobs those that the second edition answers otherwise, under it; but for such that its line makes too long.
pub fn otherwise(jobs: &[Vec<u8>]) -> Vec<Vec<u8>> {
    let second = jobs.iter().map(|j| (j, with_edition(SECOND, j)));
    second.filter(|(j, again)| again.len() <= JOB && printed(j) != printed(again)).map(|(_, again)| again).collect()
}
