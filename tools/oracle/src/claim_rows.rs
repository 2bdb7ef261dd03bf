//! Rows of the stored jobs with a claim: verdicts, claims that cannot be read, and spellings.

use crate::job::{claim_job, every_state, strict, with_edition, SECOND};
use crate::jobs::{AB_C, AC_B, OTHER_PAIRS, P, Q, R, TWO_PAIRS};

/// Trees that share a and b.
const AB_X: &str = "((a,b),x);";
const AB_Y: &str = "((y,b),a);";

/// Two trees, a list and a claim.
type Row = (&'static str, &'static str, &'static str, &'static str);

/// Claims that are read, of labels in small letters: what is said of them after number 8, and what goes before.
const VERDICTS: &[Row] = &[
    // the largest sets, tied ones too, in any order
    (P, Q, "", "a,b,d,e"),
    (P, Q, "", "a,c,d,e"),
    (P, Q, "", "b,c,d,e"),
    (P, Q, "", "e,d,b,c"),
    (P, Q, "c", "c,e,a,d"),
    (P, Q, "c", "d,e,b,c"),
    (P, Q, "b,c", "b,c,d,e"),
    (P, Q, "a,b,d", "e,d,b,a"),
    (P, R, "", "a,b,c,d"),
    (P, R, "", "e,c,b,a"),
    (P, R, "d,e", "d,e"),
    (P, R, "d,e", "e,d"),
    (P, P, "", "c,e,a,b,d"),
    (P, P, "e,a", "a,b,c,d,e"),
    (TWO_PAIRS, OTHER_PAIRS, "a", "a,b"),
    (TWO_PAIRS, OTHER_PAIRS, "a", "d,a"),
    (TWO_PAIRS, OTHER_PAIRS, "", "c,b"),
    (AB_C, AC_B, "a", "a,b"),
    (AB_C, AC_B, "a", "c,a"),
    (AB_C, AC_B, "", "b,c"),
    (AB_X, AB_Y, "", "b,a"),
    ("a;", "a;", "", "a"),
    ("a;", "a;", "a", "a"),
    // the empty claim
    ("a;", "b;", "", ""),
    ("(a,b);", "(c,d);", "", ""),
    ("a;", "a;", "", ""),
    ("a;", "a;", "a", ""),
    ("(a,b);", "(b,c);", "", ""),
    ("(a,b);", "(b,c);", "b", ""),
    (P, Q, "", ""),
    (P, Q, "e,c", ""),
    ("a;", "b;", "a", ""),
    ("a;", "b;", "b", ""),
    (AB_C, AC_B, "c,b,a", ""),
    // 15: smaller than the largest; to some no leaf can be added
    (P, Q, "", "a,b,d"),
    (P, Q, "", "a"),
    (P, Q, "c", "e,c,a"),
    (P, Q, "b,c", "b,c,d"),
    (P, R, "", "d,e"),
    (P, R, "", "e,d"),
    (P, R, "d", "e,d"),
    (P, P, "", "a,b,d,e"),
    (P, P, "a,b,c,d", "a,b,c,d"),
    (TWO_PAIRS, OTHER_PAIRS, "", "c"),
    ("(((a,b),c),((d,e),f));", "(((a,b),f),((d,e),c));", "", "c,f"),
    ("(((a,b),c),((d,e),f));", "(((a,b),f),((d,e),c));", "c", "c,f"),
    // 14: the first three in label order, not in that of the claim; also where the claim is too small or too large
    (AB_C, AC_B, "", "a,b,c"),
    (AB_C, AC_B, "", "c,b,a"),
    (AB_C, AC_B, "b", "b,c,a"),
    (P, Q, "", "a,b,c"),
    (P, Q, "", "d,c,b,a"),
    (P, Q, "", "e,d,c,b,a"),
    (P, Q, "c", "a,b,c,d,e"),
    (P, R, "", "e,d,c,b,a"),
    (P, R, "", "c,e,d"),
    (P, R, "d,e", "e,d,a"),
    (P, R, "a", "e,b,d,a"),
    (TWO_PAIRS, OTHER_PAIRS, "", "d,c,b"),
    (TWO_PAIRS, OTHER_PAIRS, "d", "d,c,a"),
    // 13: the first required label that is missing, in the order of K
    (P, Q, "c", "a,b,d,e"),
    (P, Q, "b,c", "a,c,d,e"),
    (P, Q, "c,b", "a,c,d,e"),
    (P, Q, "b,c", "a,b,d,e"),
    (P, Q, "c,b", "a,b,d,e"),
    (P, Q, "b,c", "a,d,e"),
    (P, Q, "c,b", "a,d,e"),
    (P, Q, "e,d,b", "a"),
    (P, Q, "e,d,b", "e"),
    (P, Q, "e,d,b", "d"),
    (P, Q, "e,d,b", "b"),
    (P, Q, "e,d,b", "d,e"),
    (P, Q, "b,d,e", "e,d"),
    (P, Q, "d,b,e", "b,e"),
    (P, R, "d,e", "a,b,c,d"),
    (P, R, "e,d", "a,b,c,d"),
    // 13 goes before 14 and 15, 14 before 15
    (P, Q, "e", "a,b,c"),
    (P, Q, "d,e", "a,b,c,d"),
    (P, Q, "e,d", "d,c,b,a"),
    (P, Q, "a,e", "a"),
    (P, Q, "e,a", "a"),
    // 6 and 7 of the claim, in its order
    (AB_X, AB_Y, "", "a,x"),
    (AB_X, AB_Y, "", "y,a"),
    (AB_X, AB_Y, "", "a,x,y"),
    (AB_X, AB_Y, "", "a,y,x"),
    (AB_X, AB_Y, "", "b,a,z"),
    (AB_X, AB_Y, "", "z,x"),
    (AB_X, AB_Y, "", "x,z"),
    (AB_X, AB_Y, "b", "b,a,y"),
    ("a;", "b;", "", "a"),
    ("a;", "b;", "", "b"),
    ("a;", "b;", "", "c"),
    ("a;", "b;", "", "b,a"),
    // they go before 13, 14 and 15
    (AB_X, AB_Y, "a", "b,x"),
    (AB_X, AB_Y, "a", "b,y"),
    (AB_X, AB_Y, "a,b", "x"),
    (AB_X, AB_Y, "a,b", "z"),
    ("(((a,b),c),x);", "(((a,c),b),y);", "", "c,b,a,x"),
    ("(((a,b),c),x);", "(((a,c),b),y);", "", "c,b,a,y"),
    ("(((a,b),c),x);", "(((a,c),b),y);", "", "z"),
    // after 8 of the list, and after 6 and 7 of it
    (AB_C, AC_B, "a,b,c", "z"),
    (AB_C, AC_B, "a,b,c", "z,a,b"),
    (AB_C, AC_B, "a,b,c", "a,b,c"),
    (AB_C, AC_B, "c,b,a", "a,b"),
    ("(((a,b),c),x);", "(((a,c),b),y);", "b,a,c", "x"),
    ("(((a,b),c),x);", "(((a,c),b),y);", "b,a,c", "y,x"),
    (AB_X, AB_Y, "x", "y"),
    (AB_X, AB_Y, "y", "x"),
    (AB_X, AB_Y, "a,x", "a,y"),
    (AB_X, AB_Y, "b,y", "z,b"),
    (AB_X, AB_Y, "z", "a,b"),
    (AB_X, AB_Y, "a,x,b", "a,x,b"),
];

/// Claims that cannot be read, and what goes before and after them.
const UNREADABLE: &[Row] = &[
    ("(a,b);", "(b,a);", "", ","),
    ("(a,b);", "(b,a);", "a", "a,"),
    ("(a,b);", "(b,a);", "a", "a,,b"),
    ("(a,b);", "(b,a);", "", "a b"),
    ("(a,b);", "(b,a);", "", " a,b"),
    ("(a,b);", "(b,a);", "", "a,b;"),
    ("(a,b);", "(b,a);", "", "a,b\n"),
    ("(a,b);", "(b,a);", "", "(a,b);"),
    ("(a,b);", "(b,a);", "", "a,a"),
    ("(a,b);", "(b,a);", "b", "b,a,b"),
    ("(a,b);", "(b,a);", "", "a,'a'"),
    ("(a,b);", "(b,a);", "", "a,'a"),
    ("(a,b);", "(b,a);", "", "a,''"),
    ("(a,b);", "(b,a);", "", "'"),
    ("(a,b);", "(b,a);", "", "b,A,a"),
    ("(a_b,c);", "(c,'a b');", "", "c,a_b,'a b'"),
    ("(a_b,c);", "(c,'a b');", "", "'a B',A_b"),
    // before 6, 7 and 8 of the list
    ("(a,b);", "(b,c);", "z", "b,"),
    ("(a,b);", "(b,c);", "a", "b,b"),
    ("(a,b);", "(b,c);", "c", "b c"),
    ("(a,b);", "(b,c);", "b,a,c", "z,z"),
    ("(a,b);", "(b,c);", "c,a", "'"),
    (AB_C, AC_B, "a,b,c", "a,b,"),
    (AB_C, AC_B, "a,b,c", "c,c"),
    (AB_C, AC_B, "a,b,c", ","),
    (AB_C, AC_B, "a,b,c", "''"),
    // a label that a tree lacks, and a required one that is missing, go after what follows it
    ("(a,b);", "(b,c);", "b", "z,"),
    ("(a,b);", "(b,c);", "b", "a,z,z"),
    // a list that cannot be read goes before
    ("(a,b);", "(b,a);", "a,", ","),
    ("(a,b);", "(b,a);", "a,a", "a b"),
    ("(a,b);", "(b,a);", ",", "b,b"),
    ("(a,b);", "(b,a);", "a b", "b"),
    ("(a,b);", "(b,a);", "'a", "'b"),
    ("(a,b);", "(b,a);", "b,B", "a,A"),
    // so do the trees, and 12 in a strict job
    ("(a,b)", "(b,a);", "a", "a,"),
    ("(a,b);", "(b,a", "a", "a,"),
    ("(a,b);", "(b,b);", ",", ","),
    ("(a,b);", "(b,A);", "b", ","),
    ("(a,b);", "(b,c);", ",", ","),
    ("(a,b);", "((b,c),a);", "a", "a,"),
    ("(a,b);", "((b,c),a);", "b,", "a"),
    ("(a,b);", "((b,c),a);", "a", "b,a"),
    (AB_C, "(((a,c),b),x);", "a,b,c", "a,a"),
    (AB_C, "(((a,c),b),x);", "", "c,b,a"),
    (AB_C, "(((a,c),b),x);", "c", "b,a"),
];

/// Labels in other letters, in quotes and bare.
const SPELLINGS: &[Row] = &[
    // a claim is a set of labels, whatever letters the edition takes for the same
    ("((Ab,c),D);", "((aB,C),d);", "AB", "d,C,aB"),
    ("((Ab,c),D);", "((aB,C),d);", "AB", "D,c"),
    ("((Ab,c),D);", "((aB,C),d);", "d,AB", "aB,C"),
    ("((Ab,c),D);", "((aB,C),d);", "", "c,d"),
    ("((Ab,c),D);", "((aB,C),d);", "", "Ab,c,D"),
    ("A;", "a;", "", "A"),
    ("A;", "a;", "", "a"),
    ("A;", "a;", "", ""),
    ("(A,b);", "(B,a);", "", "B,A"),
    ("(A,b);", "(B,a);", "b", "A"),
    ("(A,b);", "(B,a);", "", "a,A"),
    // the three labels of 14 are spelled as in the first tree, in the edition's order
    ("((A,b),C);", "((a,c),B);", "", "c,B,a"),
    ("((A,b),C);", "((A,C),b);", "", "C,b,A"),
    ("((A,b),C);", "((A,C),b);", "", "c,B,a"),
    ("((a,B),c);", "((a,c),B);", "B", "c,B,a"),
    ("((((a,B),c),D),e);", "((((a,B),c),e),D);", "", "e,D,c,B,a"),
    ("((((a,B),c),D),e);", "((((A,b),c),e),d);", "", "E,d,C,b,A"),
    ("((((a,B),c),D),e);", "((((A,b),c),e),d);", "d,E", "a,D,e"),
    ("(('_',B),C);", "(('_',C),B);", "", "C,B,'_'"),
    ("(('_',B),C);", "(('_',c),b);", "", "'_',c,b"),
    ("((z,'Z_'),Y);", "((Z,y),'z_');", "", "'z_',y,Z"),
    ("((a_b,'C_d'),'E f');", "((A_B,'e F'),'c_D');", "", "E_F,'c_d','A b'"),
    ("((a_b,'c_d'),'e f');", "((a_b,e_f),'c_d');", "", "e_f,'c_d','a b'"),
    ("(('a_b','c_d'),'e_ f');", "(('a_b','e_ f'),'c_d');", "'e_ f'", "'e_ f','c_d','a_b'"),
    ("((' ','_'),__);", "((' ','  '),'_');", "", "'_',_,'  '"),
    // bare and in quotes
    ("((a_b,c),'d_e');", "(('a b','c'),'d_e');", "'c'", "'d_e',c,'a b'"),
    ("((a_b,c),'d_e');", "(('a b','c'),'d_e');", "'c',a_b", "'a b','c','d_e'"),
    ("((a_b,c),'d_e');", "(('a b','c'),'d_e');", "'c',a_b", "'c','d_e'"),
    ("((a_b,c),'d_e');", "(('a b','c'),'d_e');", "'d_e',a_b", "'c',a_b"),
    ("((a_b,c),'d_e');", "(('a b','c'),'d_e');", "", "d_e,c"),
    ("((a_b,c),'d_e');", "(('a b','c'),'d_e');", "", "'c','a_b'"),
    ("((a_b,c),'d_e');", "(('a b','c'),'D_E');", "", "'c','a b','d_e'"),
    ("((a-,aZ),a_b);", "((a-,'a b'),aZ);", "", "aZ,'a b'"),
    ("((a-,aZ),a_b);", "((a-,'a b'),aZ);", "", "'aZ','a-',a_b"),
    ("((a-,aZ),a_b);", "((a-,'a b'),aZ);", "aZ,'a b'", "a-,'aZ'"),
    ("(' ','  ');", "(__,_);", "'  '", "' ',__"),
    ("(' ','  ');", "(__,_);", "_,'  '", "__"),
    // 13 at an opening quote
    ("((a_b,c),d);", "(('a b','c'),'d');", "d,'a b','c'", "c,d"),
    ("((a_b,c),d);", "(('a b','c'),'d');", "d,'a b','c'", "a_b,d"),
    ("((a_b,c),d);", "(('a b','c'),'d');", "'a b','c',d", "a_b,c"),
    // strict partners in other letters
    ("('a b',c);", "(C,A_B);", "C", "A_b,c"),
    ("('a b',c);", "(C,A_B);", "C", "c"),
    ("('a b',c);", "(C,'A_B');", "C", "c"),
];

/// Each row in every state of the contents, or in some of them.
pub fn row_jobs() -> Vec<Vec<u8>> {
    let rows = [UNREADABLE, SPELLINGS].concat();
    let plain = VERDICTS.iter().flat_map(|row| {
        let whole = row_job(row);
        [whole.clone(), strict(&whole), with_edition(SECOND, &whole)]
    });
    plain.chain(rows.iter().flat_map(|row| every_state(&row_job(row)))).collect()
}

fn row_job((s, t, k, c): &Row) -> Vec<u8> {
    claim_job(s.as_bytes(), t.as_bytes(), k.as_bytes(), c.as_bytes())
}
