//! Rows of the stored jobs with the line `pieces`: two trees and a list, each with what it is about.

use crate::job::{every_state, job, strict, with_edition, with_pieces, SECOND};
use crate::jobs::{AB_C, AC_B, OTHER_PAIRS, P, Q, R, TWO_PAIRS};

type Row = (&'static str, &'static str, &'static str);

/// Labels in small letters.
const PLAIN: &[Row] = &[
    // 01's printed case and its starred cases: the record follows as without the line
    (TWO_PAIRS, OTHER_PAIRS, "a"),
    (P, Q, ""),
    (P, Q, "c"),
    (P, Q, "b,c"),
    (P, Q, "a,b,d"),
    (P, R, ""),
    (P, R, "d,e"),
    (AB_C, AC_B, "a"),
    ("a;", "a;", ""),
    ("(a,b);", "(c,d);", ""),
    (P, P, ""),
    // nothing required: one piece of all common leaves, and its total is their number; none if there is no common leaf
    ("a;", "b;", ""),
    ("a;", "(b,a);", ""),
    ("(a,b);", "(b,c);", ""),
    ("(a,b);", "(b,a);", ""),
    ("((d,x),(c,b));", "((y,b),(d,c));", ""),
    (TWO_PAIRS, OTHER_PAIRS, ""),
    // all common leaves required
    ("a;", "a;", "a"),
    ("(a,b);", "(b,c);", "b"),
    ("(a,b);", "(b,a);", "b,a"),
    (AB_C, "(c,(b,a));", "c,a,b"),
    (P, P, "e,d,c,b,a"),
    ("((x,a),(b,y));", "(a,(b,z));", "a,b"),
    // one required: one place
    ("(a,b);", "(b,a);", "b"),
    (AB_C, AC_B, "b"),
    (AB_C, AC_B, "c"),
    (P, R, "e"),
    (TWO_PAIRS, OTHER_PAIRS, "d"),
    // the total counts the head of each line: n + k - 1 is reached
    ("((a,x),y);", "((a,x),y);", "a"),
    ("(((a,x),b),y);", "(((a,x),b),y);", "a,b"),
    ("(((a,x),(b,y)),z);", "(((a,x),(b,y)),z);", "b,a"),
    ("((((a,u),(b,v)),w),(c,x));", "((((a,u),(b,v)),w),(c,x));", "a,b,c"),
    ("(((((a,u),(b,v)),w),(c,x)),y);", "(((((a,u),(b,v)),w),(c,x)),y);", "c,b,a"),
    // two, three and four lines with one head, the deeper place first
    ("(((a,z),b),y);", "(((a,z),b),y);", "a,b"),
    ("(y,(b,(z,a)));", "(((a,z),b),y);", "b,a"),
    ("(((((a,z),b),y),c),x);", "(((((a,z),b),y),c),x);", "a,b,c"),
    ("(((((a,x),b),y),c),z);", "(z,(c,(y,(b,(x,a)))));", "c,b,a"),
    ("(((((((a,z),b),y),c),x),d),w);", "(((((((a,z),b),y),c),x),d),w);", "a,b,c,d"),
    // places between lines of one head without a leaf
    ("((((a,x),b),c),z);", "((((a,x),b),c),z);", "a,b,c"),
    ("((((a,b),y),c),d);", "((((a,b),y),c),d);", "d,c,b,a"),
    // a head that is greater than its leaves, all or some of them
    ("((b,a),c);", "(c,(a,b));", "c"),
    ("((z,(a,b)),(y,c));", "((z,(a,b)),(y,c));", "z,y"),
    ("((m,a),(n,z));", "((m,a),(n,z));", "m,n"),
    ("(((m,z),a),n);", "(((m,a),z),n);", "m,n"),
    // leaves in label order, not in that of a text
    ("((((a,z),x),y),b);", "((((a,y),z),x),b);", "a,b"),
    ("((((a,d),c),b),z);", "(((a,(c,b)),d),z);", "a,z"),
    // the order of normal text, not of labels: the places of a and d before those of b and c
    ("(((a,u),(d,v)),((b,w),(c,x)));", "(((a,u),(d,v)),((b,w),(c,x)));", "a,b,c,d"),
    ("((((a,u),(d,v)),y),(((b,w),(c,x)),z));", "((((a,u),(d,v)),y),(((b,w),(c,x)),z));", "a,b,c,d"),
    ("(((c,w),(b,x)),((d,u),(a,v)));", "(((v,a),(u,d)),((x,b),(w,c)));", "d,c,b,a"),
    ("((a,(e,z)),((b,y),((d,w),(c,x))));", "((((x,c),(w,d)),(y,b)),((z,e),a));", "a,b,c,d,e"),
    // nor of the first tree, of the second, or of the list
    ("((c,x),(a,y));", "((a,y),(x,c));", "c,a"),
    ("((a,y),(x,c));", "((c,x),(a,y));", "c,a"),
    ("((c,x),(a,y));", "((c,x),(a,y));", "c,a"),
    ("((b,(z,y)),((d,w),(x,c)));", "(((c,x),(w,d)),((y,z),b));", "d,c,b"),
    // nor of the labels that hang there
    ("((a,z),(b,y));", "((b,y),(a,z));", "a,b"),
    // the lowest ancestor with a required leaf, not the highest
    ("(((a,x),b),y);", "((a,x),(b,y));", "a,b"),
    ("((((a,x),b),y),c);", "((((a,x),b),c),y);", "a,b,c"),
    // a subtree without a required leaf hangs as a whole
    ("((a,(x,(y,z))),b);", "((((a,x),y),z),b);", "a,b"),
    ("((a,b),((w,x),(y,z)));", "((((a,b),w),x),(y,z));", "a,b"),
    ("((a,((w,x),y)),(b,z));", "(((a,w),(y,x)),(b,z));", "a,b"),
    // leaves of one tree only between a leaf and its place
    ("(((a,p),x),b);", "((a,x),b);", "a,b"),
    ("((a,x),b);", "(((a,p),x),b);", "a,b"),
    ("((a,(p,x)),b);", "((a,x),b);", "a,b"),
    ("((a,x),b);", "((a,((p,q),x)),b);", "a,b"),
    ("(((a,p),x),b);", "(((a,q),x),b);", "a,b"),
    ("((((a,(p,q)),x),r),b);", "((a,x),(b,s));", "a,b"),
    ("((((a,b),p),x),c);", "(((a,b),x),(c,q));", "a,b,c"),
    ("((a,p),((b,x),q));", "((b,r),(x,a));", "a"),
    // next to required leaves, and above them all
    ("((a,p),(b,x));", "(a,((b,q),x));", "a,b"),
    ("(((a,b),p),x);", "(x,((b,a),(q,r)));", "a,b"),
    // a leaf in one tree only is on no line
    ("((a,x),b);", "((a,y),b);", "a,b"),
    ("((a,x),(b,z));", "((a,y),(b,z));", "a,b"),
    // places that differ: of disjoint nodes
    ("((a,x),b);", "(a,(b,x));", "a,b"),
    ("((a,x),(b,y));", "((a,y),(b,x));", "a,b"),
    ("(((a,x),b),(c,d));", "((a,b),((c,x),d));", "a,b,c,d"),
    ("((((a,b),x),c),d);", "(((a,b),c),(d,x));", "a,b,c,d"),
    // of a node and one above it in the second tree
    (AB_C, AC_B, "a,c"),
    ("(((a,x),b),c);", "(((a,b),x),c);", "a,b,c"),
    ("(((a,x),b),c);", "(((a,b),c),x);", "a,b,c"),
    ("((((a,b),x),c),d);", "((((a,b),c),d),x);", "a,b,c,d"),
    // of a node and one below it
    (AC_B, AB_C, "a,c"),
    ("(((a,b),c),x);", "(((a,x),b),c);", "a,b,c"),
    ("(((a,b),c),x);", "(((a,b),x),c);", "a,b,c"),
    ("(((a,b),x),c);", "((a,(b,x)),c);", "a,b,c"),
    // some leaves of a place differ, others do not
    ("(((a,x),(b,y)),z);", "((z,(y,b)),(x,a));", "a,b"),
    ("((((a,w),x),(b,y)),z);", "(((a,x),((b,w),y)),z);", "a,b"),
    ("(((a,(x,y)),b),z);", "(((a,y),b),(x,z));", "a,b"),
    // the piece has its head, which is required there, and no other leaf
    ("(((d,(a,b)),c),e);", "((c,d),((a,b),e));", "d,e"),
    ("(((a,x),y),b);", "((a,(x,y)),b);", "a,b"),
    ("((a,(x,y)),(b,z));", "(((a,x),y),(b,z));", "b,a"),
    // ties: in one piece, in two and in three at once
    ("(((a,x),y),b);", "(((a,y),x),b);", "a,b"),
    ("(((a,x),y),((b,u),v));", "(((a,y),x),((b,v),u));", "a,b"),
    ("(((a,y),x),((b,v),u));", "(((a,x),y),((b,u),v));", "a,b"),
    ("((((z,x),y),((m,b),a)),(d,(e,f)));", "((((z,y),x),((m,a),b)),(d,(f,e)));", "z,m"),
    ("((((((a,z),y),((b,x),w)),v),u),c);", "((((((a,y),z),((b,w),x)),u),v),c);", "a,b,c"),
    ("((((((a,z),y),((b,x),w)),v),u),c);", "((((((a,y),z),((b,w),x)),u),v),c);", "a,b"),
    ("((a,((u,v),(w,x))),b);", "((a,((u,w),(v,x))),b);", "b,a"),
    ("((a,((u,v),(w,x))),(b,((c,d),(e,f))));", "((a,((u,w),(v,x))),(b,((c,e),(d,f))));", "b,a"),
    // sizes differ within a piece
    ("((a,(((u,v),w),x)),b);", "((a,((u,w),(v,x))),b);", "a,b"),
    ("(((((a,u),v),w),x),b);", "(((((a,x),w),v),u),b);", "a,b"),
    ("(((((a,u),v),w),x),((b,y),z));", "(((((a,u),x),v),w),((b,z),y));", "a,b"),
];

/// Refusals: those of the job without the line, and the program prints nothing else.
const REFUSED: &[Row] = &[
    // 1 to 5 in each body, and what goes before
    ("(a b);", "(a,b", "a,"),
    ("(a,b)", "(a b);", "a,a"),
    ("aaaaaaaaaaaaaaaaaaaaaaaaaaaaaaaaa;", "a;", ""),
    ("(a,a);", "(a,b", ""),
    ("a;", "(a b);", ","),
    ("a;", "(a,b)", ","),
    ("a;", "aaaaaaaaaaaaaaaaaaaaaaaaaaaaaaaaa;", ","),
    ("a;", "(a,a);", ","),
    ("(a,b);", "(b,a);", "a b"),
    ("(a,b);", "(b,a);", "a,"),
    ("(a,b);", "(b,a);", "aaaaaaaaaaaaaaaaaaaaaaaaaaaaaaaaa"),
    ("(a,b);", "(b,a);", "a,b,a"),
    ("", "", ""),
    ("a;", "", ""),
    // 6 and 7
    ("(a,b);", "(b,c);", "c"),
    ("(a,b);", "(b,c);", "a"),
    ("(a,b);", "(b,c);", "b,a,c"),
    ("(a,b);", "(b,c);", "b,c,a"),
    ("a;", "b;", "z"),
    // 8, also where leaves hang at one place in both trees
    (AB_C, AC_B, "a,b,c"),
    (P, Q, "c,b,a"),
    (P, R, "e,d,c,b,a"),
    ("((((a,x),b),c),y);", "((((a,x),c),b),y);", "c,b,a"),
    ("(((a,b),x),(c,d));", "(((a,c),x),(b,d));", "d,b,c"),
    // 12 in a strict job: before the list is read, and before 8
    ("((a,b),x);", "(a,b);", "a,"),
    ("(a,b);", "((x,a),b);", "b"),
    ("((a,b),c);", "(((a,c),b),x);", "a,b,c"),
];

/// Labels in other letters, in quotes and bare.
const SPELLINGS: &[Row] = &[
    // every label as the first tree spells it, heads too
    ("(((A,x),b),Y);", "(((a,X),B),y);", "a,B"),
    ("(((a,X),B),y);", "(((A,x),b),Y);", "A,b"),
    ("((A,x),b);", "((a,X),B);", ""),
    ("((A,x),b);", "((a,X),B);", "X"),
    ("A;", "a;", ""),
    ("A;", "a;", "a"),
    ("(A,b);", "(B,a);", "b"),
    // the edition's order: of heads, of leaves, of places
    ("((b,x),(C,Y));", "((c,y),(B,X));", "c,b"),
    ("((b,x),(C,Y));", "((C,Y),(b,x));", "C,b"),
    ("((a,(b,C)),(D,x));", "((a,(b,C)),(D,x));", "a,D"),
    ("(((m,Z),a),B);", "(((M,z),A),b);", "m"),
    ("((((a,u),(D,v)),y),(((B,w),(c,x)),z));", "((((a,u),(D,v)),y),(((B,w),(c,x)),z));", "a,B,c,D"),
    ("(((a,X),y),((b,U),v));", "(((A,Y),x),((B,V),u));", "A,B"),
    ("(((a,X),y),((b,U),v));", "(((a,y),X),((b,v),U));", "b,a"),
    // under the first edition these are other labels
    ("((a,A),(b,B));", "((a,A),(b,B));", "a,b"),
    ("((a,x),b);", "((a,X),b);", "b,a"),
    ("((a,x),b);", "((A,x),b);", "b"),
    // 6, 7, 8 and 12 of labels in other letters
    ("((a,x),b);", "((A,x),B);", "A,b"),
    ("((a,x),B);", "((a,x),b);", "b,z"),
    ("(((A,x),b),C);", "(((a,x),c),B);", "c,B,a"),
    ("((A,x),b);", "((a,y),B);", "a"),
    // quotes: read in any form, written in one
    ("(('a_b',x_y),c);", "((c,'x y'),'a_b');", "c"),
    ("((a_b,'x_y'),'c');", "((c,'x_y'),'a b');", "'c'"),
    ("((a_b,'x_y'),'c d');", "((a_b,'x_y'),c_d);", "'a b',c_d"),
    ("(('a_b','x_y'),('c_d',z));", "(('x_y','a_b'),(z,'c_d'));", "'c_d','a_b'"),
    ("(('a_b','x_y'),('c d','_'));", "(('x_y','a_b'),('_',c_d));", "c_d,'a_b'"),
    ("(((a_,a-),'a_'),aZ);", "(((a_,'a_'),'a-'),aZ);", "aZ"),
    ("(((a_,a-),'a_'),aZ);", "(((a_,'a_'),'a-'),aZ);", "'a ','aZ'"),
    ("((_,'_'),(' a',__));", "((' ','_'),('  ',_a));", "_a,_"),
    ("((' ','  '),(___,'_'));", "((_,'   '),(__,'_'));", "'_'"),
    ("((' ','  '),(___,'_'));", "((_,'   '),(__,'_'));", ""),
    ("(('A_b','X y'),'c');", "(('a_B',x_Y),C);", "C,'A_B'"),
    ("((a_b,x),y);", "(('a_b',x),y);", "'a_b'"),
    ("((a_b,x),y);", "(('a_b',x),y);", "x,y"),
    // a label that is not whole
    ("(a,'x", "(a,x);", "a"),
    ("(a,x);", "(a,'');", "a"),
    ("(a,x);", "(x,a);", "a,'a"),
];

/// Each row with the line, in some states of the contents or in all of them.
pub fn row_jobs() -> Vec<Vec<u8>> {
    let plain = [PLAIN, REFUSED].concat().into_iter().flat_map(|row| {
        let whole = row_job(row);
        [whole.clone(), strict(&whole), with_edition(SECOND, &whole)]
    });
    let spelled = SPELLINGS.iter().flat_map(|&(s, t, k)| [every_state(&row_job((s, t, k))), every_state(&row_job((t, s, k)))].concat());
    plain.chain(spelled).map(|j| with_pieces(&j)).collect()
}

fn row_job((s, t, k): Row) -> Vec<u8> {
    job(s.as_bytes(), t.as_bytes(), k.as_bytes())
}
