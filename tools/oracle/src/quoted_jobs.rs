//! The stored jobs about quotes and underscores.

use crate::agree::Label;
use crate::drawn::{damaged_quoted, labels, large_quoted, small_quoted};
use crate::families::{long_decoded, long_quoted, strangers};
use crate::job::{job, strict};
use crate::jobs::{damaged, filled, list};
use crate::limits::{JOB, LABEL, LEAVES, LIST};
use crate::quotes;
use crate::random::Random;
use crate::spelling::{quoted, Bodies, Form};
use crate::trees::{caterpillar, random_tree};

/// Two trees and a list. Each as a job, as a strict one, and as a strict one with the trees exchanged.
const ROWS: &[(&str, &str, &str)] = &[
    // the first tree bare, the second in quotes, the list either
    ("((a_b,c),d);", "(('a b','c'),'d');", ""),
    ("((a_b,c),d);", "(('a b','c'),'d');", "'a b'"),
    ("((a_b,c),d);", "(('a b','c'),'d');", "d,a_b"),
    ("(('a b',c),'d');", "((a_b,'d'),c);", "'c',a_b"),
    ("(('a_b',c),d);", "((c,'a_b'),'d');", "'a_b'"),
    ("((a_b,'a_b'),c);", "(('a b',c),'a_b');", ""),
    ("((a_b,'a_b'),c);", "(('a b',c),'a_b');", "c,'a_b'"),
    ("('a b','a_b');", "(a_b,'a_b');", "'a_b',a_b"),
    ("'abc';", "abc;", "'abc'"),
    ("'a b';", "a_b;", "a_b"),
    ("'a_b c';", "'a_b c';", ""),
    // labels of blanks only
    ("' ';", "_;", ""),
    ("(' ','  ');", "(__,_);", "'  '"),
    ("((' ','  '),(___,'_'));", "((_,'   '),(__,'_'));", ""),
    ("((' ','  '),(___,'_'));", "((_,'   '),(__,'_'));", "'_',' '"),
    // ties: a blank goes before `-`, an underscore after the capitals
    ("((a-,aZ),a_b);", "((a-,a_b),aZ);", ""),
    ("((a-,aZ),'a b');", "((a-,a_b),aZ);", ""),
    ("((a-,aZ),'a_b');", "((a-,'a_b'),aZ);", ""),
    ("((a-,aa),'a_b');", "((a-,'a_b'),aa);", "aa"),
    ("((a-,aZ),a_b);", "((a-,a_b),aZ);", "aZ"),
    ("((a_b,a-),(aZ,'a_b'));", "((a_b,aZ),(a-,'a_b'));", ""),
    ("((a_,a),(a-,'a_'));", "((a,a-),('a ','a_'));", ""),
    ("((a_,a),(a-,'a_'));", "((a,a-),('a ','a_'));", "'a_'"),
    ("((((a_b,a-),aZ),b),'a_b');", "((((a_b,aZ),a-),b),'a_b');", ""),
    ("((((a_b,a-),aZ),b),'a_b');", "((((a_b,a-),aZ),'a_b'),b);", ""),
    ("((_,-),(.,0));", "((_,.),(-,0));", ""),
    ("(('_',-),(.,0));", "(('_',.),(-,0));", ""),
    // 6 and 7, with the label's place in the list
    ("(a_b,c);", "('a b',c);", "'a_b'"),
    ("('a_b',c);", "(a_b,c);", "'a_b'"),
    ("('a_b',c);", "(a_b,c);", "c,a_b"),
    ("('a b',c);", "('a_b',c);", "'c','a b'"),
    ("('a b',(c,d));", "((a_b,'c'),e);", "'a b','c',d"),
    ("('a b',(c,d));", "((a_b,'c'),e);", "'a b','c',e,d"),
    ("(' ',a);", "(_,b);", "' ',a"),
    ("(' ',a);", "(_,b);", "_,'b'"),
    // a list that cannot be read goes before 6
    ("(a_b,c);", "('a b',c);", "x,'c"),
    ("(a_b,c);", "('a b',c);", "x,c,'c'"),
    ("(a_b,c);", "('a b',c);", "x,''"),
    ("(a_b,c);", "('a b',c);", "a_b,'a b'"),
    // 8, with labels that need quotes and such that do not
    ("((a,b),c);", "((a,c),b);", "'c','b','a'"),
    ("((a_b,'c_d'),'e f');", "((a_b,'e f'),'c_d');", "e_f,'c_d','a b'"),
    ("(('a_b','c_d'),'e_ f');", "(('a_b','e_ f'),'c_d');", "'e_ f','c_d','a_b'"),
    ("((' ','_'),__);", "((' ','  '),'_');", "'_',_,'  '"),
    ("((a-,a_),'a_');", "((a-,'a_'),a_);", "'a_',a-,a_"),
    ("((a-,(a_,b)),'a_');", "((a-,'a_'),(b,a_));", "b,'a_',a-,'a '"),
    // 12: partners in the other form, and labels that only look alike
    ("(a_b,c);", "('c','a b');", "c"),
    ("(a_b,c);", "(c,'a_b');", "c"),
    ("('a_b',c);", "(c,'a_b');", "c"),
    ("(c,'a b');", "('c',(a_b,'a_b'));", ""),
    ("(('a b','c'),'_');", "((a_b,c),_);", ""),
    ("(('a b','c'),' ');", "((a_b,c),_);", "' '"),
    ("(('a b','c'),('d e',f));", "((a_b,c),(f,'d_e'));", "f"),
    ("(('a b','c'),f);", "((a_b,c),('d e',f));", "f"),
    ("('  ',(' ','_'));", "(__,(_,' _'));", ""),
    ("(abcdefghijklmno_,a);", "(a,'abcdefghijklmno ');", ""),
    ("(abcdefghijklmno_,a);", "(a,'abcdefghijklmno_');", ""),
    // a tree that cannot be read goes before 12, a list after it
    ("('a b',x);", "(a_b,'y", ""),
    ("('a b',x);", "(a_b,'');", ""),
    ("('a b',x);", "(a_b,y);", "'"),
    ("('a b',x);", "(a_b,'x');", "'"),
    ("('a b',x);", "(a_b,'x');", "x,'x'"),
];

pub fn row_jobs() -> Vec<Vec<u8>> {
    let texts = ROWS.iter().map(|&(s, t, k)| [s, t, k].map(str::as_bytes));
    texts.flat_map(|[s, t, k]| [job(s, t, k), strict(&job(s, t, k)), strict(&job(t, s, k))]).collect()
}

/// Each text as the first tree, the second, or both; each list behind trees that hold most of its labels.
fn text_jobs() -> Vec<Vec<u8>> {
    let mut out = Vec::new();
    for x in quotes::tree_texts() {
        out.extend([job(&x, b"(a,'a b');", b"a"), job(b"(a_b,'a');", &x, b"'a'"), job(&x, &x, b"")]);
    }
    let tree = b"(((a,b),(a_b,'a_b')),((c,_),('_','c d')));";
    let other = b"((('a','c'),('a b','a_b')),(('b',' '),('_',c_d)));";
    for x in [quotes::list_texts(), quotes::full_lists()].concat() {
        out.push(job(tree, other, &x));
    }
    out
}

/// Every byte value between quotes, at the limit, and just after a closing quote: in each body.
fn byte_jobs() -> Vec<Vec<u8>> {
    let mut out = Vec::new();
    for x in [quotes::inside(), quotes::at_the_limit(), quotes::behind()].concat() {
        out.push(job(&[&x[..], b";"].concat(), b"a;", b""));
        out.push(job(b"(a,b);", b"(b,a);", &x));
    }
    for x in quotes::inside() {
        out.push(job(b"b;", &[b"(b,", &x[..], b");"].concat(), b"'b'"));
    }
    out
}

/// As many labels of as many bytes as may be, in each pair of forms.
fn greatest_jobs(r: &mut Random) -> Vec<Vec<u8>> {
    let mut out = Vec::new();
    let plain = [[Form::Bare, Form::Quoted, Form::Quoted], [Form::Quoted, Form::Bare, Form::Bare], [Form::Quoted; 3]];
    let held: Vec<Label> = long_quoted(LEAVES).iter().map(|x| x[1..=LABEL].to_vec()).collect();
    for (xs, forms) in plain.map(|f| (long_decoded(LEAVES), f)).into_iter().chain([(held, [Form::Quoted; 3])]) {
        let mut mixed = xs.clone();
        r.shuffle(&mut mixed);
        let up = caterpillar(&xs);
        let random = random_tree(r, &mixed);
        let near = caterpillar(&mixed);
        for (first, second, k) in [(&up, &up.mirrored(), LIST), (&random, &random, 2), (&random, &up, 0), (&near, &random, 3)] {
            let bodies = Bodies { first: first.clone(), second: second.clone(), required: mixed[..k].to_vec() };
            let [s, t, k] = bodies.spelled(r, forms).texts();
            out.push(job(&s, &t, &k));
        }
        let mut other = mixed.clone();
        *other.last_mut().unwrap() = strangers(&mixed[LEAVES - 1..]).remove(0);
        let bodies = Bodies { first: caterpillar(&mixed), second: caterpillar(&other), required: Vec::new() };
        let [s, t, k] = bodies.spelled(r, forms).texts();
        out.extend([strict(&job(&s, &t, &k)), strict(&job(&t, &s, &k)), strict(&job(&t, &t, &k))]);
    }
    // one too many
    let more = long_quoted(LIST + 1);
    out.push(job(&caterpillar(&more).text(), b"a;", b""));
    out.push(job(b"a;", &caterpillar(&more).mirrored().text(), b""));
    out.push(job(b"a;", b"a;", &list(&more)));
    out.push(job(b"a;", b"a;", &[&list(&more[..LIST])[..], b",''"].concat()));
    out
}

/// A label in quotes that is longer than all else.
fn long_jobs() -> Vec<Vec<u8>> {
    let mut out = Vec::new();
    for filler in [&b" "[..], b"'", b"a", b"a'"] {
        out.push(filled(JOB, [b"'", b"a;", b""], 0, filler));
        out.push(filled(JOB, [b"a;", b"(a,'", b""], 1, filler));
        out.push(filled(JOB, [b"a;", b"a;", b"'"], 2, filler));
        out.push(filled(JOB + 1, [b"a;", b"a;", b"'"], 2, filler));
    }
    // as many short labels as may be, in quotes
    let xs: Vec<Label> = labels(LEAVES).iter().map(|x| quoted(x)).collect();
    out.push(job(&caterpillar(&xs).text(), &caterpillar(&labels(LEAVES)).mirrored().text(), &list(&xs)));
    out
}

pub fn quoted_jobs() -> Vec<Vec<u8>> {
    let mut r = Random(1212);
    let mut out = row_jobs();
    out.extend(text_jobs());
    out.extend(byte_jobs());
    out.extend(greatest_jobs(&mut r));
    out.extend(long_jobs());
    for i in 0..500 {
        let [s, t, k] = small_quoted(&mut r);
        let plain = job(&s, &t, &k);
        out.push(if i % 2 == 0 { strict(&plain) } else { plain });
    }
    for i in 0..300 {
        let mut texts = small_quoted(&mut r);
        texts[i % 3] = damaged_quoted(&mut r, &texts[i % 3].clone());
        let [s, t, k] = texts;
        out.push(job(&s, &t, &k));
    }
    for i in 0..60 {
        let [s, t, k] = large_quoted(&mut r);
        let plain = job(&s, &t, &k);
        out.push(match i % 3 {
            0 => strict(&plain),
            1 => damaged(&mut r, &plain),
            _ => plain,
        });
    }
    out
}
