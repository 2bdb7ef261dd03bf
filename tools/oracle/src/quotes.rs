//! Texts about quotes and underscores: labels in each form they may have, and quotes that break their rules.

use crate::agree::Label;
use crate::drawn::damaged_quoted;
use crate::limits::{LABEL, LEAVES, LIST};
use crate::random::Random;
use crate::spelling::quoted;

/// Trees, each with what it is about.
const TREES: &[&[&str]] = &[
    // a bare underscore is a blank, a quoted one itself: equal labels and order
    &["(a_b,'a b');", "('a b',a_b);", "(a_b,a_b);", "('a b','a b');", "('a_b','a_b');", "(a_b,'a_b');", "('a_b',a_b);", "('a',a);", "(a,'a');"],
    &["(a-,a_);", "((a-,aZ),(a_,aa));", "((_,-),('_',Z));", "(('_a',a),(_a,A));", "(a__b,a_b);", "(a_,_a);", "(a-b,a_b);", "(a-b,'a_b');"],
    // a blank is byte 32 only, and stands between quotes only
    &["'a\tb';", "'a\nb';", "'\t';", "(a,'\r');", "'a\u{a0}b';", " 'a';", "( 'a',b);", "('a' ,b);", "('a', b);", "'a' ;", "'a'; "],
    // no doubled quote; what follows a label; a quote where no label may stand
    &["'a''b';", "(a,'a''b');", "('a','a''b');", "(b,'a''b');", "'a'b;", "b'a';", "(a,'a'b);", "(c,'a'b);", "(b,b'a');", "(c,b'a');"],
    &["(a,b)'c';", "(a,a)'c';", "(a'", "(a'b,c);", "a;'", "'a';'", "'a';'b';", "'a'(", "(a,'a'(", "(c,'a'(", "('a'b',c);", "(a,b');", "('a'',b);"],
    // nothing between the quotes
    &["'", "''", "'''", "''''", "'';", "''a;", "('',a);", "(a,'');", "(a,''", "(a,'''", "('", "(a,'", "(a,b,'');", "(','a);", "(a,''a);"],
    // a label whose quote does not close is not compared
    &["(a,'a", "(a,a", "('a','a", "(a_,'a ", "(a,'a'", "(a,'a(", "(a,'a;", "(a,'a,b);", "(a,'a)", "(a,'a\n');", "('a,a);", "('a,'a');", "'a", "'a;"],
    // how a label is written
    &["'a b';", "a_b;", "'abc';", "'a_b c';", "'a_b';", "' ';", "_;", "'_';", "'  ';", "'_ ';", "' _';", "'.-9Z';", "('b c',('a_b',a));"],
    &["((b_c,'b_c'),('b_ c',b__c));", "(('a_','a '),(a,'a_ '));", "((('A','b'),'_'),('c',' '));"],
    // blanks only
    &["(' ',_);", "(_,' ');", "('_',' ');", "((____,' '),('  ',___));", "('  ',' ');", "(__,'_');"],
    // places count every byte
    &["(('a b',c),('d',c));", "(('a b','c d'),a_b);", "(('a b',c),('d'.e));", "(('a b',c),('d','e')", "('a b',('c',''));", "(('a',' '),('_',''));"],
];

/// Lists, each with what it is about.
const LISTS: &[&[&str]] = &[
    &["a_b,'a b'", "'a b',a_b", "a_b,a_b", "'a b','a b'", "'a_b','a_b'", "a_b,'a_b'", "'a_b',a_b", "'a',a", "a,'a'", "'a_b',a,'a b'", "a-b,a_b"],
    &["'a\tb'", "'a\nb'", "'\t'", " 'a'", "'a' ", "'a' ,b", "'a', b", "a b", "'a,b'"],
    &["'a''b'", "a,'a''b'", "b,'a''b'", "'a'b", "b'a'", "a,'a'b", "c,'a'b", "b,b'a'", "'a';", "'a'(", "a,'a'(", "a'", "a,b'"],
    &["'", "''", "'''", "''''", "'',a", "a,''", "a,'", "a,'''", "',a"],
    &["a,'a", "a,a", "'a','a", "a_,'a ", "a,'a(", "a,'a,b", "a,'a\n'", "'a,a", "'a"],
    &["'a b'", "a_b", "'abc'", "'a_b c'", "'_'", "' '", "_", "'  '", "' _','_ '", "' ',_", "_,' '", "'_',_", "'b','a',c"],
    &["'a b','c d',a_b", "'a b','c d','", "'a b',c,'d' e", "'a b',,c", "'a b',"],
];

/// A few of the bytes that may stand between the quotes, and how many of each: below, at and above the limit.
fn limit_tokens() -> Vec<Vec<u8>> {
    let mut out = Vec::new();
    for n in [LABEL - 1, LABEL, LABEL + 1] {
        for x in ["a", " ", "_"] {
            out.push(quoted(x.repeat(n).as_bytes()));
        }
        let open = format!("'{}", "a".repeat(n));
        // the end of the text, a wrong byte and a second label where the closing quote should be
        out.extend(["", "(", "\n", ",b'"].map(|x| format!("{open}{x}").into_bytes()));
    }
    out.push("_".repeat(LABEL).into_bytes());
    out.push("_".repeat(LABEL + 1).into_bytes());
    out.push(format!("'{}\t'", "a".repeat(LABEL - 1)).into_bytes());
    out.push(format!("'{}''", " ".repeat(LABEL)).into_bytes());
    out
}

/// Two labels that are equal and as long as may be, or one byte longer, bare and in quotes.
fn limit_pairs() -> Vec<[Vec<u8>; 2]> {
    let mut out = Vec::new();
    for n in [LABEL, LABEL + 1] {
        let bare = [&vec![b'a'; n - 1][..], b"_"].concat();
        let full = quoted(&[&vec![b'a'; n - 1][..], b" "].concat());
        out.extend([[bare.clone(), full.clone()], [full.clone(), bare], [full.clone(), full]]);
    }
    out
}

pub fn tree_texts() -> Vec<Vec<u8>> {
    let mut out: Vec<Vec<u8>> = TREES.concat().iter().map(|x| x.as_bytes().to_vec()).collect();
    for x in limit_tokens() {
        out.push([&x[..], b";"].concat());
        out.push([b"(b,", &x[..], b");"].concat());
    }
    out.extend(limit_pairs().iter().map(|[x, y]| [b"(", &x[..], b",", y, b");"].concat()));
    // a `(` between quotes is none of the tree's
    let open = "(".repeat(LEAVES - 1);
    out.extend(["'", "''", "'a'", "'(", "('a'"].map(|x| format!("{open}{x}").into_bytes()));
    out.push(format!("('{open}((').").into_bytes());
    out
}

/// Labels of few bytes.
fn brief(n: usize) -> Vec<Label> {
    let one = (b'0'..=b'9').chain(b'A'..=b'Z').chain(b'a'..=b'z').map(|b| vec![b]);
    let two = (b'a'..=b'z').map(|b| vec![b'.', b]);
    one.chain(two).take(n).collect()
}

/// As many labels as may be, and what may follow, an opening quote above all.
pub fn full_lists() -> Vec<Vec<u8>> {
    let bare = brief(LIST).join(&b","[..]);
    let full = brief(LIST).iter().map(|x| quoted(x)).collect::<Vec<_>>().join(&b","[..]);
    let over = format!(",'{}'", "a".repeat(LABEL + 1));
    let tails = [",''", ",'0'", ",'", ",'~", &over, ",'a", "", ",", ",'''", ",_", "'", ",,'a'"];
    let mut out: Vec<Vec<u8>> = tails.iter().map(|x| [&bare[..], x.as_bytes()].concat()).collect();
    out.push(full.clone());
    out.push([&full[..], b",'"].concat());
    out.push([&full[..], b",0"].concat());
    out.push([&full[..full.len() - 1], b",''"].concat());
    out
}

pub fn list_texts() -> Vec<Vec<u8>> {
    let mut out: Vec<Vec<u8>> = LISTS.concat().iter().map(|x| x.as_bytes().to_vec()).collect();
    for x in limit_tokens() {
        out.push(x.clone());
        out.push([b"b,", &x[..]].concat());
    }
    out.extend(limit_pairs().iter().map(|pair| pair.join(&b","[..])));
    out
}

/// Every byte value between quotes.
pub fn inside() -> Vec<Vec<u8>> {
    (0..=255u8).map(|b| vec![b'\'', b, b'\'']).collect()
}

/// Every byte value where a label has as many bytes as may be and its quote should close.
pub fn at_the_limit() -> Vec<Vec<u8>> {
    (0..=255u8).map(|b| [&b"'"[..], &[b'a'; LABEL], &[b], b"'"].concat()).collect()
}

/// Every byte value just after a closing quote.
pub fn behind() -> Vec<Vec<u8>> {
    (0..=255u8).map(|b| vec![b'\'', b'a', b'\'', b]).collect()
}

/// Trees and lists with damage, of bodies drawn at random.
pub fn damaged_texts(r: &mut Random, count: usize, bodies: fn(&mut Random) -> [Vec<u8>; 3]) -> [Vec<Vec<u8>>; 2] {
    let mut out = [Vec::new(), Vec::new()];
    for i in 0..count {
        let [s, t, k] = bodies(r);
        let tree = if i % 2 == 0 { s } else { t };
        out[0].push(damaged_quoted(r, &tree));
        out[1].push(damaged_quoted(r, &k));
    }
    out
}
