//! Texts about capital and small letters: labels that are equal, or stand in another order, under the second edition only.

use crate::agree::Label;
use crate::drawn::{one_byte_apart, small_cased};
use crate::limits::LABEL;
use crate::quotes::damaged_texts;
use crate::random::Random;
use crate::spelling::{quoted, recased};
use crate::text::shown;
use crate::trees::{caterpillar, join, leaf, random_tree};

/// Trees, each with what it is about.
const TREES: &[&[&str]] = &[
    // a label that repeats under the second edition
    &["(A,a);", "(a,A);", "(ab,aB);", "(AB,ab);", "(Z,z);", "(z9,Z9);", "(a.b,A.B);", "(A-b,a-B);", "((a,b),(c,B));", "((a,b),(B,A));"],
    // letters are compared when underscores and quotes are decoded
    &["('A',a);", "(a,'A');", "('a','A');", "(a_b,'A B');", "('a b',A_B);", "(a_b,A_b);", "('a_b','A_B');", "(a_b,'A_B');", "(_a,' A');"],
    // a repeat goes before what follows it; a label that is not whole is not compared
    &["(a,A", "(a,A b);", "(a,A(", "(a,A'", "(a,A)A;", "(a,'A'b);", "(a,'A'(", "(a,'A''", "(a,(b,(c,A)));"],
    &["(a,'A", "(a,'A(", "(a,'A\n');", "('a,A);", "(a,'A ');", "(a,A_);"],
    // order: letters alike, an underscore after the capitals or before all letters, a label before a longer one
    &["(B,a);", "(a,B);", "((b,C),(a,D));", "((D,c),(B,a));", "(aB,(AC,(aA,Ad)));", "((b,A),(a1,B1));", "((Zz,a),(zy,A1));", "(((e,D),c),(B,a));"],
    &["(('_',A),b);", "('_',Z);", "('_',z);", "('_a',(A,b));", "('a_',aZ);", "('A_',(aZ,AB));", "((Z,'_'),(a,'-'));", "(('_',' '),(A,'0'));"],
    &["(A,ab);", "(Ab,a);", "(aB,A);", "((ABc,ab),A);", "(a,(A-,(aA,A_)));", "(A,(a-,(aa,a_)));", "((a_,'a_'),aA);"],
    // labels are written as they are spelled
    &["'AbC';", "'A b';", "A_b;", "'A_b';", "'Ab_C d';", "((A,'B'),('c_D','E f'));", "(('E f','c_D'),('B',A));"],
    // bytes beside the letters are none
    &["(@,A);", "(A,@);", "(Z,[);", "([,Z);", "(`,a);", "(a,`);", "(z,{);", "({,z);", "@;", "[;", "`;", "{;", "(A,a`);", "(a,A@);", "(Z[,z);"],
];

/// Lists, each with what it is about.
const LISTS: &[&[&str]] = &[
    &["A,a", "a,A", "ab,aB", "Z,z", "a,b,c,B", "a,b,B,A", "a.b,A.B", "z9,Z9", "a-,A_", "A,b,C"],
    &["'A',a", "a,'A'", "a_b,'A B'", "'a b',A_B", "'a_b','A_B'", "a_b,'A_B'", "'a_b',A_B", "_a,' A'"],
    &["a,A,", "a,A b", "a,A;", "a,A'", "a,'A'b", "a,'A", "a,'A(", "'a,A", "a,'A '", "a,A,,b", "b,,B"],
    &["B,a", "'Ab',a_B,'a_B'", "z,Y,x", "Z,_,'_',-"],
    &["@,A", "A,@", "Z,[", "[,Z", "`,a", "a,`", "z,{", "{,z", "@", "[", "`", "{", "a,A@", "Z,z["],
];

/// Pairs of labels of one byte each: neighbours, and those as far apart as a capital letter and its small one. The first goes from below to
/// above all label bytes, so many are no labels.
pub fn pairs() -> Vec<[Label; 2]> {
    (b' '..=0x7f).flat_map(|b| [[b, b + 1], [b, b + b'a' - b'A']]).map(|pair| pair.map(|b| vec![b])).collect()
}

/// Labels as long as may be with a capital letter at one place, each place in turn, and all with small letters.
pub fn one_capital() -> Vec<[Label; 2]> {
    one_byte_apart(5 * LABEL).split_off(4 * LABEL).into_iter().map(|x| [x, vec![b'a'; LABEL]]).collect()
}

/// Two labels of one byte more than may be, equal under the second edition.
fn overlong() -> [Label; 2] {
    [vec![b'a'; LABEL + 1], vec![b'A'; LABEL + 1]]
}

/// As they stand in a text: the first in quotes, the second bare if it can be.
pub fn tokens(pair: &[Label; 2]) -> [Vec<u8>; 2] {
    [quoted(&pair[0]), shown(&pair[1])]
}

/// Every byte that a label may have as a label of its own, a letter as a capital or a small one.
fn alphabet(r: &mut Random) -> Vec<Label> {
    let letters: Vec<Label> = (b'a'..=b'z').map(|b| recased(r, &[b])).collect();
    let others = b"0123456789.- _".iter().map(|&b| vec![b]);
    let mut out: Vec<Label> = letters.into_iter().chain(others).map(|x| quoted(&x)).collect();
    r.shuffle(&mut out);
    out
}

pub fn tree_texts() -> Vec<Vec<u8>> {
    let mut out: Vec<Vec<u8>> = TREES.concat().iter().map(|x| x.as_bytes().to_vec()).collect();
    out.extend(paired().iter().map(|[x, y]| join(leaf(x), leaf(y)).text()));
    let mut r = Random(15);
    for _ in 0..6 {
        let all = alphabet(&mut r);
        out.extend([caterpillar(&all).text(), random_tree(&mut r, &all).text()]);
    }
    let [trees, _] = drawn();
    out.extend(trees);
    out
}

pub fn list_texts() -> Vec<Vec<u8>> {
    let mut out: Vec<Vec<u8>> = LISTS.concat().iter().map(|x| x.as_bytes().to_vec()).collect();
    out.extend(paired().iter().map(|pair| pair.join(&b","[..])));
    let [_, lists] = drawn();
    out.extend(lists);
    out
}

/// All pairs, as they stand in a text.
fn paired() -> Vec<[Vec<u8>; 2]> {
    let in_quotes = pairs().into_iter().map(|pair| pair.map(|x| quoted(&x)));
    let long = one_capital().into_iter().chain([overlong()]).map(|pair| tokens(&pair));
    in_quotes.chain(long).collect()
}

/// Trees and lists drawn at random, as they are and with damage.
fn drawn() -> [Vec<Vec<u8>>; 2] {
    let mut r = Random(151);
    let [mut trees, mut lists] = damaged_texts(&mut r, 100, small_cased);
    for _ in 0..100 {
        let [s, t, k] = small_cased(&mut r);
        trees.extend([s, t]);
        lists.push(k);
    }
    [trees, lists]
}
