//! The stored stream of texts for the readers and the writer: each case is a kind byte (`t` a tree, `l` a list, `T` and `L` the same under
//! the second edition, `p` a place of eight bytes), the length as two bytes, and the text. What must be printed for it is a line.

use crate::drawn::small_quoted;
use crate::edition::Edition;
use crate::families::{long_labels, long_quoted};
use crate::lengths;
use crate::letters;
use crate::limits::{LABEL, LEAVES, LIST};
use crate::places::place_cases;
use crate::quotes;
use crate::random::Random;
use crate::text::{read_parts, read_tree};
use crate::trees::{caterpillar, random_tree};

#[derive(Clone)]
pub struct Case {
    pub kind: u8,
    pub text: Vec<u8>,
}

fn labels(n: usize) -> Vec<Vec<u8>> {
    (0..n).map(|i| format!("t{i}").into_bytes()).collect()
}

fn joined(xs: &[Vec<u8>]) -> Vec<u8> {
    xs.join(&b","[..])
}

/// The examples of 01's table and the traps of a close reading.
fn tree_texts() -> Vec<Vec<u8>> {
    let full = "a".repeat(LABEL);
    let over = "a".repeat(LABEL + 1);
    let over_b = "b".repeat(LABEL + 1);
    let mut xs: Vec<String> = [
        "", "a;", "a", ";", "(a b);", "(a,b)", "(a,b);", "(b,a);", "(a,a);", "(a,a", "(a,a b);", "(a,a(", "(a,a'", "(a,b)a;", "(a,a)a;",
        "a;\n", "a;a;", "a;;", "(a)", "()", "(a,)", "(,a)", "((a,b))", "((a,b));", "(a(", "(a,b,c);", "(a,b)c;", "(a:1,b);", "a[x];",
        "((a,b),(c,d));", "((d,c),(b,a));", "(c,(a-,(aa,a)));", "((_,-),(.,0));", "((A,a),(Z,z));", "((b,c),a);", "((z,b),(a,y));",
        "(a,b));", "(a,(b,c);", "(a;b);", "a,b;", ",", ")", "((((", "(((a,b),c),d", "(ab,abc);", "(abc,ab);", "((x,y),(x,z));", "((x,y),(z,y));",
    ]
    .iter()
    .map(|s| s.to_string())
    .collect();
    xs.push(format!("{full};"));
    xs.push(format!("{over};"));
    xs.push(over.clone());
    xs.push(format!("({full},{full});"));
    xs.push(format!("({over_b},{over_b});"));
    xs.push(format!("(b,{over_b}(;"));
    xs.push(format!("(a,b){over};"));
    xs.push(format!("({full},b{}", "c".repeat(LABEL - 1)));
    xs.push("(".repeat(LEAVES - 1));
    xs.push("(".repeat(LEAVES));
    xs.push("(".repeat(200));
    xs.push(format!("{}a", "(".repeat(LEAVES - 1)));
    xs.iter().map(|s| s.clone().into_bytes()).collect()
}

fn list_texts() -> Vec<Vec<u8>> {
    let mut xs: Vec<Vec<u8>> = ["", "a", "b,a", ",", "a,", "a,,b", "a;", "a\n", "a,a", "a,b,a", "a,a,", "a,a b", "a b", " ", "(", "a,(b)", "a,b,c,d"]
        .iter()
        .map(|s| s.as_bytes().to_vec())
        .collect();
    let all = labels(LIST + 1);
    let eighty = joined(&all[..LIST]);
    xs.push(eighty.clone());
    let over = format!(",{}", "a".repeat(LABEL + 1));
    for tail in [",", ",,", ";", ",t0", ",t80", &over, ", "] {
        xs.push([eighty.clone(), tail.as_bytes().to_vec()].concat());
    }
    xs.push(joined(&long_labels(LIST)));
    for n in [LABEL - 1, LABEL, LABEL + 1, LABEL + 2] {
        xs.push("a".repeat(n).into_bytes());
        xs.push(format!("b,{}", "a".repeat(n)).into_bytes());
        xs.push(format!("{0},{0}", "a".repeat(n)).into_bytes());
    }
    xs
}

/// What a damaged text may get.
const BYTES: &[u8] = b"(),;ab_-. '\n\x00\xff0A";

pub fn cases() -> Vec<Case> {
    let mut r = Random(20);
    let mut trees = tree_texts();
    let mut lists = list_texts();
    // every byte value at the start, after a label, after a node and after the end
    for b in 0..=255u8 {
        trees.push(vec![b]);
        trees.push(vec![b'a', b]);
        trees.push([&b"(a,b)"[..], &[b]].concat());
        trees.push(vec![b'a', b';', b]);
        lists.push(vec![b]);
        lists.push(vec![b'a', b]);
    }
    for n in [1, 2, 3, 7, 40, LEAVES - 1, LEAVES, LEAVES + 1] {
        for names in [labels(n), long_labels(n)] {
            trees.push(caterpillar(&names).text());
            let mut back = names.clone();
            back.reverse();
            trees.push(caterpillar(&back).text());
            trees.push(random_tree(&mut r, &names).text());
        }
    }
    for _ in 0..200 {
        let n = 1 + r.below(9);
        let mut names = labels(12);
        r.shuffle(&mut names);
        let t = random_tree(&mut r, &names[..n]).text();
        trees.push(r.damaged(&t, BYTES));
        trees.push(t);
        let l = joined(&names[..n]);
        lists.push(r.damaged(&l, BYTES));
    }
    let lengths = both(lengths::tree_texts(), lengths::list_texts());
    let letters = both(letters::tree_texts(), letters::list_texts());
    let first = [both(trees, lists), quoted_cases(), place_cases(), lengths, letters].concat();
    let second = under_second(&first);
    [first, second].concat()
}

/// The trees and lists again, under the second edition.
fn under_second(cases: &[Case]) -> Vec<Case> {
    let texts = cases.iter().filter(|c| c.kind != b'p');
    texts.map(|c| Case { kind: c.kind.to_ascii_uppercase(), text: c.text.clone() }).collect()
}

fn both(trees: Vec<Vec<u8>>, lists: Vec<Vec<u8>>) -> Vec<Case> {
    let trees = trees.into_iter().map(|text| Case { kind: b't', text });
    let lists = lists.into_iter().map(|text| Case { kind: b'l', text });
    trees.chain(lists).collect()
}

/// Quotes and underscores. The rest about them is among the jobs.
fn quoted_cases() -> Vec<Case> {
    let mut r = Random(12);
    let mut trees = quotes::tree_texts();
    let mut lists = quotes::list_texts();
    trees.extend(quotes::inside().iter().map(|x| [&x[..], b";"].concat()));
    trees.extend(quotes::behind());
    lists.extend(quotes::inside());
    trees.push(caterpillar(&long_quoted(LEAVES)).text());
    lists.extend(quotes::full_lists().into_iter().take(6));
    let [some_trees, some_lists] = quotes::damaged_texts(&mut r, 25, small_quoted);
    trees.extend(some_trees);
    lists.extend(some_lists);
    both(trees, lists)
}

pub fn stream() -> Vec<u8> {
    let mut out = Vec::new();
    for c in cases() {
        out.push(c.kind);
        out.extend((c.text.len() as u16).to_be_bytes());
        out.extend(&c.text);
    }
    out
}

fn normal_line(edition: Edition, text: &[u8]) -> Vec<u8> {
    match read_tree(edition, text) {
        Ok(t) => t.normal_text(edition),
        Err(f) => format!("refused {} S {}", f.number, f.place).into_bytes(),
    }
}

/// What the program `normal` must print.
pub fn normal_printed(text: &[u8]) -> Vec<u8> {
    [normal_line(Edition::First, text), b"\n".to_vec()].concat()
}

fn list_line(edition: Edition, text: &[u8]) -> Vec<u8> {
    match read_parts(edition, text) {
        Ok((_, parts)) => {
            let shown: Vec<Vec<u8>> = parts.iter().map(|p| text[p.clone()].to_vec()).collect();
            [format!("list {} ", parts.len()).into_bytes(), joined(&shown)].concat()
        }
        Err(f) => format!("refused {} K {}", f.number, f.place).into_bytes(),
    }
}

fn place_line(text: &[u8]) -> Vec<u8> {
    let place = u64::from_be_bytes(text.try_into().unwrap());
    format!("refused 1 S {place}").into_bytes()
}

pub fn expected() -> Vec<u8> {
    let mut out = Vec::new();
    for c in cases() {
        out.extend(match c.kind {
            b't' => normal_line(Edition::First, &c.text),
            b'T' => normal_line(Edition::Second, &c.text),
            b'l' => list_line(Edition::First, &c.text),
            b'L' => list_line(Edition::Second, &c.text),
            _ => place_line(&c.text),
        });
        out.push(b'\n');
    }
    out
}
