//! Tree text and lists, read by collecting every fault of a text and taking the one with the smallest place.

use crate::agree::Label;
use crate::edition::Edition;
use crate::limits::{LABEL, LEAVES, LIST};
use std::ops::Range;

/// A rooted binary tree. A tree that was read has labels that are decoded, one that is to be compared has their keys; one that is made in
/// order to be written as it is has them as they shall stand in the text.
#[derive(Clone, Debug, PartialEq)]
pub enum Tree {
    Leaf(Label),
    Node(Box<Tree>, Box<Tree>),
}

/// A refusal's number and place.
#[derive(Clone, Copy, Debug, PartialEq)]
pub struct Fault {
    pub number: u32,
    pub place: usize,
}

fn is_label_byte(b: u8) -> bool {
    b.is_ascii_alphanumeric() || b == b'_' || b == b'.' || b == b'-'
}

/// A byte that may stand between quotes.
fn is_quoted_byte(b: u8) -> bool {
    is_label_byte(b) || b == b' '
}

/// A label where one may stand, or what begins as one.
#[derive(Clone, Debug)]
struct Token {
    /// Its first byte: the opening quote, if it has one.
    at: usize,
    /// The bytes that the limit counts.
    inner: Range<usize>,
    /// Where it ends, its closing quote included; nothing if that is missing.
    end: Option<usize>,
}

/// The longest run of such bytes.
fn run(text: &[u8], from: usize, wanted: fn(u8) -> bool) -> Range<usize> {
    from..from + text[from..].iter().take_while(|&&b| wanted(b)).count()
}

/// The label that begins at a place.
fn token(text: &[u8], at: usize) -> Option<Token> {
    match *text.get(at)? {
        b'\'' => {
            let inner = run(text, at + 1, is_quoted_byte);
            let closed = !inner.is_empty() && text.get(inner.end) == Some(&b'\'');
            let end = closed.then_some(inner.end + 1);
            Some(Token { at, inner, end })
        }
        b if is_label_byte(b) => {
            let inner = run(text, at, is_label_byte);
            let end = Some(inner.end);
            Some(Token { at, inner, end })
        }
        _ => None,
    }
}

impl Token {
    /// The bytes that the label stands for: a bare underscore is a blank, a quoted one itself.
    fn label(&self, text: &[u8]) -> Label {
        let quoted = self.inner.start > self.at;
        text[self.inner.clone()].iter().map(|&b| if b == b'_' && !quoted { b' ' } else { b }).collect()
    }

    fn overlong(&self) -> bool {
        self.inner.len() > LABEL
    }

    /// Whether it is compared with others: it is whole and not too long.
    fn counts(&self) -> bool {
        self.end.is_some() && !self.overlong()
    }

    /// The part of the text that shows it.
    fn part(&self) -> Range<usize> {
        self.at..self.end.unwrap()
    }
}

/// The label as it is written: in quotes if it holds an underscore, else with underscores for its blanks.
pub fn shown(x: &[u8]) -> Vec<u8> {
    if x.contains(&b'_') {
        [b"'", x, b"'"].concat()
    } else {
        x.iter().map(|&b| if b == b' ' { b'_' } else { b }).collect()
    }
}

/// What the grammar alone, limits and repeats left aside, finds in a text.
#[derive(Default)]
struct Outline {
    /// Where the grammar breaks, with 1 or 2; or nothing.
    fault: Option<Fault>,
    /// The labels that may stand.
    tokens: Vec<Token>,
    /// The places of the `(` that may stand.
    opens: Vec<usize>,
}

fn fault(number: u32, place: usize) -> Fault {
    Fault { number, place }
}

fn broken(text: &[u8], at: usize) -> Fault {
    if at < text.len() {
        fault(1, at)
    } else {
        fault(2, at)
    }
}

/// The label that must begin at a place, and where it ends.
fn label(text: &[u8], at: usize, o: &mut Outline) -> Result<(Label, usize), Fault> {
    let token = token(text, at).ok_or(broken(text, at))?;
    o.tokens.push(token.clone());
    let end = token.end.ok_or(broken(text, token.inner.end))?;
    Ok((token.label(text), end))
}

fn node(text: &[u8], at: usize, o: &mut Outline) -> Result<(Tree, usize), Fault> {
    if text.get(at) != Some(&b'(') {
        return label(text, at, o).map(|(x, end)| (Tree::Leaf(x), end));
    }
    o.opens.push(at);
    let (left, at) = node(text, at + 1, o)?;
    if text.get(at) != Some(&b',') {
        return Err(broken(text, at));
    }
    let (right, at) = node(text, at + 1, o)?;
    if text.get(at) != Some(&b')') {
        return Err(broken(text, at));
    }
    Ok((Tree::Node(Box::new(left), Box::new(right)), at + 1))
}

fn whole(text: &[u8], o: &mut Outline) -> Result<Tree, Fault> {
    let (tree, at) = node(text, 0, o)?;
    if text.get(at) != Some(&b';') {
        return Err(broken(text, at));
    }
    if at + 1 < text.len() {
        return Err(fault(1, at + 1));
    }
    Ok(tree)
}

/// Labels joined by commas, one at least.
fn joined(text: &[u8], o: &mut Outline) -> Result<Vec<Label>, Fault> {
    let mut labels = Vec::new();
    let mut at = 0;
    loop {
        let (x, end) = label(text, at, o)?;
        labels.push(x);
        match text.get(end) {
            None => return Ok(labels),
            Some(b',') => at = end + 1,
            _ => return Err(fault(1, end)),
        }
    }
}

/// Of all faults the one with the smallest place, and at one place the smaller number.
fn first_fault(edition: Edition, text: &[u8], o: &Outline, limit: Option<usize>) -> Option<Fault> {
    let mut all: Vec<Fault> = Vec::new();
    all.extend(o.fault);
    all.extend(limit.map(|at| fault(4, at)));
    let mut before: Vec<Label> = Vec::new();
    for t in &o.tokens {
        if t.overlong() {
            all.push(fault(3, t.inner.start + LABEL));
        }
        if t.counts() {
            let x = edition.key(&t.label(text));
            if before.contains(&x) {
                all.push(fault(5, t.at));
            }
            before.push(x);
        }
    }
    all.into_iter().min_by_key(|f| (f.place, f.number))
}

pub fn read_tree(edition: Edition, text: &[u8]) -> Result<Tree, Fault> {
    read_placed(edition, text).map(|(tree, _)| tree)
}

/// The tree, and the places of its labels from left to right.
pub fn read_placed(edition: Edition, text: &[u8]) -> Result<(Tree, Vec<usize>), Fault> {
    let mut o = Outline::default();
    // The descent is as deep as the text has `(`; a text with 80 of them is refused there anyway.
    let cut = text.iter().enumerate().filter(|(_, &b)| b == b'(').nth(LEAVES + 20).map_or(text.len(), |(i, _)| i);
    let tree = whole(&text[..cut], &mut o);
    o.fault = tree.as_ref().err().copied();
    match first_fault(edition, text, &o, o.opens.get(LEAVES - 1).copied()) {
        Some(f) => Err(f),
        None => Ok((tree.unwrap(), o.tokens.iter().map(|t| t.at).collect())),
    }
}

/// The labels of a list, and the parts of its text that show them.
pub fn read_parts(edition: Edition, text: &[u8]) -> Result<(Vec<Label>, Vec<Range<usize>>), Fault> {
    let mut o = Outline::default();
    let labels = if text.is_empty() { Ok(Vec::new()) } else { joined(text, &mut o) };
    o.fault = labels.as_ref().err().copied();
    match first_fault(edition, text, &o, o.tokens.get(LIST).map(|t| t.at)) {
        Some(f) => Err(f),
        None => Ok((labels.unwrap(), o.tokens.iter().map(Token::part).collect())),
    }
}

impl Tree {
    pub fn leaves(&self) -> Vec<Label> {
        match self {
            Tree::Leaf(x) => vec![x.clone()],
            Tree::Node(a, b) => {
                let mut xs = a.leaves();
                xs.extend(b.leaves());
                xs
            }
        }
    }

    /// The same tree with another label for each, from left to right.
    pub fn relabelled(&self, f: &mut impl FnMut(&Label) -> Label) -> Tree {
        match self {
            Tree::Leaf(x) => Tree::Leaf(f(x)),
            Tree::Node(a, b) => {
                let a = a.relabelled(f);
                let b = b.relabelled(f);
                Tree::Node(Box::new(a), Box::new(b))
            }
        }
    }

    /// The tree as it is compared: with the keys of its labels.
    pub fn keyed(&self, edition: Edition) -> Tree {
        self.relabelled(&mut |x| edition.key(x))
    }

    /// The same tree with the two children of each node exchanged.
    pub fn mirrored(&self) -> Tree {
        match self {
            Tree::Leaf(_) => self.clone(),
            Tree::Node(a, b) => Tree::Node(Box::new(b.mirrored()), Box::new(a.mirrored())),
        }
    }

    /// The smallest label below the node, as it is compared, and the node's text: the child that holds the smaller one first, labels as
    /// they are written.
    fn normal(&self, edition: Edition) -> (Label, Vec<u8>) {
        match self {
            Tree::Leaf(x) => (edition.key(x), shown(x)),
            Tree::Node(a, b) => {
                let (a, b) = (a.normal(edition), b.normal(edition));
                let (p, q) = if a.0 < b.0 { (a, b) } else { (b, a) };
                (p.0, [&b"("[..], &p.1, b",", &q.1, b")"].concat())
            }
        }
    }

    /// The node's text with children and labels as they stand.
    pub fn written(&self) -> Vec<u8> {
        match self {
            Tree::Leaf(x) => x.clone(),
            Tree::Node(a, b) => [&b"("[..], &a.written(), b",", &b.written(), b")"].concat(),
        }
    }

    /// The normal text of a tree of decoded labels.
    pub fn normal_text(&self, edition: Edition) -> Vec<u8> {
        [self.normal(edition).1, b";".to_vec()].concat()
    }

    pub fn text(&self) -> Vec<u8> {
        [self.written(), b";".to_vec()].concat()
    }
}
