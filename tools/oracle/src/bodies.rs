//! What two trees and a required list come to, and a claim about them, from their texts: the table's rows from the reading of S on, in
//! their order.

use crate::agree::{few, restrict, stray, Answer, Label, Lacks};
use crate::claim::{self, Verdict};
use crate::edition::Edition;
use crate::fast::checked_answer;
use crate::pieces::{joined_sets, pieces, Piece};
use crate::text::{read_parts, read_placed, shown, Fault, Tree};
use std::collections::HashMap;

/// What is asked beside the bodies.
#[derive(Clone, Copy, Debug)]
pub struct Options {
    pub strict: bool,
    pub edition: Edition,
}

/// A refusal. Numbers 8 and 14 have three labels besides, spelled as they are printed, and where each begins in the list or the claim, or in
/// the job that holds it.
#[derive(Clone, Debug, PartialEq)]
pub struct Refusal {
    pub number: u32,
    pub letter: char,
    pub place: usize,
    pub labels: Vec<(Label, usize)>,
}

pub fn refused(number: u32, letter: char, place: usize) -> Refusal {
    Refusal { number, letter, place, labels: Vec::new() }
}

impl Refusal {
    pub fn line(&self) -> String {
        let head = format!("refused {} {} {}", self.number, self.letter, self.place);
        if self.labels.is_empty() {
            return head;
        }
        format!("{head} {}", joined(self.labels.iter().map(|(x, _)| x)))
    }

    /// The same of a list that stands so many bytes after the start of what was given.
    pub fn of_list_at(mut self, at: usize) -> Refusal {
        self.labels.iter_mut().for_each(|(_, begins)| *begins += at);
        self
    }
}

pub fn text(x: &[u8]) -> String {
    x.iter().map(|&b| b as char).collect()
}

/// The labels as they are printed.
pub fn joined<'a>(xs: impl IntoIterator<Item = &'a Label>) -> String {
    xs.into_iter().map(|x| text(&shown(x))).collect::<Vec<_>>().join(",")
}

/// A list that was read: its labels, by the keys by which they are compared, and where each begins.
pub struct Listed {
    letter: char,
    pub labels: Vec<Label>,
    begins: Vec<usize>,
}

impl Listed {
    fn read(edition: Edition, letter: char, text: &[u8]) -> Result<Listed, Refusal> {
        let (labels, parts) = read_parts(edition, text).map_err(told(letter))?;
        Ok(Listed { letter, labels: edition.keys(&labels), begins: parts.iter().map(|part| part.start).collect() })
    }

    /// A refusal at the label of such a number.
    fn refused(&self, number: u32, i: usize) -> Refusal {
        refused(number, self.letter, self.begins[i])
    }

    /// 6 or 7.
    fn lacking(&self, lacks: Lacks) -> Refusal {
        match lacks {
            Lacks::First(i) => self.refused(6, i),
            Lacks::Second(i) => self.refused(7, i),
        }
    }
}

/// Bodies that were read. Labels have the keys by which they are compared.
pub struct Read {
    edition: Edition,
    pub s: Tree,
    pub t: Tree,
    pub k: Listed,
    /// How the first tree spells its labels, by their keys.
    spelled: HashMap<Label, Label>,
}

fn told(letter: char) -> impl Fn(Fault) -> Refusal {
    move |f| refused(f.number, letter, f.place)
}

pub fn read(options: Options, [s, t, k]: [&[u8]; 3]) -> Result<Read, Refusal> {
    let Options { strict, edition } = options;
    let (first, s_places) = read_placed(edition, s).map_err(told('S'))?;
    let (second, t_places) = read_placed(edition, t).map_err(told('T'))?;
    let (s, t) = (first.keyed(edition), second.keyed(edition));
    if strict {
        for (tree, other, places, letter) in [(&s, &t, s_places, 'S'), (&t, &s, t_places, 'T')] {
            if let Some(i) = stray(tree, other) {
                return Err(refused(12, letter, places[i]));
            }
        }
    }
    let k = Listed::read(edition, 'K', k)?;
    let spelled = s.leaves().into_iter().zip(first.leaves()).collect();
    Ok(Read { edition, s, t, k, spelled })
}

impl Read {
    /// Labels as the first tree spells them.
    fn spelled(&self, xs: &[Label]) -> Vec<Label> {
        xs.iter().map(|x| self.spelled[x].clone()).collect()
    }

    /// The normal text of a tree restricted to a set.
    pub fn restricted(&self, t: &Tree, set: &[Label]) -> Vec<u8> {
        restrict(t, set).map_or(Vec::new(), |r| r.relabelled(&mut |x| self.spelled[x].clone()).normal_text(self.edition))
    }

    /// A number that names these three labels of a list.
    fn clash(&self, number: u32, list: &Listed, three: [Label; 3]) -> Refusal {
        let begins = three.each_ref().map(|x| list.begins[list.labels.iter().position(|y| y == x).unwrap()]);
        Refusal { labels: self.spelled(&three).into_iter().zip(begins).collect(), ..refused(number, list.letter, 0) }
    }

    /// The largest set, or 6, 7 or 8 of the required list.
    fn largest(&self) -> Result<Vec<Label>, Refusal> {
        let k = &self.k;
        match checked_answer(&self.s, &self.t, &k.labels) {
            Answer::Lacking(lacks) => Err(k.lacking(lacks)),
            Answer::Disagree(three) => Err(self.clash(8, k, three)),
            Answer::Set(set) => Ok(set),
        }
    }

    /// The set in label order, spelled as it is printed, and the normal text of its tree.
    fn shown(&self, set: &[Label]) -> (Vec<Label>, Vec<u8>) {
        let tree = self.restricted(&self.s, set);
        assert_eq!(tree, self.restricted(&self.t, set));
        (self.spelled(set), tree)
    }

    /// The pieces, spelled as they are printed. The required labels and the pieces' own sets must make up the answer's set.
    fn pieces(&self, set: &[Label]) -> Vec<Piece> {
        let (s, t, k) = (&self.s, &self.t, &self.k.labels);
        let found = pieces(s, t, k);
        assert_eq!(joined_sets(s, t, k, &found), set);
        found.iter().map(|piece| piece.relabelled(|x| self.spelled[x].clone())).collect()
    }

    /// The size of a claim that passes, or what comes after number 8.
    fn judged(&self, claim: &Listed) -> Result<usize, Refusal> {
        let (s, t, k, c) = (&self.s, &self.t, &self.k, &claim.labels);
        let quick = claim::quickly(s, t, &k.labels, c);
        let verdict = if few(s, t) { claim::by_trying_all(s, t, &k.labels, c) } else { quick.clone() };
        assert_eq!(verdict, quick);
        match verdict {
            Verdict::Lacking(lacks) => Err(claim.lacking(lacks)),
            Verdict::Misses(i) => Err(k.refused(13, i)),
            Verdict::Disagree(three) => Err(self.clash(14, claim, three)),
            Verdict::Small => Err(refused(15, claim.letter, 0)),
            Verdict::Passes => Ok(c.len()),
        }
    }
}

/// The set in label order, spelled as it is printed, and the normal text of its tree; or a refusal.
pub fn answer(options: Options, texts: [&[u8]; 3]) -> Result<(Vec<Label>, Vec<u8>), Refusal> {
    let read = read(options, texts)?;
    let set = read.largest()?;
    Ok(read.shown(&set))
}

/// The same after the pieces.
pub fn answer_in_pieces(options: Options, texts: [&[u8]; 3]) -> Result<(Vec<Piece>, (Vec<Label>, Vec<u8>)), Refusal> {
    let read = read(options, texts)?;
    let set = read.largest()?;
    Ok((read.pieces(&set), read.shown(&set)))
}

/// The size of a claim that passes, or a refusal. The claim is read before anything is said of the required list's labels.
pub fn judged(options: Options, texts: [&[u8]; 3], claim: &[u8]) -> Result<usize, Refusal> {
    let read = read(options, texts)?;
    let claim = Listed::read(options.edition, 'C', claim)?;
    read.largest()?;
    read.judged(&claim)
}
