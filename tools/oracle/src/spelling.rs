//! Labels in the forms in which they may stand in a text.

use crate::agree::Label;
use crate::limits::LABEL;
use crate::random::Random;
use crate::text::{shown, Tree};

/// How a body has its labels. One that holds an underscore can stand in quotes only.
#[derive(Clone, Copy, Debug)]
pub enum Form {
    Bare,
    Quoted,
    /// One or the other, at random.
    Either,
}

/// So many bytes of these words, over and over.
pub fn cycled(words: &str, n: usize) -> String {
    words.chars().cycle().take(n).collect()
}

pub fn quoted(x: &[u8]) -> Vec<u8> {
    [b"'", x, b"'"].concat()
}

/// The label as it may stand in a text.
pub fn spelled(r: &mut Random, form: Form, x: &[u8]) -> Vec<u8> {
    match form {
        Form::Quoted => quoted(x),
        Form::Either if r.below(2) == 0 => quoted(x),
        Form::Bare | Form::Either => shown(x),
    }
}

/// The label, or the whole body, in capital and small letters of another choice: all of one sort, or each at random.
pub fn recased(r: &mut Random, x: &[u8]) -> Vec<u8> {
    match r.below(4) {
        0 => x.to_ascii_uppercase(),
        1 => x.to_ascii_lowercase(),
        _ => x.iter().map(|b| if r.below(2) == 0 { b.to_ascii_uppercase() } else { b.to_ascii_lowercase() }).collect(),
    }
}

/// Two trees and a list. The labels are decoded, or as they shall stand in the texts.
#[derive(Clone, Debug)]
pub struct Bodies {
    pub first: Tree,
    pub second: Tree,
    pub required: Vec<Label>,
}

impl Bodies {
    /// The texts, with the labels as they are.
    pub fn texts(&self) -> [Vec<u8>; 3] {
        [self.first.text(), self.second.text(), self.required.join(&b","[..])]
    }

    /// The same with each body's labels, decoded so far, in its form.
    pub fn spelled(&self, r: &mut Random, [s, t, k]: [Form; 3]) -> Bodies {
        Bodies {
            first: self.first.relabelled(&mut |x| spelled(r, s, x)),
            second: self.second.relabelled(&mut |x| spelled(r, t, x)),
            required: self.required.iter().map(|x| spelled(r, k, x)).collect(),
        }
    }
}

/// Forms for the three bodies: some pair bare labels with quoted ones.
pub fn forms(r: &mut Random) -> [Form; 3] {
    match r.below(4) {
        0 => [Form::Bare, Form::Quoted, Form::Either],
        1 => [Form::Quoted, Form::Bare, Form::Either],
        _ => [Form::Either; 3],
    }
}

/// Decoded labels that are easily taken for one another: with blanks and underscores, of blanks only, of as many bytes as may be.
pub fn confusable() -> Vec<Label> {
    let all = [
        "a b", "a_b", "a-b", "ab", "a", "a ", "a_", "a-", "a.", "aZ", "aa", " a", "_a", " ", "_", "-", "  ", "__", " _", "_ ", "A", "Z_", "b c_d",
        "b c d",
    ];
    // as long as may be, these bytes at the beginning, in the middle and at the end
    let long = [["a", " ", "o"], ["a", "_", "o"], ["a", "-", "o"], ["a", " ", "_"], ["_", " ", "_"]].map(|[first, middle, last]| {
        let half = cycled("bcdefgh", LABEL / 2 - 1);
        let rest = cycled("ijklmn", LABEL - LABEL / 2 - 2);
        format!("{first}{half}{middle}{rest}{last}")
    });
    let same = [" ".repeat(LABEL), "_".repeat(LABEL), format!("{}a", " ".repeat(LABEL - 1))];
    let all = all.map(String::from);
    all.iter().chain(&long).chain(&same).map(|x| x.as_bytes().to_vec()).collect()
}

/// Decoded labels, all different under both editions, of letters from the beginning and the end of the alphabet and of bytes that stand
/// before, between and after capital and small ones.
pub fn lettered() -> Vec<Label> {
    let all = [
        "a", "b", "y", "z", "aa", "ab", "az", "ba", "zz", "a b", "a_b", "a-b", "a0b", "a.b", "azb", "_", "_a", "_z", "a_", "z_", "z ", " z",
        "-a", "0z", "9a", ".z",
    ];
    let long = ["z_", "a ", "zab-"].map(|x| cycled(x, LABEL));
    all.map(String::from).iter().chain(&long).map(|x| x.as_bytes().to_vec()).collect()
}
