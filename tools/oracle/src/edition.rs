//! The two editions of the naming code: what of a label counts when it is compared.

use crate::agree::Label;

#[derive(Clone, Copy, Debug, PartialEq)]
pub enum Edition {
    First,
    Second,
}

impl Edition {
    /// What a decoded label is compared by: labels are equal if their keys are, and stand in the order of their keys. The second edition
    /// reads A to Z as a to z.
    pub fn key(self, x: &[u8]) -> Label {
        match self {
            Edition::First => x.to_vec(),
            Edition::Second => x.iter().map(|&b| if b.is_ascii_uppercase() { b - b'A' + b'a' } else { b }).collect(),
        }
    }

    pub fn keys(self, xs: &[Label]) -> Vec<Label> {
        xs.iter().map(|x| self.key(x)).collect()
    }
}
