//! The verdict on a claimed set: by definition, all subsets tried; and by the recurrence.

use crate::agree::{common, first_clash, lacking, restrict, sorted, subsets, Label, Lacks};
use crate::edition::Edition;
use crate::fast;
use crate::text::Tree;

/// What a claim comes to where two trees and a required list are answered with a set.
#[derive(Clone, Debug, PartialEq)]
pub enum Verdict {
    /// A claimed label is missing from a tree.
    Lacking(Lacks),
    /// The claim misses a required label, told by its number in the required list.
    Misses(usize),
    Disagree([Label; 3]),
    /// A larger set holds the required labels, and the trees agree on it.
    Small,
    Passes,
}

/// The first reason against a claim, in the table's order.
fn first_reason(
    [s, t]: [&Tree; 2],
    required: &[Label],
    claim: &[Label],
    clash: fn(&Tree, &Tree, &[Label]) -> Option<[Label; 3]>,
    larger: impl FnOnce() -> bool,
) -> Verdict {
    if let Some(lacks) = lacking(s, t, claim) {
        return Verdict::Lacking(lacks);
    }
    if let Some(i) = required.iter().position(|x| !claim.contains(x)) {
        return Verdict::Misses(i);
    }
    if let Some(three) = clash(s, t, &sorted(claim)) {
        return Verdict::Disagree(three);
    }
    if larger() {
        Verdict::Small
    } else {
        Verdict::Passes
    }
}

/// Whether a set holds the required labels and the trees become the same, left and right aside, when they are restricted to it.
fn fits(s: &Tree, t: &Tree, required: &[Label], set: &[Label]) -> bool {
    let restricted = |t: &Tree| restrict(t, set).map(|x| x.normal_text(Edition::First));
    required.iter().all(|x| set.contains(x)) && restricted(s) == restricted(t)
}

/// Of all sets of common leaves: whether one is larger than the claim, holds the required labels, and the trees agree on it.
fn larger(s: &Tree, t: &Tree, required: &[Label], claim: &[Label]) -> bool {
    subsets(&common(s, t)).any(|set| set.len() > claim.len() && fits(s, t, required, &set))
}

/// A claim is accepted exactly if it holds every required label, the trees agree on it and no larger such set exists.
fn accepted(s: &Tree, t: &Tree, required: &[Label], claim: &[Label]) -> bool {
    let all = common(s, t);
    claim.iter().all(|x| all.contains(x)) && fits(s, t, required, claim) && !larger(s, t, required, claim)
}

pub fn by_trying_all(s: &Tree, t: &Tree, required: &[Label], claim: &[Label]) -> Verdict {
    let verdict = first_reason([s, t], required, claim, first_clash, || larger(s, t, required, claim));
    assert_eq!(verdict == Verdict::Passes, accepted(s, t, required, claim));
    verdict
}

/// The same where there are too many leaves to try all subsets.
pub fn quickly(s: &Tree, t: &Tree, required: &[Label], claim: &[Label]) -> Verdict {
    first_reason([s, t], required, claim, fast::first_clash, || fast::solve(s, t, required).unwrap().len() > claim.len())
}
