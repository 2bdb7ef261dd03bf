//! Claims about two trees and a required list: the largest sets, sets near them, and others.

use crate::agree::{common, Label};
use crate::bodies::{read, Options, Read};
use crate::drawn::damaged_quoted;
use crate::edition::Edition;
use crate::fast::solve;
use crate::random::Random;
use crate::spelling::{recased, spelled, Form};

/// The largest set that is the last in label order, of trees and required labels that have one: the first where order is reversed.
pub fn last_largest(read: &Read) -> Option<Vec<Label>> {
    let reversed = |x: &Label| -> Label { x.iter().map(|b| 255 - b).chain([255]).collect() };
    let back = |x: &Label| -> Label { x[..x.len() - 1].iter().map(|b| 255 - b).collect() };
    let [s, t] = [&read.s, &read.t].map(|tree| tree.relabelled(&mut |x| reversed(x)));
    let k: Vec<Label> = read.k.labels.iter().map(reversed).collect();
    solve(&s, &t, &k).map(|set| set.iter().map(back).collect())
}

/// The labels without one of them, if there is any.
pub fn less_one(r: &mut Random, xs: &[Label]) -> Vec<Label> {
    let mut out = xs.to_vec();
    if !out.is_empty() {
        out.remove(r.below(xs.len()));
    }
    out
}

/// Some of the labels: each is taken or not.
fn some(r: &mut Random, xs: &[Label]) -> Vec<Label> {
    xs.iter().filter(|_| r.below(2) == 0).cloned().collect()
}

/// These labels, and some of the others.
fn with_some(r: &mut Random, xs: &[Label], others: &[Label]) -> Vec<Label> {
    let mut out = xs.to_vec();
    let more = some(r, others);
    out.extend(more.into_iter().filter(|x| !xs.contains(x)));
    out
}

/// Labels that may be claimed of bodies that were read: most often those of a largest set.
fn labels_for(r: &mut Random, read: &Read) -> Vec<Label> {
    let all = common(&read.s, &read.t);
    let k = &read.k.labels;
    let first = solve(&read.s, &read.t, k).unwrap_or(all.clone());
    match r.below(12) {
        0..=2 => first,
        3 | 4 => last_largest(read).unwrap_or(all),
        5 | 6 => less_one(r, &first),
        7 => with_some(r, &first, &all),
        8 => with_some(r, k, &all),
        9 => all,
        10 => some(r, &all),
        _ => with_some(r, &first, &[read.s.leaves(), read.t.leaves()].concat()),
    }
}

/// A claim drawn for such bodies, its labels in any order and spelled in any way, sometimes in letters of another choice or with damage.
pub fn drawn_claim(r: &mut Random, options: Options, texts: [&[u8]; 3]) -> Vec<u8> {
    let mut claimed = match read(options, texts) {
        Ok(read) => labels_for(r, &read),
        Err(_) => [&b"a"[..], b"b", b"t1", b"z"].map(|x| x.to_vec()).to_vec(),
    };
    r.shuffle(&mut claimed);
    let tokens: Vec<Vec<u8>> = claimed.iter().map(|x| spelled(r, Form::Either, x)).collect();
    let text = tokens.join(&b","[..]);
    let other_letters = if options.edition == Edition::Second { 2 } else { 16 };
    let text = if r.below(other_letters) == 0 { recased(r, &text) } else { text };
    if r.below(16) == 0 {
        damaged_quoted(r, &text)
    } else {
        text
    }
}
