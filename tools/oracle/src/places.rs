//! Places whose decimal digits are worth a case: 0, each power of ten and its neighbours, the largest number of the machine.

use crate::cases::Case;
use crate::drawn::labels;
use crate::edition::Edition;
use crate::families::long_labels;
use crate::job::job;
use crate::jobs::list;
use crate::limits::{LEAVES, LIST};
use crate::random::Random;
use crate::text::{read_parts, read_tree, Fault};
use crate::trees::caterpillar;

/// Any number of the machine, in order, each once.
fn numbers() -> Vec<u64> {
    let mut out: Vec<u64> = (0..=20).flat_map(|k| 10u64.checked_pow(k)).flat_map(|p| [p - 1, p, p + 1, p.saturating_mul(9)]).collect();
    for k in [8, 16, 31, 32, 63] {
        out.extend([(1u64 << k) - 1, 1 << k, (1 << k) + 1]);
    }
    out.extend([u64::MAX - 1, u64::MAX]);
    let mut r = Random(13);
    out.extend((0..100).map(|i| r.next() >> (i % 64)));
    out.sort();
    out.dedup();
    out
}

/// Those that a refusal can have in a body of so many bytes.
fn places(longest: usize) -> Vec<usize> {
    let powers = (0..).map(|k| 10usize.pow(k)).take_while(|&p| p < longest);
    let mut out: Vec<usize> = powers.flat_map(|p| [p - 1, p, p + 1]).collect();
    out.dedup();
    out
}

/// A body up to each such place, and there a byte that cannot stand.
fn cut(body: &[u8]) -> Vec<(usize, Vec<u8>)> {
    places(body.len()).into_iter().map(|p| (p, [&body[..p], b"!"].concat())).collect()
}

fn long_tree() -> Vec<u8> {
    caterpillar(&long_labels(LEAVES)).text()
}

fn cut_trees() -> Vec<Vec<u8>> {
    let told = |(p, x): (usize, Vec<u8>)| {
        assert_eq!(read_tree(Edition::First, &x), Err(Fault { number: 1, place: p }));
        x
    };
    cut(&long_tree()).into_iter().map(told).collect()
}

pub fn cut_lists() -> Vec<Vec<u8>> {
    let told = |(p, x): (usize, Vec<u8>)| {
        assert_eq!(read_parts(Edition::First, &x).err(), Some(Fault { number: 1, place: p }));
        x
    };
    cut(&list(&long_labels(LIST))).into_iter().map(told).collect()
}

/// Numbers of labels, of one digit and of two.
const COUNTS: [usize; 3] = [9, 10, 11];

pub fn place_cases() -> Vec<Case> {
    let of = |kind: u8| move |text: Vec<u8>| Case { kind, text };
    let mut out: Vec<Case> = numbers().iter().map(|n| n.to_be_bytes().to_vec()).map(of(b'p')).collect();
    out.extend(cut_trees().into_iter().map(of(b't')));
    out.extend(cut_lists().into_iter().chain(COUNTS.map(|n| list(&labels(n)))).map(of(b'l')));
    out
}

/// The same places in each body of a job, and sets of as many labels.
pub fn place_jobs() -> Vec<Vec<u8>> {
    let mut out: Vec<Vec<u8>> = cut_trees().iter().flat_map(|x| [job(x, b"a;", b""), job(b"a;", x, b"")]).collect();
    out.extend(cut_lists().iter().map(|x| job(b"a;", b"a;", x)));
    out.extend(COUNTS.map(|n| caterpillar(&labels(n)).text()).iter().map(|x| job(x, x, b"")));
    out
}
