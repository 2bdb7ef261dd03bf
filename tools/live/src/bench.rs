//! The engine beside the oracle's recurrence, both from texts to answer, in one run. Times are the least of all rounds.

use crate::engine::{asked, claim, job, largest_with, EDITION_2, FLAGS, STRICT};
use oracle::agree::{common, Answer, Label};
use oracle::bodies::{answer, joined, read};
use oracle::families::{all_families, families, long_quoted, short_labels, Family};
use oracle::fast;
use oracle::hanging::piece_families;
use oracle::job::with_pieces;
use oracle::limits::{LEAVES, LINES, TREE_TEXT};
use oracle::random::Random;
use std::hint::black_box;
use std::time::Instant;

/// The times of N calls, told apart by their number: they are made in turn, so that they are alike.
fn in_turn<const N: usize>(rounds: usize, mut call: impl FnMut(usize)) -> [f64; N] {
    let mut took = [f64::MAX; N];
    for _ in 0..rounds {
        for (i, least) in took.iter_mut().enumerate() {
            let start = Instant::now();
            call(i);
            *least = least.min(start.elapsed().as_secs_f64() * 1e6);
        }
    }
    took
}

fn plain(flags: usize, texts: [&[u8]; 3]) -> Vec<u8> {
    let Ok(bodies) = read(asked(flags), texts) else {
        return Vec::new();
    };
    match fast::answer(&bodies.s, &bodies.t, &bodies.k.labels) {
        Answer::Set(set) => bodies.restricted(&bodies.s, &set),
        _ => Vec::new(),
    }
}

/// What one family takes: the engine, by the flags, and then the recurrence under the first edition, without options and strict.
type Took = [f64; FLAGS + 3];

fn times(f: &Family, rounds: usize) -> Took {
    let bodies = f.bodies.texts();
    let texts = bodies.each_ref().map(|x| &x[..]);
    let mut out = vec![0u8; TREE_TEXT];
    let engine: [f64; FLAGS + 1] = in_turn(rounds, |flags| {
        black_box(largest_with(flags, texts, &mut out));
    });
    let other: [f64; 2] = in_turn(rounds, |strict| {
        black_box(plain(strict * STRICT, texts));
    });
    std::array::from_fn(|i| if i <= FLAGS { engine[i] } else { other[i - FLAGS - 1] })
}

/// What is told of calls that are alike but for the edition.
#[derive(Clone, Copy)]
struct Told {
    first: f64,
    second: f64,
    plain: f64,
}

impl Told {
    /// Without options and strict.
    fn of(took: Took) -> [Told; 2] {
        [0, STRICT].map(|flags| Told { first: took[flags], second: took[flags | EDITION_2], plain: took[FLAGS + 1 + flags / STRICT] })
    }

    fn editions(&self) -> f64 {
        self.second / self.first
    }
}

/// What the stages of one call cost, by calls that end after them: a list that cannot be read ends the call when both trees are
/// read and their leaves looked up; an output of no bytes leaves out the writing. Last the reading under the second edition.
fn stages(f: &Family, rounds: usize) -> [f64; 4] {
    let [first, second, _] = f.bodies.texts();
    let mut out = vec![0u8; TREE_TEXT];
    let ends = [(0, &b","[..], TREE_TEXT), (0, b"", 0), (0, b"", TREE_TEXT), (EDITION_2, b",", TREE_TEXT)];
    in_turn(rounds, |i| {
        let (flags, list, room) = ends[i];
        black_box(largest_with(flags, [&first, &second, list], &mut out[..room]));
    })
}

/// How often all is measured, and how many rounds each time: a slow while of the machine then meets each family in a few passes, and
/// the least of all passes is told.
#[derive(Clone, Copy)]
struct Effort {
    passes: usize,
    rounds: usize,
}

fn least<const N: usize>(effort: Effort, all: &[&Family], measure: impl Fn(&Family, usize) -> [f64; N]) -> Vec<[f64; N]> {
    let mut took = vec![[f64::MAX; N]; all.len()];
    for _ in 0..effort.passes {
        for (least, f) in took.iter_mut().zip(all) {
            let now = measure(f, effort.rounds);
            *least = std::array::from_fn(|i| least[i].min(now[i]));
        }
    }
    took
}

fn row(name: &str, n: usize, told: Told, random: f64) {
    let Told { first, second, plain } = told;
    let ratios = [told.editions(), first / plain, first / random].map(|x| format!("{x:.2}"));
    println!("| {name} | {n} | {first:.0} | {second:.0} | {} | {plain:.0} | {} | {} |", ratios[0], ratios[1], ratios[2]);
}

fn stages_row(name: &str, [read, solved, whole, second]: [f64; 4]) {
    let (solve, write) = ((solved - read).max(0.0), (whole - solved).max(0.0));
    println!("| {name} | {read:.0} | {solve:.0} | {write:.0} | {whole:.0} | {second:.0} |");
}

/// Smaller trees of the first family, every family of the most leaves, the first of them strict, and last the slowest call of all, strict
/// ones, the second edition and the longest labels, bare and in quotes, among them; each beside the random pair of as many leaves.
fn table(effort: Effort, r: &mut Random, sorts: &[(String, Vec<Family>)]) {
    println!("| trees | leaves | engine, us | edition 2, us | to edition 1 | plain recurrence, us | ratio | to random |");
    println!("|---|---|---|---|---|---|---|---|");
    let small = [10, 20, 40].map(|n| (n, families(r, &short_labels(n)).remove(0)));
    let all: Vec<&Family> = small.iter().map(|(_, f)| f).chain(sorts.iter().flat_map(|(_, fs)| fs)).collect();
    let mut brief: Vec<[Told; 2]> = least(effort, &all, times).into_iter().map(Told::of).collect();
    let large = brief.split_off(small.len());
    let names = sorts.iter().flat_map(|(sort, fs)| fs.iter().map(move |f| format!("{}{sort}", f.name)));
    let took: Vec<(String, [Told; 2])> = names.zip(large).collect();
    small.iter().zip(brief).for_each(|((n, f), [t, _])| row(f.name, *n, t, t.first));
    let kinds = sorts[0].1.len();
    let random = took[0].1[0].first;
    took[..kinds].iter().for_each(|(name, [t, _])| row(name, LEAVES, *t, random));
    row(&format!("{}, strict", took[0].0), LEAVES, took[0].1[1], random);
    took.iter().step_by(kinds).skip(1).for_each(|(name, [t, _])| row(name, LEAVES, *t, random));
    let calls = took.iter().flat_map(|(name, [t, s])| [(name.clone(), t), (format!("{name}, strict"), s)]);
    let slow = |t: &Told| t.first.max(t.second);
    let (name, t) = calls.max_by(|a, b| slow(a.1).total_cmp(&slow(b.1))).unwrap();
    row(&format!("the slowest known: {name}"), LEAVES, *t, random);
    println!();
    editions_table(sorts, &took);
}

/// Whether both editions answer a family alike, and so do the same work.
fn alike(f: &Family) -> bool {
    let bodies = f.bodies.texts();
    let texts = bodies.each_ref().map(|x| &x[..]);
    answer(asked(0), texts) == answer(asked(EDITION_2), texts)
}

/// How much longer the second edition takes than the first, over the families of each sort of labels that both answer alike.
fn editions_table(sorts: &[(String, Vec<Family>)], took: &[(String, [Told; 2])]) {
    println!("| edition 2 to edition 1, {LEAVES} leaves | least | mean | most |");
    println!("|---|---|---|---|");
    let by_sort = sorts.iter().zip(took.chunks(sorts[0].1.len()));
    for ((sort, _), calls) in by_sort.filter(|((_, fs), _)| alike(&fs[0])) {
        let mut ratios: Vec<f64> = calls.iter().flat_map(|(_, t)| t.each_ref().map(Told::editions)).collect();
        ratios.sort_by(f64::total_cmp);
        let mean = ratios.iter().sum::<f64>() / ratios.len() as f64;
        let name = if sort.is_empty() { "short labels" } else { sort.trim_start_matches(", ") };
        println!("| {name} | {:.2} | {mean:.2} | {:.2} |", ratios[0], ratios[ratios.len() - 1]);
    }
}

/// The stages of the families without a list, and of the first family over each sort of labels.
fn stages_table(effort: Effort, sorts: &[(String, Vec<Family>)]) {
    println!("| {LEAVES} leaves, us | read and look up | fill | write | whole | read and look up, edition 2 |");
    println!("|---|---|---|---|---|---|");
    let free = sorts[0].1.iter().filter(|f| f.bodies.required.is_empty()).map(|f| (f.name.to_string(), f));
    let others = sorts[1..].iter().map(|(sort, fs)| (format!("{}{sort}", fs[0].name), &fs[0]));
    let (names, all): (Vec<String>, Vec<&Family>) = free.chain(others).unzip();
    names.iter().zip(least(effort, &all, stages)).for_each(|(name, took)| stages_row(name, took));
}

/// Claims about a family: the engine's own set, that less its last leaf, and all common leaves; with the number that each is told. Nothing
/// where the required labels clash or no leaf is shared.
fn claims(f: &Family) -> Option<[(Vec<u8>, usize); 3]> {
    let bodies = f.bodies.texts();
    let texts = bodies.each_ref().map(|x| &x[..]);
    let (set, _) = answer(asked(0), texts).ok()?;
    let (_, less) = set.split_last().map(|(last, less)| (last, less.to_vec()))?;
    let read = read(asked(0), texts).ok()?;
    let all = common(&read.s, &read.t);
    let clash = if all.len() > set.len() { 14 } else { 0 };
    let text = |xs: &[Label]| joined(xs).into_bytes();
    // a leaf that is required is missed before it is counted
    let missed = if read.k.labels.is_empty() { 15 } else { 13 };
    Some([(text(&set), 0), (text(&less), missed), (text(&all), clash)])
}

/// What the answer takes, the answer with its own set required, so that a list as long as the claim is read, and the verdict on each claim.
fn claim_times(f: &Family, rounds: usize) -> [f64; 5] {
    let bodies = f.bodies.texts();
    let texts = bodies.each_ref().map(|x| &x[..]);
    let mut out = vec![0u8; TREE_TEXT];
    let claims = claims(f).unwrap();
    claims.iter().for_each(|(text, number)| assert_eq!(claim(0, texts, text).number, *number, "{}", f.name));
    let required = [texts[0], texts[1], &claims[0].0[..]];
    in_turn(rounds, |i| {
        match i {
            0 => black_box(largest_with(0, texts, &mut out)),
            1 => black_box(largest_with(0, required, &mut out)),
            _ => black_box(claim(0, texts, &claims[i - 2].0)),
        };
    })
}

/// Verdicts on claims beside the answer: the families of short labels, and the first over each other sort. Last the greatest ratio of all.
/// What a claim of the answer's set takes more than the answer with that set required is the search for three labels that clash.
fn claims_table(effort: Effort, sorts: &[(String, Vec<Family>)]) {
    println!("| claims, {LEAVES} leaves | answer, us | its set required, us | its set, us | to answer | one leaf less, us | to answer | all common leaves, us | to answer |");
    println!("|---|---|---|---|---|---|---|---|---|");
    let named = sorts.iter().flat_map(|(sort, fs)| fs.iter().map(move |f| (format!("{}{sort}", f.name), f)));
    let (names, all): (Vec<String>, Vec<&Family>) = named.filter(|(_, f)| claims(f).is_some()).unzip();
    let took: Vec<(String, [f64; 5])> = names.into_iter().zip(least(effort, &all, claim_times)).collect();
    let row = |(name, [answer, required, rest @ ..]): &(String, [f64; 5])| {
        let cells = rest.map(|t| format!("{t:.0} | {:.2}", t / answer)).join(" | ");
        println!("| {name} | {answer:.0} | {required:.0} | {cells} |");
    };
    let brief: Vec<&str> = sorts[0].1.iter().map(|f| f.name).collect();
    let first = |name: &str| name.starts_with(brief[0]);
    took.iter().filter(|(name, _)| brief.contains(&&name[..]) || first(name)).for_each(row);
    let ratio = |(_, [answer, _, rest @ ..]): &(String, [f64; 5])| rest.iter().fold(0.0, |most: f64, t| most.max(t / answer));
    let (name, times) = took.iter().max_by(|a, b| ratio(a).total_cmp(&ratio(b))).unwrap();
    row(&(format!("the greatest ratio: {name}"), *times));
}

/// What a job takes without the line `pieces` and with it.
fn piece_times(f: &Family, rounds: usize) -> [f64; 2] {
    let plain = f.job();
    let jobs = [with_pieces(&plain), plain];
    let mut out = vec![0u8; LINES];
    jobs.iter().for_each(|j| assert_eq!(job(j, &mut out).number, 0, "{}", f.name));
    let [pieces, plain] = in_turn(rounds, |i| {
        black_box(job(&jobs[i], &mut out));
    });
    [plain, pieces]
}

/// Whole jobs with the line `pieces` next to the same without it, by the number of required leaves: over short labels and over the longest.
fn pieces_table(effort: Effort, r: &mut Random) {
    println!("| pieces, {LEAVES} leaves | required | without, us | with, us | ratio |");
    println!("|---|---|---|---|---|");
    for (sort, xs) in [("", short_labels(LEAVES)), (", labels of the most bytes in quotes", long_quoted(LEAVES))] {
        let families = piece_families(r, &xs);
        let all: Vec<&Family> = families.iter().collect();
        for (f, [plain, pieces]) in all.iter().zip(least(effort, &all, piece_times)) {
            println!("| {}{sort} | {} | {plain:.0} | {pieces:.0} | {:.2} |", f.name, f.bodies.required.len(), pieces / plain);
        }
    }
}

pub fn run(short: bool) {
    let mut r = Random(80);
    let effort = if short { Effort { passes: 1, rounds: 2 } } else { Effort { passes: 10, rounds: 40 } };
    let sorts = all_families(&mut r);
    table(effort, &mut r, &sorts);
    println!();
    stages_table(effort, &sorts);
    println!();
    claims_table(effort, &sorts);
    println!();
    pieces_table(effort, &mut r);
}
