//! Random bodies, claims and jobs through the archive, compared with the oracle: numbers, the text's bytes, and every byte that must stay.

use crate::engine::{self, asked, AgreeResult, EDITION_2, FLAGS};
use oracle::bodies::{answer, judged, refused, Refusal};
use oracle::claim_jobs::{damaged_claim, greatest_claim};
use oracle::claims::drawn_claim;
use oracle::drawn::{
    alike_bodies, damaged_quoted, large_bodies, large_cased, large_quoted, long_bodies, small_bodies, small_cased, small_quoted,
};
use oracle::edition_jobs::greatest_cased;
use oracle::families::{all_families, short_labels};
use oracle::hanging::piece_families;
use oracle::job::{claim_job, job, lines, strict, with_edition, with_pieces, EDITION_LINES};
use oracle::jobs::damaged;
use oracle::lengths::greatest;
use oracle::limits::{LEAVES, LINES, RECORD, TREE_TEXT};
use oracle::piece_jobs::{drawn_job, greatest_pieces};
use oracle::random::Random;

const FILL: u8 = 0x5a;
/// Bytes of the longest line of a claim that passes.
const CLAIM_LINE: usize = "claim ok 80\n".len();

/// What a call must come to: the size and the text of an answer, or a refusal.
type Wanted = Result<(usize, Vec<u8>), Refusal>;

/// The numbers of a refusal; those without a meaning there are 0.
fn numbers(q: &Refusal) -> AgreeResult {
    let begins = |i: usize| q.labels.get(i).map_or(0, |(_, at)| *at);
    let [first, second, third] = [0, 1, 2].map(begins);
    let number = usize::try_from(q.number).unwrap();
    AgreeResult { number, letter: q.letter as usize, place: q.place, first, second, third, ..Default::default() }
}

/// One call with an output of `room` bytes.
fn check(wanted: &Wanted, room: usize, shown: &str, call: impl FnOnce(&mut [u8]) -> AgreeResult) {
    let mut area = vec![FILL; 2 * TREE_TEXT + LINES];
    let got = call(&mut area[..room]);
    let (result, written) = match wanted {
        Ok((size, text)) if text.len() <= room => (AgreeResult { size: *size, length: text.len(), ..Default::default() }, &text[..]),
        Ok(_) => (numbers(&refused(9, 'O', 0)), &b""[..]),
        Err(q) => (numbers(q), &b""[..]),
    };
    assert_eq!(got, result, "{shown}, output of {room} bytes");
    assert_eq!(&area[..written.len()], written, "the text for {shown}");
    assert!(area[written.len()..].iter().all(|&b| b == FILL), "a byte that must stay, for {shown}");
}

/// Options of which some bits mean nothing.
fn unknown(r: &mut Random) -> usize {
    let bits = match r.below(4) {
        0 => usize::MAX,
        1 => r.next() as usize,
        _ => 1 << r.below(usize::BITS as usize),
    };
    if bits & !FLAGS == 0 {
        !FLAGS
    } else {
        bits
    }
}

/// One case, through all entries and under all flags, with outputs that sometimes are too short.
fn check_all(r: &mut Random, bodies: &[Vec<u8>; 3], greatest: usize) {
    let texts = bodies.each_ref().map(|x| &x[..]);
    let shown = format!("bodies {:?}", texts.map(String::from_utf8_lossy));
    let room = if r.below(3) == 0 { r.below(greatest) } else { TREE_TEXT };
    let answered = |flags: usize| -> Wanted { answer(asked(flags), texts).map(|(set, text)| (set.len(), text)) };
    let mut calls: Vec<(usize, Wanted)> = (0..=FLAGS).map(|flags| (flags, answered(flags))).collect();
    check(&calls[0].1, room, &shown, |out| engine::largest(texts, out));
    if r.below(4) == 0 {
        calls.push((unknown(r), Err(refused(10, 'J', 0))));
    }
    for (flags, wanted) in calls {
        let shown = format!("options {flags}, {shown}");
        check(&wanted, room, &shown, |out| engine::largest_with(flags, texts, out));
    }
    let plain = any_state(r, &job(texts[0], texts[1], texts[2]));
    check_text(r, &plain, 2 * greatest);
    check_text(r, &with_pieces(&plain), 3 * greatest);
    check_claim(r, texts);
}

/// A job, sometimes with damage, and with an output that sometimes is too short.
fn check_text(r: &mut Random, whole: &[u8], greatest: usize) {
    let whole = if r.below(8) == 0 { damaged(r, whole) } else { whole.to_vec() };
    let room = if r.below(3) == 0 { r.below(greatest) } else { LINES };
    check_job(&whole, room);
}

/// The job strict or not, with any line of an edition or none.
fn any_state(r: &mut Random, job: &[u8]) -> Vec<u8> {
    let job = with_edition(EDITION_LINES[r.below(3)], job);
    if r.below(2) == 0 {
        strict(&job)
    } else {
        job
    }
}

/// A claim about these bodies, through its entry under all flags and in a job.
fn check_claim(r: &mut Random, texts: [&[u8]; 3]) {
    let edition = r.below(2) * EDITION_2;
    let claim = drawn_claim(r, asked(edition), texts);
    let mut calls: Vec<(usize, Result<usize, Refusal>)> =
        (0..=FLAGS).map(|flags| (flags, judged(asked(flags), texts, &claim))).collect();
    if r.below(4) == 0 {
        calls.push((unknown(r), Err(refused(10, 'J', 0))));
    }
    for (flags, wanted) in calls {
        let wanted = wanted.map_or_else(|q| numbers(&q), |size| AgreeResult { size, ..Default::default() });
        let shown = || format!("options {flags}, claim {:?}, bodies {:?}", String::from_utf8_lossy(&claim), texts.map(String::from_utf8_lossy));
        assert_eq!(engine::claim(flags, texts, &claim), wanted, "{}", shown());
    }
    let mut whole = any_state(r, &claim_job(texts[0], texts[1], texts[2], &claim));
    match r.below(16) {
        0 | 1 => whole = damaged_claim(r, &whole),
        2 => whole = with_pieces(&whole),
        _ => (),
    }
    let room = if r.below(3) == 0 { r.below(CLAIM_LINE + 2) } else { LINES };
    check_job(&whole, room);
}

fn check_job(whole: &[u8], room: usize) {
    let wanted = lines(whole).map(|x| (0, [x.as_bytes(), b"\n"].concat()));
    check(&wanted, room, &format!("job {:?}", String::from_utf8_lossy(whole)), |out| engine::job(whole, out));
}

/// Each job with an output of more bytes than its answer has, of just as many, of one less, of half of them and of none.
fn check_rooms(jobs: &[Vec<u8>], longest: usize) {
    for whole in jobs {
        for room in [LINES + 1, longest, longest - 1, longest / 2, 0] {
            check_job(whole, room);
        }
    }
}

/// Jobs with the line `pieces` whose required leaves mostly agree, and the families that have the most pieces.
fn check_pieces(r: &mut Random, count: u64) {
    for i in 0..count {
        let whole = drawn_job(r, i % 10 == 0);
        let room = if r.below(4) == 0 { r.below(lines(&whole).map_or(2, |x| x.len() + 3)) } else { LINES };
        check_job(&whole, room);
    }
    for f in piece_families(r, &short_labels(LEAVES)) {
        check_all(r, &f.bodies.texts(), TREE_TEXT);
    }
}

pub fn run(count: u64, seed: u64) {
    let mut r = Random(seed);
    for i in 0..count {
        let (mut bodies, quotes) = match i % 7 {
            0 => (small_bodies(&mut r), false),
            1 => (alike_bodies(&mut r, 9), false),
            2 => (long_bodies(&mut r, false), true),
            3 | 4 => (small_quoted(&mut r), true),
            _ => (small_cased(&mut r), true),
        };
        if r.below(5) == 0 {
            let i = r.below(3);
            bodies[i] = if quotes { damaged_quoted(&mut r, &bodies[i].clone()) } else { damaged(&mut r, &bodies[i].clone()) };
        }
        check_all(&mut r, &bodies, 40);
    }
    for i in 0..count / 10 {
        let bodies = match i % 7 {
            0 => large_bodies(&mut r),
            1 => alike_bodies(&mut r, LEAVES),
            2 => long_bodies(&mut r, true),
            3 | 4 => large_quoted(&mut r),
            _ => large_cased(&mut r),
        };
        check_all(&mut r, &bodies, 400);
    }
    check_pieces(&mut r, count);
    check_rooms(&[greatest(), strict(&greatest()), greatest_cased()], RECORD);
    check_rooms(&EDITION_LINES.map(greatest_claim), CLAIM_LINE);
    check_rooms(&EDITION_LINES.map(greatest_pieces), LINES);
    for _ in 0..count / 2000 {
        for f in all_families(&mut r).iter().flat_map(|(_, fs)| fs) {
            check_all(&mut r, &f.bodies.texts(), TREE_TEXT);
        }
    }
    println!(
        "{count} small cases from seed {seed}, {} large ones, {count} jobs with pieces and {} times each family: the same",
        count / 10,
        count / 2000
    );
}
