//! Jobs: contents and the printed lines.

use crate::agree::Label;
use crate::bodies::{answer, answer_in_pieces, joined, judged, refused, text, Options, Refusal};
use crate::edition::Edition;
use crate::limits::{DIGITS, JOB};
use crate::pieces::Piece;

/// The contents line of a strict job.
const STRICT: &[u8] = b"strict\n";
/// What a job may say of the edition: nothing, which picks the first, or a line.
pub const EDITION_LINES: [&str; 3] = ["", FIRST, SECOND];
pub const FIRST: &str = "E 1\n";
pub const SECOND: &str = "E 2\n";
/// The contents line of a job whose pieces are shown.
const PIECES: &[u8] = b"pieces\n";

/// The letters of the bodies, in their order; a job may be without the last, the claim.
const LETTERS: [char; 4] = ['S', 'T', 'K', 'C'];

/// The job that holds three bodies, or four.
pub fn job_of(bodies: &[&[u8]]) -> Vec<u8> {
    let lines: String = LETTERS.iter().zip(bodies).map(|(letter, body)| format!("{letter} {}\n", body.len())).collect();
    [lines.as_bytes(), b"\n", &bodies.concat()].concat()
}

pub fn job(s: &[u8], t: &[u8], k: &[u8]) -> Vec<u8> {
    job_of(&[s, t, k])
}

/// The job with a claim.
pub fn claim_job(s: &[u8], t: &[u8], k: &[u8], c: &[u8]) -> Vec<u8> {
    job_of(&[s, t, k, c])
}

/// The job with the line `strict` in front.
pub fn strict(job: &[u8]) -> Vec<u8> {
    [STRICT, job].concat()
}

/// What follows this line, and whether the text begins with it.
fn after<'a>(line: &[u8], text: &'a [u8]) -> (bool, &'a [u8]) {
    text.strip_prefix(line).map_or((false, text), |rest| (true, rest))
}

/// The job with one more line, before what is the rest of it.
fn with_line(line: &[u8], job: &[u8], rest: &[u8]) -> Vec<u8> {
    [&job[..job.len() - rest.len()], line, rest].concat()
}

/// The job with such a line, after `strict` if that is there.
pub fn with_edition(line: &str, job: &[u8]) -> Vec<u8> {
    with_line(line.as_bytes(), job, after(STRICT, job).1)
}

/// The job with the line `pieces`, after `strict` and that of an edition if these are there.
pub fn with_pieces(job: &[u8]) -> Vec<u8> {
    with_line(PIECES, job, edition(after(STRICT, job).1).1)
}

/// The job with all that may be asked beside its bodies: strict or not, with each line of an edition or none.
pub fn every_state(job: &[u8]) -> Vec<Vec<u8>> {
    EDITION_LINES.iter().flat_map(|line| [job.to_vec(), strict(job)].map(|j| with_edition(line, &j))).collect()
}

/// The edition that the next line picks, and what follows it; the first edition where the next line is another.
fn edition(text: &[u8]) -> (Edition, &[u8]) {
    match after(SECOND.as_bytes(), text) {
        (true, rest) => (Edition::Second, rest),
        (false, _) => (Edition::First, after(FIRST.as_bytes(), text).1),
    }
}

/// The length that the next line tells of the body with this letter, and what follows the line.
fn length(letter: char, text: &[u8]) -> Option<(usize, &[u8])> {
    let end = text.iter().position(|&b| b == b'\n')?;
    let digits = text[..end].strip_prefix(format!("{letter} ").as_bytes())?;
    let plain = (1..=DIGITS).contains(&digits.len()) && digits.iter().all(u8::is_ascii_digit) && (digits.len() == 1 || digits[0] != b'0');
    plain.then(|| (String::from_utf8_lossy(digits).parse().unwrap(), &text[end + 1..]))
}

/// A job whose contents keep their rules: what is asked, the three bodies, and the claim, if there is one.
struct Contents<'a> {
    options: Options,
    pieces: bool,
    bodies: [&'a [u8]; 3],
    claim: Option<&'a [u8]>,
}

fn contents(job: &[u8]) -> Option<Contents<'_>> {
    let (strict, rest) = after(STRICT, job);
    let (edition, rest) = edition(rest);
    let (pieces, mut rest) = after(PIECES, rest);
    let mut lengths = Vec::new();
    for letter in LETTERS {
        match length(letter, rest) {
            Some((n, tail)) => {
                lengths.push(n);
                rest = tail;
            }
            // no claim; a line of it that breaks its rules is not the empty line either
            None if letter == 'C' => (),
            None => return None,
        }
    }
    let mut rest = rest.strip_prefix(b"\n")?;
    if lengths.iter().sum::<usize>() != rest.len() {
        return None;
    }
    let mut bodies = Vec::new();
    for n in lengths {
        let (body, tail) = rest.split_at(n);
        bodies.push(body);
        rest = tail;
    }
    let claim = bodies.get(3).copied();
    if pieces && claim.is_some() {
        return None;
    }
    Some(Contents { options: Options { strict, edition }, pieces, bodies: [bodies[0], bodies[1], bodies[2]], claim })
}

/// The three lines of a set and its tree.
fn record((set, tree): (Vec<Label>, Vec<u8>)) -> String {
    format!("size {}\nset {}\ntree {}", set.len(), joined(&set), text(&tree))
}

/// The line of the total, and a line for each piece. The total counts every label of these.
fn piece_lines(pieces: &[Piece]) -> String {
    let total: usize = pieces.iter().map(|piece| piece.labels().len()).sum();
    let at = |piece: &Piece| format!("at {} {}\n", joined(&piece.head), joined(&piece.leaves));
    format!("pieces {total}\n{}", pieces.iter().map(at).collect::<String>())
}

/// The lines of the set, after those of its pieces if they are asked for, or of a claim that passes; or a refusal.
pub fn lines(job: &[u8]) -> Result<String, Refusal> {
    if job.len() > JOB {
        return Err(refused(11, 'J', 0));
    }
    let Contents { options, pieces, bodies, claim } = contents(job).ok_or(refused(10, 'J', 0))?;
    let lines = match claim {
        None if pieces => answer_in_pieces(options, bodies).map(|(all, answer)| piece_lines(&all) + &record(answer)),
        None => answer(options, bodies).map(record),
        Some(claim) => judged(options, bodies, claim).map(|size| format!("claim ok {size}")),
    };
    let claim_at = job.len() - claim.map_or(0, <[u8]>::len);
    lines.map_err(|q| match q.letter {
        'C' => q.of_list_at(claim_at),
        _ => q.of_list_at(claim_at - bodies[2].len()),
    })
}

/// What the program `agree` must print.
pub fn printed(job: &[u8]) -> Vec<u8> {
    let mut out = lines(job).unwrap_or_else(|q| q.line());
    out.push('\n');
    out.into_bytes()
}
