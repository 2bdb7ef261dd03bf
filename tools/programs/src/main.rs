//! `programs FOLDER EXAMPLES` runs the compiled programs `agree` and `normal` of a folder through their standard input and output and
//! compares every byte with the oracle's answer; it stops at the first difference.

mod inputs;
mod run;

use oracle::limits::JOB;
use run::{answer, unheard, Broken, Feed};
use std::collections::BTreeSet;
use std::time::Duration;

/// A program and what the oracle says that it prints.
struct Program {
    path: String,
    printed: fn(&[u8]) -> Vec<u8>,
}

fn shown(bytes: &[u8]) -> String {
    let head = String::from_utf8_lossy(&bytes[..bytes.len().min(200)]).into_owned();
    format!("{} bytes {head:?}", bytes.len())
}

fn fail(program: &Program, input: &[u8], how: &str, why: &str) -> ! {
    println!("{}, input of {}, {how}: {why}", program.path, shown(input));
    std::process::exit(1);
}

fn check(program: &Program, input: &[u8], how: Feed) -> Vec<u8> {
    let want = (program.printed)(input);
    match answer(&program.path, input, how) {
        Ok(got) if got == want => want,
        Ok(got) => fail(program, input, &format!("{how:?}"), &format!("it wrote {}, not {}", shown(&got), shown(&want))),
        Err(why) => fail(program, input, &format!("{how:?}"), &why),
    }
}

/// The first words of a printed line, without the place: which kinds of answers a run has seen.
fn kind(printed: &[u8]) -> String {
    let line = String::from_utf8_lossy(printed).into_owned();
    let words: Vec<&str> = line.split_whitespace().collect();
    match words[0] {
        "refused" => format!("{} {}", words[1], words[2]),
        "claim" => "claim ok".to_string(),
        "pieces" => "pieces".to_string(),
        _ => "answered".to_string(),
    }
}

/// Every input at once, then some in small pieces, then some with an output that cannot be written.
fn whole(program: &Program, inputs: &[Vec<u8>], slow: &[Vec<u8>], kinds: &[&str]) {
    let seen: BTreeSet<String> = inputs.iter().map(|x| kind(&check(program, x, Feed::Whole))).collect();
    for wanted in kinds {
        assert!(seen.contains(*wanted), "{}: no input is told {wanted}", program.path);
    }
    let pause = Duration::from_micros;
    for x in slow {
        for how in [Feed::Pieces(1, pause(40)), Feed::Pieces(7, pause(200)), Feed::Pieces(4096, pause(20_000)), Feed::Pieces(JOB, pause(20_000))] {
            check(program, x, how);
        }
        for broken in [Broken::ReaderGone, Broken::Full, Broken::Closed] {
            if let Err(why) = unheard(&program.path, x, broken) {
                fail(program, x, &format!("output {broken:?}"), &why);
            }
        }
    }
    println!("{}: {} inputs, {} of them in pieces and unheard: as the oracle says", program.path, inputs.len(), slow.len());
}

fn main() {
    let words: Vec<String> = std::env::args().collect();
    let [_, folder, examples] = &words[..] else {
        eprintln!("usage: programs FOLDER EXAMPLES");
        std::process::exit(2);
    };
    let agree = Program { path: format!("{folder}/agree"), printed: oracle::job::printed };
    let kinds = [
        "answered", "1 S", "1 T", "1 K", "2 S", "2 T", "2 K", "3 S", "3 T", "3 K", "4 S", "4 T", "4 K", "5 S", "5 T", "5 K", "6 K", "7 K", "8 K",
        "10 J", "11 J", "12 S", "12 T", "pieces", "claim ok", "1 C", "2 C", "3 C", "4 C", "5 C", "6 C", "7 C", "13 K", "14 C", "15 C",
    ];
    whole(&agree, &inputs::jobs(examples), &inputs::slow_jobs(), &kinds);
    let normal = Program { path: format!("{folder}/normal"), printed: oracle::cases::normal_printed };
    whole(&normal, &inputs::texts(examples), &inputs::slow_texts(), &["answered", "1 S", "2 S", "3 S", "4 S", "5 S"]);
}
