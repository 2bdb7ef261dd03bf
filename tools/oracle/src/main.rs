//! `oracle text-stdin` and `oracle text-stdout` write the stored cases of the readers and the writer, and what must come out;
//! `oracle job-stdin` and `oracle job-stdout` the same for whole jobs; `oracle stack-stdin` those jobs and the ones that ask the most;
//! `oracle print` reads one job and prints its answer.

use oracle::claim_jobs::family_claim_jobs;
use oracle::families::family_jobs;
use oracle::piece_jobs::family_piece_jobs;
use oracle::{cases, job, jobs};
use std::io::{Read, Write};

fn main() {
    let what = std::env::args().nth(1).unwrap_or_default();
    let out = match what.as_str() {
        "text-stdin" => cases::stream(),
        "text-stdout" => cases::expected(),
        "job-stdin" => jobs::stream(&jobs::jobs()),
        "job-stdout" => jobs::expected(),
        "stack-stdin" => jobs::stream(&[family_jobs(), family_claim_jobs(), family_piece_jobs(), jobs::jobs()].concat()),
        "print" => {
            let mut job = Vec::new();
            std::io::stdin().read_to_end(&mut job).unwrap();
            job::printed(&job)
        }
        _ => {
            eprintln!("usage: oracle text-stdin | text-stdout | job-stdin | job-stdout | stack-stdin | print");
            std::process::exit(2);
        }
    };
    // a reader that has seen enough may be gone
    if std::io::stdout().write_all(&out).is_err() {
        std::process::exit(1);
    }
}
