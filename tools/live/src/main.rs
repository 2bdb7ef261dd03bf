//! `live compare N SEED` runs N random cases through the archive and the oracle and stops at the first difference;
//! `live bench [short]` measures the engine beside the oracle's own recurrence and prints a table.

mod bench;
mod compare;
mod engine;

fn main() {
    let words: Vec<String> = std::env::args().collect();
    let number = |i: usize, other: u64| words.get(i).and_then(|w| w.parse().ok()).unwrap_or(other);
    match words.get(1).map(String::as_str) {
        Some("compare") => compare::run(number(2, 2000), number(3, 1)),
        Some("bench") => bench::run(words.get(2).map(String::as_str) == Some("short")),
        _ => {
            eprintln!("usage: live compare N SEED | live bench [short]");
            std::process::exit(2);
        }
    }
}
