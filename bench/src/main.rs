//! Compares the proved library with an independent implementation: `differential N SEED`, `speed`; and with itself as it
//! was before: `over BEFORE.. NOW..`.

mod clock;
mod differential;
mod inputs;
mod over;
mod random;
#[forbid(unsafe_code)]
mod reference;
mod sepia;
mod shape;
mod speed;
mod trust;

use std::process::ExitCode;

use sepia::{Library, LINKED};

const USAGE: &str = "bench differential N SEED   N random inputs for each call: answers and buffers must agree
bench speed                 times of each call, Rattle beside Rust
bench over BEFORE.. NOW..   times of each call, the library now over that of before, each as four shared objects";

fn main() -> ExitCode {
    if LINKED.version() != sepia::VERSION {
        eprintln!("the library has version {}, and this is for version {}", LINKED.version(), sepia::VERSION);
        return ExitCode::FAILURE;
    }
    let words: Vec<String> = std::env::args().skip(1).collect();
    match words.iter().map(String::as_str).collect::<Vec<_>>()[..] {
        ["differential", cases, seed] => match (cases.parse(), seed.parse()) {
            (Ok(cases), Ok(seed)) if differential::run(cases, seed) => ExitCode::SUCCESS,
            (Ok(_), Ok(_)) => ExitCode::FAILURE,
            _ => usage(),
        },
        ["speed"] => {
            speed::run();
            ExitCode::SUCCESS
        }
        ["over", b0, b1, b2, b3, n0, n1, n2, n3] => {
            over::run([b0, b1, b2, b3, n0, n1, n2, n3].map(Library::open));
            ExitCode::SUCCESS
        }
        _ => usage(),
    }
}

fn usage() -> ExitCode {
    eprintln!("{USAGE}");
    ExitCode::from(2)
}
