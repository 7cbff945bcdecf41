//! `live SEED COUNT` puts COUNT cases from a seed to the proved code, through
//! its C interface, and to the second implementation, and compares every
//! answer, every byte and every value. It prints the seed, the first
//! difference, how many cases of each kind there were, and at its end 'N
//! passed, 0 failed'.

use std::process::ExitCode;

#[cfg(exports)]
mod compare;
#[cfg(exports)]
mod ledgers;
#[cfg(exports)]
#[path = "../ours/mod.rs"]
mod ours;
#[cfg(exports)]
mod run;

fn main() -> ExitCode {
    let arguments: Vec<String> = std::env::args().skip(1).collect();
    let numbers: Option<Vec<u64>> = arguments.iter().map(|word| word.parse().ok()).collect();
    let Some([seed, count]) = numbers.as_deref() else {
        eprintln!("usage: live SEED COUNT");
        return ExitCode::FAILURE;
    };
    run(*seed, *count)
}

#[cfg(exports)]
fn run(seed: u64, count: u64) -> ExitCode {
    println!("seed {seed}");
    let mut run = run::Run::new(seed);
    for at in 0..count {
        run.case(at);
    }
    run.print_kinds();
    println!("{} passed, {} failed", count - run.failed, run.failed);
    if run.failed == 0 {
        ExitCode::SUCCESS
    } else {
        ExitCode::FAILURE
    }
}

#[cfg(not(exports))]
fn run(_seed: u64, _count: u64) -> ExitCode {
    eprintln!("live: MOQ_EXPORTS names no archive of the proved code; see compare/README.md");
    ExitCode::FAILURE
}
