//! How long the proved code takes, against the same work in plain Rust: a line
//! for each thing measured, with the nanoseconds of ours, of theirs, and the
//! ratio.

#[cfg(exports)]
mod clock;
#[cfg(exports)]
mod integer;
#[cfg(exports)]
mod ledger;
#[cfg(exports)]
#[path = "../ours/mod.rs"]
mod ours;
#[cfg(exports)]
mod quinn;
#[cfg(exports)]
mod rewrite;
#[cfg(exports)]
mod trace;

use std::process::ExitCode;

#[cfg(exports)]
fn main() -> ExitCode {
    clock::heading();
    integer::measure();
    rewrite::measure();
    ledger::measure();
    trace::measure();
    ExitCode::SUCCESS
}

#[cfg(not(exports))]
fn main() -> ExitCode {
    eprintln!("speed: build it with MOQ_EXPORTS, the archive of the proved code");
    ExitCode::FAILURE
}
