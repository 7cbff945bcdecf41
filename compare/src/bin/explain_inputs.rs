//! `explain_inputs SEED COUNT FOLDER` writes COUNT traces and as many control
//! streams into a folder, the same for the same seed: `1.trace`, `1.stream`,
//! `2.trace` and so on.

use std::fs;
use std::io;
use std::path::Path;
use std::process::ExitCode;

use second::generate::Cases;

fn main() -> ExitCode {
    let arguments: Vec<String> = std::env::args().skip(1).collect();
    let [seed, count, folder] = &arguments[..] else {
        return usage();
    };
    let (Ok(seed), Ok(count)) = (seed.parse(), count.parse()) else {
        return usage();
    };
    match write(seed, count, Path::new(folder)) {
        Ok(()) => ExitCode::SUCCESS,
        Err(error) => {
            eprintln!("explain_inputs: {error}");
            ExitCode::FAILURE
        }
    }
}

fn usage() -> ExitCode {
    eprintln!("usage: explain_inputs SEED COUNT FOLDER");
    ExitCode::FAILURE
}

fn write(seed: u64, count: u64, folder: &Path) -> io::Result<()> {
    let (mut traces, mut streams) = (Cases::new(seed), Cases::new(seed));
    for at in 1..=count {
        fs::write(folder.join(format!("{at}.trace")), traces.next_trace())?;
        fs::write(folder.join(format!("{at}.stream")), streams.next_stream())?;
    }
    Ok(())
}
