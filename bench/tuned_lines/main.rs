//! The whole job of `netlines::run` in plain Rust, tuned: lines are read where they stand in the
//! read buffer, uncut frames take no memory, answers are encoded into the write buffer, messages
//! being reassembled stand in one vector and their memory is used again, ranges are found by bisection,
//! hex and sums are chosen at run time. It leaves its pool to the end of the process.

mod defrag;
mod judge;
mod kernel;
mod line;
mod run;
mod sliced;

use defrag::IpDefragPool;
use run::{RunError, run};
use std::fs::File;
use std::io::Write;
use std::mem::ManuallyDrop;
use std::os::fd::AsFd;
use std::process::ExitCode;

fn main() -> ExitCode {
    // Fragments that overlap are accepted.
    let mut pool = ManuallyDrop::new(IpDefragPool::new(true));
    let text = match answer(&mut pool) {
        Ok(()) => return ExitCode::SUCCESS,
        Err(RunError::Read) => "netlines: read\n",
        Err(RunError::Write) => "netlines: write\n",
        Err(RunError::TooManyReads) => "netlines: reads\n",
    };
    let _ = std::io::stderr().write_all(text.as_bytes());
    ExitCode::FAILURE
}

// Standard output is taken as a file, since std's own handle is line buffered.
fn answer(pool: &mut IpDefragPool) -> Result<(), RunError> {
    let input = std::io::stdin()
        .as_fd()
        .try_clone_to_owned()
        .map_err(|_| RunError::Read)?;
    let output = std::io::stdout()
        .as_fd()
        .try_clone_to_owned()
        .map_err(|_| RunError::Write)?;
    let (mut input, mut output) = (File::from(input), File::from(output));
    run(pool, &mut input, &mut output)?;
    output.flush().map_err(|_| RunError::Write)
}
