//! The command `vanecitron`: hands its arguments, its standard input and its standard output to [`cli::run`], and ends with the status that it gives.

use std::io::{stderr, stdin, stdout, BufWriter};
use std::process::ExitCode;

fn main() -> ExitCode {
    let arguments: Vec<_> = std::env::args_os().skip(1).collect();
    let status = cli::run(&arguments, &mut stdin().lock(), &mut BufWriter::new(stdout().lock()), &mut stderr().lock());
    ExitCode::from(status)
}
