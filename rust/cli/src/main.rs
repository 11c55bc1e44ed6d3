//! The program `zeldrupa`.

use std::env::args_os;
use std::process::ExitCode;

fn main() -> ExitCode {
    ExitCode::from(zeldrupa_cli::main(args_os().skip(1).collect()))
}
