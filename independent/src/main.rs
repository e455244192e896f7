//! The program `second`. Everything it does is in the library; see `cli`.

use std::process::ExitCode;

fn main() -> ExitCode {
    gatekeeper_independent::cli::main(std::env::args_os().skip(1).collect())
}
