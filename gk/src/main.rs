//! The program `gk`. Everything it does is in the library; see `gk::cli`.

use std::process::ExitCode;

fn main() -> ExitCode {
    gk::cli::main(std::env::args_os().skip(1).collect(), gk::names::files::is_output_open())
}
