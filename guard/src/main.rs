//! The command `gk guard` by itself, with `screen` for its `--screen`.

use std::ffi::OsString;
use std::process::exit;

fn main() {
    let words: Vec<OsString> = std::env::args_os().skip(1).collect();
    exit(match words.split_first() {
        Some((first, rest)) if first == "screen" => {
            let rest: Vec<String> = rest.iter().map(|word| word.to_string_lossy().into_owned()).collect();
            gk_screen::main(&rest)
        }
        _ => guard::cli::main(words),
    })
}
