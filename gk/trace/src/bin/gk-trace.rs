//! The command `gk trace` by itself.

fn main() {
    let arguments: Vec<String> =
        std::env::args_os().skip(1).map(|argument| argument.to_string_lossy().into_owned()).collect();
    std::process::exit(gk_trace::main(&arguments));
}
