//! What every command that reads and writes files asks first.

use std::ffi::c_int;
use std::fs;
use std::os::unix::fs::MetadataExt;
use std::path::Path;
use std::sync::atomic::{AtomicBool, Ordering};

use crate::{Fault, Names};

/// What is said where [`replaces`] holds.
pub const REPLACES: &str = "the output would replace the input: nothing is written";

/// What is said where standard input is to be read and [`is_input_open`] does not hold.
pub const INPUT_CLOSED: &str = "standard input is closed";

/// Where standard input is found as a path.
pub const INPUT: &str = "/dev/stdin";

/// Whether one of the outputs is the file of one of the inputs, by whatever path.
pub fn replaces(outputs: &[&Path], inputs: &[&Path]) -> bool {
    let file = |path: &&Path| {
        let there = fs::metadata(path).ok().filter(|there| there.is_file())?;
        Some((there.dev(), there.ino()))
    };
    let read: Vec<(u64, u64)> = inputs.iter().filter_map(file).collect();
    outputs.iter().filter_map(file).any(|written| read.contains(&written))
}

/// Why a file that is there is no names file: not to lose one that only happens to be called so. An empty one loses
/// nothing; who was killed as it began to write names leaves it.
pub fn no_names(path: &Path) -> Option<Fault> {
    let has_bytes = path.metadata().is_ok_and(|data| data.is_file() && data.len() > 0);
    has_bytes.then(|| Names::load(path).err()).flatten()
}

extern "C" {
    fn fcntl(descriptor: c_int, command: c_int, ...) -> c_int;
}

/// Asks for a descriptor's flags, on Linux; it fails where the descriptor is closed.
const F_GETFD: c_int = 1;

/// Whether the program was started with its standard input and output open. Before `main`, Rust opens /dev/null in the
/// place of one that is closed: output would be lost without a word, and input would be empty. So this is looked up
/// before that.
static IS_OPEN: [AtomicBool; 2] = [AtomicBool::new(true), AtomicBool::new(true)];

#[used]
#[cfg_attr(target_os = "linux", link_section = ".init_array")]
static BEFORE_MAIN: extern "C" fn() = look;

extern "C" fn look() {
    for (descriptor, is_open) in (0..).zip(&IS_OPEN) {
        // Sound: it takes two numbers, and changes nothing.
        is_open.store(unsafe { fcntl(descriptor, F_GETFD) } != -1, Ordering::Relaxed);
    }
}

/// Whether the program was started with its standard input open.
pub fn is_input_open() -> bool {
    IS_OPEN[0].load(Ordering::Relaxed)
}

/// Whether the program was started with its standard output open.
pub fn is_output_open() -> bool {
    IS_OPEN[1].load(Ordering::Relaxed)
}

#[cfg(test)]
mod tests {
    use super::*;

    #[test]
    fn a_file_is_known_by_whatever_path() {
        let folder = std::env::temp_dir().join(format!("gk-names-files-{}", std::process::id()));
        fs::create_dir_all(&folder).unwrap();
        let [one, link, hard, other, none] =
            ["one", "link", "hard", "other", "none"].map(|name| folder.join(name));
        fs::write(&one, "a").unwrap();
        fs::write(&other, "a").unwrap();
        std::os::unix::fs::symlink(&one, &link).unwrap();
        fs::hard_link(&one, &hard).unwrap();
        let dotted = folder.join(".").join("one");
        for same in [&one, &link, &hard, &dotted] {
            assert!(replaces(&[&none, same], &[&other, &one]), "{}", same.display());
        }
        assert!(!replaces(&[&other, &none], &[&one, &none]));
        assert!(!replaces(&[Path::new("/dev/null")], &[Path::new("/dev/null")]));
        assert!(no_names(&one).is_some() && no_names(&none).is_none() && no_names(&folder).is_none());
        fs::write(&one, "names 1\n").unwrap();
        assert!(no_names(&one).is_none());
        fs::remove_dir_all(&folder).unwrap();
    }
}
