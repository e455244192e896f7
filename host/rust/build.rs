//! Links the archive of the proved gatekeeper: `libhost.a` from the folder that GATEKEEPER_LIB names or from the
//! repository's target/staticlib, or `libgatekeeper.a` from where tools/install has put it beside this crate.

use std::env;
use std::path::{Path, PathBuf};

fn main() {
    println!("cargo::rerun-if-env-changed=GATEKEEPER_LIB");
    let given = env::var_os("GATEKEEPER_LIB").map(PathBuf::from);
    let (folder, name) = match given {
        Some(folder) => (folder, "host"),
        None if installed().join("libgatekeeper.a").is_file() => (installed(), "gatekeeper"),
        None => (above(2).join("target/staticlib"), "host"),
    };
    let archive = folder.join(format!("lib{name}.a"));
    println!("cargo::rerun-if-changed={}", archive.display());
    if archive.is_file() {
        println!("cargo::rustc-link-search=native={}", folder.display());
        println!("cargo::rustc-link-lib=static={name}");
    } else {
        println!(
            "cargo::error=the proved gatekeeper is not built: there is no {}. Type 'tools/archive' in the \
             repository's folder, or set GATEKEEPER_LIB to the full name of the folder that has libhost.a",
            archive.display()
        );
    }
}

/// Where the archive is if this crate is PREFIX/share/gatekeeper/rust.
fn installed() -> PathBuf {
    above(3).join("lib")
}

/// The folder so many above this crate's.
fn above(count: usize) -> PathBuf {
    let folder = Path::new(env!("CARGO_MANIFEST_DIR"));
    folder.ancestors().nth(count).unwrap_or(folder).to_path_buf()
}
