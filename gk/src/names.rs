//! Names for the steps, files and pipes of a journal: all of the package `gk-names`, in `gk/names`, whose first page
//! has the file's format and how it is used. It is a package of its own so that a library which `gk` itself stands on
//! can read and write such files, too.

pub use gk_names::*;
