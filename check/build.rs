//! With the feature `archive`: tell the linker where libhas_c.a is.
//! HAS_C_ARCHIVE names the file, or the directory that holds it.

use std::env;
use std::path::PathBuf;

fn main() {
    println!("cargo:rerun-if-changed=build.rs");
    println!("cargo:rerun-if-env-changed=HAS_C_ARCHIVE");
    if env::var_os("CARGO_FEATURE_ARCHIVE").is_none() {
        return;
    }
    let Some(given) = env::var_os("HAS_C_ARCHIVE") else {
        panic!("the feature `archive` needs HAS_C_ARCHIVE, the path of libhas_c.a");
    };
    let given = PathBuf::from(given);
    let file = if given.is_dir() { given.join("libhas_c.a") } else { given };
    let file = file.canonicalize().expect("HAS_C_ARCHIVE is no file that can be found");
    let directory = file.parent().expect("a file is in a directory");
    println!("cargo:rerun-if-changed={}", file.display());
    println!("cargo:rustc-link-search=native={}", directory.display());
    println!("cargo:rustc-link-lib=static=has_c");
}
