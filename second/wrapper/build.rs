//! Links libstezkoun.a from the directory STEZKOUN_LIB_DIR.

use std::path::PathBuf;

fn main() {
    println!("cargo:rerun-if-env-changed=STEZKOUN_LIB_DIR");
    let directory = PathBuf::from(std::env::var_os("STEZKOUN_LIB_DIR").unwrap_or_default());
    // Cargo runs this in the package's directory, where a caller's relative path means nothing.
    assert!(
        directory.is_absolute() && directory.join("libstezkoun.a").is_file(),
        "STEZKOUN_LIB_DIR must be the absolute path of the directory that holds libstezkoun.a"
    );
    println!("cargo:rerun-if-changed={}", directory.join("libstezkoun.a").display());
    println!("cargo:rustc-link-search=native={}", directory.display());
    println!("cargo:rustc-link-lib=static=stezkoun");
}
