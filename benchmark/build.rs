//! Compiles the two C files with the system's C compiler.

use std::path::Path;
use std::process::Command;

fn succeed(command: &mut Command) {
    let done = command.status().unwrap_or_else(|fault| panic!("{command:?}: {fault}"));
    assert!(done.success(), "{command:?} failed");
}

fn main() {
    println!("cargo:rerun-if-changed=c");
    let out = std::env::var("OUT_DIR").expect("cargo sets OUT_DIR");
    let out = Path::new(&out);
    let compiler = std::env::var("CC").unwrap_or_else(|_| "cc".into());
    let mut archive = Command::new("ar");
    archive.arg("rcs").arg(out.join("libbench_c.a"));
    for name in ["plain", "painted"] {
        let object = out.join(format!("{name}.o"));
        succeed(
            Command::new(&compiler)
                .args(["-O2", "-std=c11", "-Wall", "-Wextra", "-fPIC", "-c", "-o"])
                .arg(&object)
                .arg(format!("c/{name}.c")),
        );
        archive.arg(object);
    }
    succeed(&mut archive);
    println!("cargo:rustc-link-search=native={}", out.display());
    println!("cargo:rustc-link-lib=static=bench_c");
}
