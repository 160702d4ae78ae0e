//! Compiles the C code and links it; the proved library is linked by `compare`.
use std::process::Command;

const NAMES: [&str; 5] = ["parser", "stored", "writer", "admit", "ssl"];

fn main() {
    let here = env!("CARGO_MANIFEST_DIR");
    let out = std::env::var("OUT_DIR").expect("cargo sets it");
    // Without -fno-builtin-memset gcc makes one string store of the 222 zeros, which costs more than the rest of a version 2 header.
    let flags = ["-std=c99", "-O2", "-fno-builtin-memset", "-Wall", "-Wextra", "-Wpedantic", "-Werror", "-c"];
    for name in NAMES {
        done(Command::new("gcc").args(flags).arg(format!("{here}/{name}.c")).arg("-o").arg(format!("{out}/{name}.o")));
        println!("cargo:rerun-if-changed={name}.c");
        println!("cargo:rerun-if-changed={name}.h");
    }
    println!("cargo:rerun-if-changed=unused.h");
    done(Command::new("ar").arg("crs").arg(format!("{out}/libusual.a")).args(NAMES.map(|name| format!("{out}/{name}.o"))));
    println!("cargo:rustc-link-search=native={out}");
    println!("cargo:rustc-link-lib=static=usual");
}

fn done(command: &mut Command) {
    let status = command.status().unwrap_or_else(|e| panic!("{command:?}: {e}"));
    assert!(status.success(), "{command:?}: {status}");
}
