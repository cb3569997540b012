//! Compiles the plain C copies and the lower bounds with -O3, and links them.

use std::env;
use std::path::PathBuf;
use std::process::Command;

fn main() {
    let out = PathBuf::from(env::var("OUT_DIR").expect("cargo sets OUT_DIR"));
    println!("cargo:rustc-link-search=native={}", out.display());
    for name in ["plain", "plain_drafts", "bounds"] {
        let source = format!("../c/{name}.c");
        println!("cargo:rerun-if-changed={source}");
        let (object, archive) = (out.join(format!("{name}.o")), out.join(format!("lib{name}.a")));
        let flags = ["-std=c99", "-O3", "-fPIC", "-Wall", "-Wextra", "-Werror", "-c", &source, "-o"];
        run(Command::new("cc").args(flags).arg(&object));
        run(Command::new("ar").arg("rcs").arg(&archive).arg(&object));
        println!("cargo:rustc-link-lib=static={name}");
    }
}

fn run(command: &mut Command) {
    let status = command.status().unwrap_or_else(|why| panic!("{command:?}: {why}"));
    assert!(status.success(), "{command:?}: {status}");
}
