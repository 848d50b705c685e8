//! Compiles and links the doors to SeqAn, if they are asked for.

use std::env;
use std::path::{Path, PathBuf};
use std::process::Command;

const SOURCE: &str = "seqan/refine.cpp";
const NAME: &str = "seqan_refine";

fn main() {
    println!("cargo::rerun-if-changed=build.rs");
    println!("cargo::rerun-if-changed={SOURCE}");
    if env::var_os("CARGO_FEATURE_SEQAN").is_some() {
        let folder = PathBuf::from(env::var_os("OUT_DIR").expect("cargo names a folder"));
        build_archive(&folder);
        println!("cargo::rustc-link-search=native={}", folder.display());
        println!("cargo::rustc-link-lib=static={NAME}");
        println!("cargo::rustc-link-lib=dylib=stdc++");
    }
}

/// Optimized and without SeqAn's own checks, as its manual advises for speed.
fn build_archive(folder: &Path) {
    let object = folder.join("refine.o");
    let archive = folder.join(format!("lib{NAME}.a"));
    run(Command::new("g++")
        .args(["-std=c++17", "-O3", "-DNDEBUG", "-Wall", "-Wextra"])
        .args(["-c", SOURCE, "-o"])
        .arg(&object));
    run(Command::new("ar").arg("crs").arg(&archive).arg(&object));
}

fn run(command: &mut Command) {
    match command.status() {
        Ok(status) if status.success() => (),
        outcome => println!("cargo::error={command:?}: {outcome:?}"),
    }
}
