//! Links libcapi.a, which `bash archive capi` writes. NOTCHERGREY_STATICLIB names its folder; a relative one is seen
//! from where cargo was started, or else from this package. Without it the folder is ../../target/staticlib, seen from
//! this package.

use std::env;
use std::path::{Path, PathBuf};

const FOLDER_VARIABLE: &str = "NOTCHERGREY_STATICLIB";
const DEFAULT_FOLDER: &str = "../../target/staticlib";
const ARCHIVE: &str = "libcapi.a";

fn main() {
    println!("cargo::rerun-if-env-changed={FOLDER_VARIABLE}");
    println!("cargo::rerun-if-changed=build.rs");
    let tried: Vec<PathBuf> = folders()
        .iter()
        .map(|folder| folder.join(ARCHIVE))
        .collect();
    // Also one that is missing: it may come.
    for archive in &tried {
        println!("cargo::rerun-if-changed={}", archive.display());
    }
    match tried.iter().find_map(|archive| archive.canonicalize().ok()) {
        Some(archive) => {
            let folder = archive.parent().expect("a file stands in a folder");
            println!("cargo::rustc-link-search=native={}", folder.display());
            println!("cargo::rustc-link-lib=static=capi");
        }
        None => println!(
            "cargo::error={ARCHIVE} is missing, looked for as {}: run `bash archive capi` in the repository, or name \
             the archive's folder in {FOLDER_VARIABLE}",
            names(&tried)
        ),
    }
}

/// Where the archive may stand. A build script runs in the folder of its package; where cargo was started is known from
/// PWD alone, which shells set and cargo hands on.
fn folders() -> Vec<PathBuf> {
    let package = PathBuf::from(env::var_os("CARGO_MANIFEST_DIR").expect("cargo sets it"));
    let Some(named) = env::var_os(FOLDER_VARIABLE).filter(|named| !named.is_empty()) else {
        return vec![package.join(DEFAULT_FOLDER)];
    };
    if Path::new(&named).is_absolute() {
        return vec![named.into()];
    }
    println!("cargo::rerun-if-env-changed=PWD");
    let started = env::var_os("PWD")
        .map(PathBuf::from)
        .filter(|pwd| pwd.is_absolute());
    started
        .into_iter()
        .chain([package])
        .map(|folder| folder.join(&named))
        .collect()
}

fn names(archives: &[PathBuf]) -> String {
    let names: Vec<String> = archives
        .iter()
        .map(|archive| archive.display().to_string())
        .collect();
    names.join(" and ")
}
