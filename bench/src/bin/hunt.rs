//! `hunt [SECONDS [SEED [FOLDER]]]`: looks for the scripts whose refining takes longest beside plain
//! Rust, and writes them to the folder if one is named.

use std::env;
use std::path::PathBuf;
use std::time::Duration;

fn main() {
    let mut arguments = env::args().skip(1);
    let mut number = |default| match arguments.next() {
        Some(text) => text.parse().expect("a number"),
        None => default,
    };
    let time = Duration::from_secs(number(120));
    let seed = number(2002);
    let folder = arguments.next().map(PathBuf::from);
    bench::hunt::run(time, seed, folder.as_deref());
}
