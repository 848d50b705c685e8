//! All tables one after the other, or those of the parts that are named.

use bench::{carrying, chain, reader, records, refiner, summary};
use std::env;
use std::process::ExitCode;

const PARTS: [(&str, fn()); 7] = [
    ("reader", reader::run),
    ("records", records::run),
    ("carrying", carrying::run),
    ("refiner", refiner::run),
    ("marks", refiner::marks::run),
    ("summary", summary::run),
    ("chain", chain::run),
];

fn main() -> ExitCode {
    let named: Vec<String> = env::args().skip(1).collect();
    let names = PARTS.map(|(name, _)| name);
    if let Some(other) = named.iter().find(|name| !names.contains(&name.as_str())) {
        eprintln!("no part {other}: there are {}", names.join(", "));
        return ExitCode::FAILURE;
    }
    for (name, run) in PARTS {
        if named.is_empty() || named.iter().any(|other| other == name) {
            run();
        }
    }
    ExitCode::SUCCESS
}
