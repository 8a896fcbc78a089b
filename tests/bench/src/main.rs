//! The proved engine against unverified methods, all in one run. The tables are printed as docs/PERFORMANCE.md has them.

mod closeness;
mod count;
mod eager;
mod full;
mod gaps;
mod impacts;
mod measure;
mod naive;
mod plain;
mod plot;
mod proved;
mod reading;
mod report;
mod rows;
mod screens;
mod search;
mod tables;
mod workload;

const PLOT: &str = concat!(env!("CARGO_MANIFEST_DIR"), "/../../target/bench.svg");

fn main() {
    let arguments: Vec<String> = std::env::args().skip(1).collect();
    match arguments.iter().map(String::as_str).collect::<Vec<_>>()[..] {
        [] => report::print(PLOT),
        ["--count"] => count::print(),
        ["--search"] => search::print(),
        ["--closeness"] => closeness::print(),
        ["--screens"] => screens::print(),
        ["--earlier", path] => report::beside_earlier(path),
        [path] if !path.starts_with('-') => report::print(path),
        _ => {
            eprintln!("usage: bench [--count | --search | --closeness | --screens | --earlier LIBRARY.so | PLOT.svg]");
            std::process::exit(2);
        }
    }
}
