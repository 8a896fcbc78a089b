//! Turns a passage text into a session's input and back.

use passage::text::Passage;
use std::io::{Read, Write};

const USAGE: &str = "usage: passage < TEXT > INPUT, or passage --text < INPUT > TEXT";

fn run(back: bool) -> Result<(), String> {
    let mut input = Vec::new();
    std::io::stdin().read_to_end(&mut input).map_err(|e| format!("standard input can't be read: {e}"))?;
    let output = if back {
        let cut = format!("the header is cut: it takes 3 bytes, and there are {}", input.len());
        Passage::from_input(&input).ok_or(cut)?.show().into_bytes()
    } else {
        Passage::parse_bytes(&input).map_err(|w| format!("line {}: {}", w.line, w.what))?.input()
    };
    let mut out = std::io::stdout();
    out.write_all(&output).and_then(|()| out.flush()).map_err(|e| format!("standard output can't be written: {e}"))
}

fn main() {
    let args: Vec<_> = std::env::args_os().skip(1).collect();
    let back = match args.as_slice() {
        [] => false,
        [one] if one == "--text" => true,
        _ => {
            eprintln!("{USAGE}");
            std::process::exit(2);
        }
    };
    if let Err(what) = run(back) {
        eprintln!("passage: {what}");
        std::process::exit(1);
    }
}
