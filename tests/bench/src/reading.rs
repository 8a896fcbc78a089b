//! The reading of a frame alone: the proved reader, through an engine whose clock is so far ahead that it refuses the frame by 7 once it is read,
//! and the plain one.

use crate::plain::{read, Method};
use crate::proved::Proved;
use passage::{Form, Frame};
use std::hint::black_box;
use std::time::Instant;

const CALLS: usize = 20_000;
const ROUNDS: usize = 40;

/// The nanoseconds that one of many calls takes.
fn nanoseconds(mut call: impl FnMut()) -> f64 {
    let t = Instant::now();
    (0..CALLS).for_each(|_| call());
    t.elapsed().as_secs_f64() * 1e9 / CALLS as f64
}

fn pairs(n: u32) -> Vec<(u32, u32)> {
    (0..n).map(|i| (30 * i + 7, i % 9 + 1)).collect()
}

pub fn print() {
    let mut engine = Proved::start(256, 65535);
    engine.frame(&Frame::Tick { time: u32::MAX }.bytes()).expect("an accepted tick");
    println!("| frame | ratio |\n|---|---|");
    let mut times = String::from("In nanoseconds, proved and plain:");
    let message = |form, n| Frame::Message { time: 123_456, serial: 98_765, form, pairs: pairs(n) };
    for (name, frame) in [
        ("message of 16 pairs", message(Form::Plain, 16)),
        ("message of 8 pairs", message(Form::Plain, 8)),
        ("urgent message of 8 pairs", message(Form::Graded(2), 8)),
        ("long message of 32 pairs", message(Form::Long(2), 32)),
        ("tick", Frame::Tick { time: 123_456 }),
        ("cancel", Frame::Cancel { time: 123_456, serial: 98_765 }),
        ("register of 8 terms", Frame::Register { time: 123_456, number: 17, k: 9, terms: pairs(8) }),
    ] {
        let bytes = frame.bytes();
        let (mut proved, mut plain) = (f64::MAX, f64::MAX);
        for _ in 0..ROUNDS {
            proved = proved.min(nanoseconds(|| assert_eq!(engine.frame(black_box(&bytes)), Err(7))));
            plain = plain.min(nanoseconds(|| assert!(black_box(&read(black_box(&bytes))).is_ok())));
        }
        println!("| {name} | {:.2} |", plain / proved);
        times += &format!(" {name} {proved:.1} and {plain:.1};");
    }
    println!("\n{}", times.trim_end_matches(';'));
}
