//! The impacts of a message alone, in plain Rust: by the unit and the table, as the proved engine finds them; bit by bit, as it did before; by halving
//! the table for each count; and by a root in floating point, as the rivals do.

use crate::plain::{impact, TOP};
use fennelrake_tests::random::Random;
use std::hint::black_box;
use std::time::Instant;

const MESSAGES: usize = 512;
const ROUNDS: usize = 400;

/// The parts of a place, and those of the whole scale.
const FINE: u64 = 720_720;
const REACH: u64 = FINE * TOP as u64;

static SQUARES: [u32; TOP as usize + 1] = {
    let mut squares = [0; TOP as usize + 1];
    let mut i = 0;
    while i <= TOP as usize {
        squares[i] = (i * i) as u32;
        i += 1;
    }
    squares
};

fn most_square(f: u32, n: u32) -> u64 {
    (TOP as u64 * f as u64).pow(2) / n as u64
}

#[inline(always)]
fn bit_by_bit(f: u32, n: u32) -> u32 {
    let most = most_square(f, n).min(TOP as u64 * TOP as u64);
    let (mut low, mut step) = (0, 1 << TOP.ilog2());
    while 0 < step {
        let middle = (low + step) as u64;
        low += step * (middle * middle <= most) as u32;
        step /= 2;
    }
    low
}

/// The greatest place from low to high whose entry is at most `most`.
fn place(mut low: u32, mut high: u32, most: u64) -> u32 {
    while low < high {
        let middle = (low + high).div_ceil(2);
        if SQUARES[middle as usize] as u64 <= most {
            low = middle;
        } else {
            high = middle - 1;
        }
    }
    low
}

#[inline(always)]
fn halving(f: u32, n: u32) -> u32 {
    place(0, TOP, most_square(f, n))
}

/// The impact of a count of 1, in fine parts.
fn unit(n: u32) -> u64 {
    let most = REACH * REACH / n as u64;
    let closer = |guess: u64| ((guess + most / guess) / 2).min(REACH);
    let mut guess = closer(closer(closer(closer(REACH >> ((32 - n.leading_zeros()) / 2)))));
    while most < guess * guess {
        guess = closer(guess);
    }
    guess
}

/// The least and the greatest place that the unit leaves for a count.
#[inline(always)]
fn places(f: u32, unit: u64) -> (u32, u32) {
    let place_of = |parts: u64| (parts / FINE).min(TOP as u64) as u32;
    (place_of(f as u64 * unit), place_of(f as u64 * (unit + 1)))
}

#[inline(always)]
fn by_unit(f: u32, n: u32, unit: u64) -> u32 {
    let (low, high) = places(f, unit);
    if low < high {
        return place(low, high, most_square(f, n));
    }
    low
}

type Counts = Vec<u32>;

/// The impacts of a message, in as many places as it can have pairs.
type Impacts = [u32; 32];
type Way = fn(&Counts, u32, &mut Impacts);

const WAYS: [(&str, Way); 4] = [
    ("by the unit and the table", |fs, n, out| {
        let unit = unit(n);
        fs.iter().zip(out).for_each(|(f, w)| *w = by_unit(*f, n, unit));
    }),
    ("bit by bit", |fs, n, out| fs.iter().zip(out).for_each(|(f, w)| *w = bit_by_bit(*f, n))),
    ("by halving the table", |fs, n, out| fs.iter().zip(out).for_each(|(f, w)| *w = halving(*f, n))),
    ("by a root in floating point", |fs, n, out| fs.iter().zip(out).for_each(|(f, w)| *w = impact(*f as u16, n) as u32)),
];

/// The counts of messages, each count up to `most`, and the sums of their squares.
fn messages(r: &mut Random, least: u64, pairs: u64, most: u64) -> Vec<(Counts, u32)> {
    (0..MESSAGES)
        .map(|_| {
            let fs: Counts = (0..least + r.below(pairs - least + 1)).map(|_| 1 + r.below(most) as u32).collect();
            let n = fs.iter().map(|f| f * f).sum();
            (fs, n)
        })
        .collect()
}

fn nanoseconds(way: Way, messages: &[(Counts, u32)]) -> f64 {
    let mut out = [0; 32];
    let t = Instant::now();
    for (fs, n) in messages {
        way(black_box(fs), *n, &mut out);
        black_box(&out);
    }
    t.elapsed().as_secs_f64() * 1e9 / messages.len() as f64
}

pub fn print() {
    let names: Vec<_> = WAYS[1..].iter().map(|w| w.0).collect();
    println!("| counts | pairs | {} | two places left |\n|{}", names.join(" | "), "---|".repeat(3 + names.len()));
    let mut r = Random::new(11);
    for (most, least, pairs) in [(9, 4, 12), (9, 16, 16), (9, 32, 32), (255, 4, 12), (255, 1, 1)] {
        let messages = messages(&mut r, least, pairs, most);
        let found = |way: Way| -> Vec<Impacts> {
            let impacts = |(fs, n): &(Counts, u32)| {
                let mut out = [0; 32];
                way(fs, *n, &mut out);
                out
            };
            messages.iter().map(impacts).collect()
        };
        WAYS.iter().for_each(|(name, way)| assert!(found(*way) == found(WAYS[0].1), "{name}: other impacts"));
        let mut bests = [f64::MAX; WAYS.len()];
        for _ in 0..ROUNDS {
            bests.iter_mut().zip(WAYS).for_each(|(best, (_, way))| *best = best.min(nanoseconds(way, &messages)));
        }
        let ratios: Vec<_> = bests[1..].iter().map(|b| format!("{:.2}", b / bests[0])).collect();
        let two = |(fs, n): &(Counts, u32)| {
            let unit = unit(*n);
            fs.iter().map(|f| places(*f, unit)).filter(|(low, high)| low < high).count()
        };
        let all: usize = messages.iter().map(|m| m.0.len()).sum();
        let share = 100.0 * messages.iter().map(two).sum::<usize>() as f64 / all as f64;
        println!("| 1 to {most} | {least} to {pairs} | {} | {share:.1} % |", ratios.join(" | "));
    }
}
