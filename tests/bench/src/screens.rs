//! A screen, beside the same lines placed in plain Rust from the same state memory, in two ways and with the same checks; and beside a host that reads
//! every list by a call and places the lines itself.

use crate::measure::{in_turn, Way};
use crate::plain::Method;
use crate::proved::Proved;
use fennelrake_tests::engine::{record_at, state_word, word, KEYS, LINE, LISTED, LIST_ANSWER, SERIALS, STATE};
use passage::{Form, Frame};
use std::hint::black_box;

const QUERIES: usize = 32;
const ENTRIES: usize = 16;
const MOST_LINES: u32 = 512;

/// A screen is asked for so often, and so many times at once.
const SCREENS: usize = 2048;
const PART: usize = 256;

/// The lists that lines are placed from, by number: none where it isn't in use.
trait Lists {
    fn length(&self, number: usize) -> usize;
    /// Serial and score.
    fn entry(&self, number: usize, place: usize) -> (u32, u32);
}

/// The state memory's own.
impl Lists for [u8; STATE] {
    fn length(&self, number: usize) -> usize {
        state_word(self, record_at(number) + LISTED) as usize
    }

    fn entry(&self, number: usize, place: usize) -> (u32, u32) {
        let at = record_at(number) + place;
        (state_word(self, at + SERIALS), state_word(self, at + KEYS) / 4)
    }
}

/// What the calls for each list answered; a refusal leaves zeros.
impl Lists for [[u8; LIST_ANSWER]; QUERIES] {
    fn length(&self, number: usize) -> usize {
        word(&self[number], 0) as usize
    }

    fn entry(&self, number: usize, place: usize) -> (u32, u32) {
        (word(&self[number], 1 + place), word(&self[number], 1 + ENTRIES + place))
    }
}

fn put(line: &mut [u8], number: usize, (serial, score): (u32, u32)) {
    line[0] = number as u8;
    line[1..5].copy_from_slice(&serial.to_be_bytes());
    line[5..9].copy_from_slice(&score.to_be_bytes());
}

/// How many lines are placed: round by round, of every number.
fn by_rounds(lists: &impl Lists, out: &mut [u8]) -> usize {
    let (mut free, mut placed) = (out.chunks_exact_mut(LINE), 0);
    for round in 0..ENTRIES {
        for number in 0..QUERIES {
            if round < lists.length(number) {
                let Some(line) = free.next() else { return placed };
                put(line, number, lists.entry(number, round));
                placed += 1;
            }
        }
    }
    placed
}

/// The same, of those numbers alone that have an entry left.
fn of_those_left(lists: &impl Lists, out: &mut [u8]) -> usize {
    let (mut free, mut placed) = (out.chunks_exact_mut(LINE), 0);
    let (mut left, mut n) = ([(0, 0); QUERIES], 0);
    for number in 0..QUERIES {
        left[n] = (number, lists.length(number));
        n += (left[n].1 > 0) as usize;
    }
    for round in 0..ENTRIES {
        let mut stay = 0;
        for i in 0..n {
            let (number, length) = left[i];
            let Some(line) = free.next() else { return placed };
            put(line, number, lists.entry(number, round));
            placed += 1;
            left[stay] = left[i];
            stay += (length > round + 1) as usize;
        }
        n = stay;
    }
    placed
}

/// The proved engine, and the output of a screen.
struct Boards {
    proved: Proved,
    queries: u32,
    out: [u8; LINE * MOST_LINES as usize],
}

impl Boards {
    /// So many queries of each of these lengths, all for a term that sixteen messages have.
    fn new(lists: &[(usize, usize)]) -> Self {
        let mut proved = Proved::start(256, 65535);
        for (number, k) in lists.iter().flat_map(|&(queries, k)| std::iter::repeat_n(k, queries)).enumerate() {
            assert!(proved.frame(&Frame::Register { time: 0, number, k, terms: vec![(5, 1)] }.bytes()).is_ok());
        }
        for serial in 0..ENTRIES as u32 {
            let pairs = vec![(5, 1 + serial), (6, 9)];
            assert!(proved.frame(&Frame::Message { time: 0, serial, form: Form::Plain, pairs }.bytes()).is_ok());
        }
        let queries = lists.iter().map(|(queries, _)| *queries as u32).sum();
        Boards { proved, queries, out: [0; LINE * MOST_LINES as usize] }
    }

    /// Placed by one of the ways above, from the state memory.
    fn plain(&mut self, lines: u32, way: fn(&[u8; STATE], &mut [u8]) -> usize) -> Result<usize, u32> {
        let state = self.proved.state().try_into().map_err(|_| 12u32)?;
        if lines > MOST_LINES {
            return Err(5);
        }
        let out = self.out.get_mut(..LINE * lines as usize).ok_or(12u32)?;
        Ok(way(state, out))
    }

    /// The list of every query that is registered, read by a call.
    fn host(&mut self, lines: u32) -> usize {
        let mut lists = [[0; LIST_ANSWER]; QUERIES];
        for (answer, number) in lists.iter_mut().zip(0..self.queries) {
            self.proved.list_into(number, answer);
        }
        of_those_left(&lists, &mut self.out[..LINE * lines as usize])
    }

    /// The lines that a way places.
    fn placed(&mut self, way: fn(&mut Boards, &u32), lines: u32) -> Vec<u8> {
        self.out.fill(0);
        way(self, &lines);
        self.out.to_vec()
    }
}

const WAYS: [Way<Boards, u32>; 4] = [
    ("proved", |b, &lines| {
        black_box(b.proved.screen(lines, &mut b.out));
    }),
    ("plain, by rounds", |b, &lines| {
        black_box(b.plain(lines, by_rounds)).expect("a screen that is accepted");
    }),
    ("plain, those left", |b, &lines| {
        black_box(b.plain(lines, of_those_left)).expect("a screen that is accepted");
    }),
    ("a host by lists", |b, &lines| {
        black_box(b.host(lines));
    }),
];

pub fn print() {
    let names: Vec<_> = WAYS[1..].iter().map(|w| w.0).collect();
    println!("| lists | lines | placed | screens per second | {} |\n|{}", names.join(" | "), "---|".repeat(4 + names.len()));
    for (known, lists, lines) in [
        ("one of 16", &[(1, 16)][..], 512),
        ("32 of one", &[(32, 1)], 512),
        ("32 of 16", &[(32, 16)], 512),
        ("one of 16, 31 of one", &[(1, 16), (31, 1)], 512),
        ("8 of 8", &[(8, 8)], 16),
    ] {
        let mut b = Boards::new(lists);
        let want = b.placed(WAYS[0].1, lines);
        for (name, way) in &WAYS[1..] {
            assert!(b.placed(*way, lines) == want, "{name}: the lines differ");
        }
        let placed = b.proved.screen(lines, &mut b.out);
        let seconds = in_turn(&mut b, &[lines; SCREENS], PART, &WAYS);
        let ratios: Vec<_> = seconds[1..].iter().map(|s| format!("{:.2}", s / seconds[0])).collect();
        println!("| {known} | {lines} | {placed} | {:.0} | {} |", SCREENS as f64 / seconds[0], ratios.join(" | "));
    }
}
