//! The closeness of a message to a query, beside the same in plain Rust, which makes the same checks in the same order.

use crate::measure::{in_turn, Way};
use crate::plain::{self, Look, Message, Method, Query, Walk, Wide};
use crate::proved::Proved;
use crate::workload::{exactly, SEED};
use fennelrake_tests::engine::CLOSENESS_ANSWER;
use fennelrake_tests::random::Random;
use passage::{Form, Frame};
use std::hint::black_box;

const CAPACITY: usize = 256;
const QUERIES: usize = 32;

/// The terms of messages and queries are out of so many.
const TERMS: u64 = 40;

/// So many closenesses are timed at once.
const PART: usize = 256;

type Answer = [u8; CLOSENESS_ANSWER];

/// How a serial is found.
trait Find: Look {
    fn position(serials: &[u32], serial: u32) -> Option<usize>;
}

impl Find for Walk {
    fn position(serials: &[u32], serial: u32) -> Option<usize> {
        serials.iter().position(|&held| held == serial)
    }
}

/// Sixteen are compared at once.
impl Find for Wide {
    fn position(serials: &[u32], serial: u32) -> Option<usize> {
        const AT_ONCE: usize = 16;
        let part = serials.chunks(AT_ONCE).position(|part| part.iter().fold(false, |any, &held| any | (held == serial)))?;
        Some(AT_ONCE * part + Walk::position(&serials[AT_ONCE * part..], serial)?)
    }
}

/// The proved engine, and what a plain program keeps: serials side by side, messages with their counts, and queries.
struct Boards {
    proved: Proved,
    serials: Vec<u32>,
    messages: Vec<Message>,
    queries: [Option<Query>; 32],
}

impl Boards {
    /// A full window and as many queries as there can be.
    fn new(pairs: usize, terms: usize) -> Self {
        let mut r = Random::new(SEED);
        let proved = Proved::start(CAPACITY, 65535);
        let mut b = Boards { proved, serials: Vec::new(), messages: Vec::new(), queries: Default::default() };
        for number in 0..QUERIES {
            b.take(Frame::Register { time: 0, number, k: 8, terms: exactly(&mut r, terms, TERMS, 15) });
        }
        for serial in 0..CAPACITY as u32 {
            b.take(Frame::Message { time: serial, serial, form: Form::Long(0), pairs: exactly(&mut r, pairs, TERMS, 255) });
        }
        b
    }

    fn take(&mut self, f: Frame) {
        let bytes = f.bytes();
        assert!(self.proved.frame(&bytes).is_ok());
        match plain::read(&bytes) {
            Ok(plain::Frame::Message { serial, pairs, .. }) => {
                self.serials.push(serial);
                self.messages.push(Message::counted(serial, &pairs));
            }
            Ok(plain::Frame::Register { number, .. }) => self.queries[number] = Query::asked(&bytes).ok(),
            _ => panic!("{f:?} is neither a message nor a query"),
        }
    }

    fn plain<L: Find>(&self, serial: u32, number: u32, answer: &mut [u8]) -> Result<(), u32> {
        let answer: &mut Answer = answer.first_chunk_mut().ok_or(12u32)?;
        let m = &self.messages[L::position(&self.serials, serial).ok_or(13u32)?];
        let q = self.queries.get(number as usize).and_then(Option::as_ref).ok_or(10u32)?;
        let s = q.weigh(&L::impacts(m, q)) as u64;
        let counts: u32 = m.cells().map(|(_, count)| (count as u32).pow(2)).sum();
        let weights: u32 = q.weights.iter().map(|w| w.pow(2)).sum();
        let (over, by) = (1000 * s * s, counts as u64 * weights as u64);
        answer[..4].copy_from_slice(&((over / by) as u32).to_be_bytes());
        answer[4..].copy_from_slice(&((over % by) as u32).to_be_bytes());
        Ok(())
    }

    fn answered<L: Find>(&self, &(serial, number): &Question) -> Answer {
        let mut answer = [0; CLOSENESS_ANSWER];
        assert!(self.plain::<L>(serial, number, &mut answer).is_ok());
        answer
    }
}

/// A serial and a number.
type Question = (u32, u32);

const WAYS: [Way<Boards, Question>; 3] = [
    ("proved", |b, q| {
        black_box(b.proved.closeness(q.0, q.1));
    }),
    ("plain, walk", |b, q| {
        black_box(b.answered::<Walk>(q));
    }),
    ("plain, wide", |b, q| {
        black_box(b.answered::<Wide>(q));
    }),
];

/// Every message and every query, in any order.
fn questions() -> Vec<Question> {
    let mut all: Vec<Question> = (0..CAPACITY as u32).flat_map(|serial| (0..QUERIES as u32).map(move |number| (serial, number))).collect();
    let mut r = Random::new(SEED);
    (1..all.len()).for_each(|i| all.swap(i, r.below(i as u64 + 1) as usize));
    all
}

pub fn print() {
    let names: Vec<_> = WAYS[1..].iter().map(|w| w.0).collect();
    println!("| pairs | query's terms | closenesses per second | {} |\n|{}", names.join(" | "), "---|".repeat(3 + names.len()));
    let questions = questions();
    for (pairs, terms) in [1, 8, 32].into_iter().flat_map(|pairs| [1, 8].map(|terms| (pairs, terms))) {
        let mut b = Boards::new(pairs, terms);
        for q in &questions {
            let answer = b.proved.closeness(q.0, q.1);
            assert!(b.answered::<Walk>(q) == answer && b.answered::<Wide>(q) == answer, "the closenesses of {q:?} differ");
        }
        let seconds = in_turn(&mut b, &questions, PART, &WAYS);
        let ratios: Vec<_> = seconds[1..].iter().map(|s| format!("{:.2}", s / seconds[0])).collect();
        println!("| {pairs} | {terms} | {:.0} | {} |", questions.len() as f64 / seconds[0], ratios.join(" | "));
    }
}
