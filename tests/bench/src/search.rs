//! A search asked for once, beside ranking the whole window once for the same query, in plain Rust; beside the rule carried out step by step there;
//! and beside registering the query, reading its list and dropping it.

use crate::full::Full;
use crate::measure::{in_turn, Way};
use crate::plain::{rank, Entry, Look, Method, Plain, Query, Walk, Wide, Window};
use crate::proved::Proved;
use crate::workload::{query, Passage, Setting, Workload, SEED, WORKLOADS};
use fennelrake_tests::engine::word;
use fennelrake_tests::random::Random;
use passage::Frame;
use std::hint::black_box;

const CAPACITY: usize = 256;
const QUERIES: usize = 400;

/// So many searches are timed at once.
const PART: usize = 20;

/// The time that messages and queries are of: none ages.
const NOW: u32 = CAPACITY as u32;

struct Question {
    /// A search and a registration alike.
    register: Vec<u8>,
    drop: Vec<u8>,
}

fn question(k: usize, terms: Vec<(u32, u32)>) -> Question {
    Question { register: Frame::Register { time: NOW, number: 0, k, terms }.bytes(), drop: Frame::Drop { time: NOW, number: 0 }.bytes() }
}

/// The engines with the window filled, and the vectors that a plain search uses again.
struct Boards {
    proved: Proved,
    plain: Plain<Full<Walk>>,
    list: Vec<Entry>,
    postings: Vec<Vec<(u32, usize)>>,
}

impl Boards {
    fn new(p: &Passage) -> Self {
        let (proved, plain) = (Proved::start(CAPACITY, p.life), Plain::start(CAPACITY, p.life));
        let mut b = Boards { proved, plain, list: Vec::new(), postings: vec![Vec::new(); 8] };
        for f in p.split().0 {
            assert!(b.proved.frame(f).is_ok() && b.plain.frame(f).is_ok());
        }
        b
    }

    /// The window ranked once.
    fn ranked<L: Look>(&mut self, q: &Question) {
        let query = Query::asked(&q.register).expect("a register frame");
        rank::<L>(&mut self.list, query.k, &query, &self.plain.window);
    }

    /// The rule itself: the postings of each term sorted, and read one by one. How many were read.
    fn by_steps(&mut self, q: &Question) -> usize {
        let q = Query::asked(&q.register).expect("a register frame");
        let w = &self.plain.window;
        gather(&q, w, &mut self.postings);
        let (mut next, mut seen, mut read) = ([0; 8], [false; CAPACITY], 0);
        self.list.clear();
        loop {
            let product = |i: usize| self.postings[i].get(next[i]).map_or(0, |p| q.weights[i] * p.0);
            let sum: u32 = (0..q.n).map(product).sum();
            // the lowest of the terms with the highest product
            let at = (1..q.n).fold(0, |best, i| if product(i) > product(best) { i } else { best });
            if product(at) == 0 || self.list.len() == q.k && self.list[q.k - 1].score() > sum {
                return read;
            }
            let m = self.postings[at][next[at]].1;
            next[at] += 1;
            read += 1;
            if !std::mem::replace(&mut seen[m], true) {
                put(&mut self.list, q.k, w.messages[m].scored::<Walk>(&q));
            }
        }
    }

    /// The query registered, read and dropped again.
    fn registered(&mut self, q: &Question) -> Vec<(u32, u32)> {
        self.proved.frame(&q.register).expect("an accepted registration");
        let list = self.proved.list(0);
        self.proved.frame(&q.drop).expect("an accepted drop");
        list
    }

    fn listed(&self) -> Vec<(u32, u32)> {
        self.list.iter().map(|e| (e.serial, e.score())).collect()
    }
}

/// The postings of each of the query's terms: impact, and where the message stands; the highest first, and the later of equal ones.
fn gather(q: &Query, w: &Window, postings: &mut [Vec<(u32, usize)>]) {
    postings.iter_mut().for_each(|p| p.clear());
    for (at, m) in w.messages.iter().enumerate() {
        for (place, impact) in Walk::impacts(m, q).into_iter().enumerate().filter(|e| e.1 > 0) {
            postings[place].push((impact, at));
        }
    }
    postings[..q.n].iter_mut().for_each(|p| p.sort_unstable_by(|a, b| b.cmp(a)));
}

/// The list, best first, after one more message: the k best stay, and the later of equal ones.
fn put(list: &mut Vec<Entry>, k: usize, e: Entry) {
    let at = list.iter().position(|l| (l.key, l.place) < (e.key, e.place)).unwrap_or(list.len());
    if at < k {
        list.truncate(k - 1);
        list.insert(at, e);
    }
}

/// Postings read and all postings of the questions' terms; every way finds the same.
fn counted(b: &mut Boards, questions: &[Question]) -> (usize, usize) {
    let (mut read, mut all) = (0, 0);
    for q in questions {
        let answer = b.proved.search(&q.register);
        let list: Vec<_> = (0..word(&answer, 0) as usize).map(|i| (word(&answer, 1 + i), word(&answer, 17 + i))).collect();
        let steps = b.by_steps(q);
        assert_eq!(word(&answer, 33) as usize, steps, "other postings are read");
        assert!(b.listed() == list, "by steps: the lists differ");
        b.ranked::<Walk>(q);
        assert!(b.listed() == list, "ranked afresh: the lists differ");
        assert!(b.registered(q) == list, "registered: the lists differ");
        read += steps;
        all += b.postings.iter().map(|p| p.len()).sum::<usize>();
    }
    (read, all)
}

const WAYS: [Way<Boards, Question>; 5] = [
    ("search", |b, q| {
        black_box(b.proved.search(&q.register));
    }),
    ("ranked afresh, walk", |b, q| b.ranked::<Walk>(q)),
    ("ranked afresh, wide", |b, q| b.ranked::<Wide>(q)),
    ("its steps", |b, q| {
        black_box(b.by_steps(q));
    }),
    ("registered, read and dropped", |b, q| {
        black_box(b.registered(q));
    }),
];

fn row(p: &Passage, questions: &[Question]) {
    let mut b = Boards::new(p);
    let (read, all) = counted(&mut b, questions);
    let seconds = in_turn(&mut b, questions, PART, &WAYS);
    let ratios: Vec<_> = seconds[1..].iter().map(|s| format!("{:.2}", s / seconds[0])).collect();
    let each = |n: usize| n as f64 / questions.len() as f64;
    println!(
        "| {} | {:.0} | {} | {:.1} | {:.1} | {:.0} % |",
        p.setting.workload.name,
        questions.len() as f64 / seconds[0],
        ratios.join(" | "),
        each(read),
        each(all),
        100.0 * read as f64 / all.max(1) as f64
    );
}

pub fn print() {
    let names: Vec<_> = WAYS[1..].iter().map(|w| w.0).collect();
    println!("| shared terms | searches per second | {} | postings read | of | share |\n|{}", names.join(" | "), "---|".repeat(5 + names.len()));
    for workload in WORKLOADS {
        let mut r = Random::new(SEED);
        let questions: Vec<_> = (0..QUERIES).map(|_| query(&mut r, workload.terms)).map(|(k, terms)| question(k, terms)).collect();
        row(&Passage::new(Setting { capacity: CAPACITY, queries: 0, workload }, 0, SEED), &questions);
    }
    let mut r = Random::new(SEED);
    let eight = |r: &mut Random| (0..8).map(|t| (t, 1 + r.below(15) as u32)).collect();
    let questions: Vec<_> = (0..QUERIES).map(|_| question(16, eight(&mut r))).collect();
    let workload = Workload::short("all eight, k 16", 8);
    row(&Passage::dear(Setting { capacity: CAPACITY, queries: 0, workload }, SEED), &questions);
}
