//! The passages that are measured: queries first, then messages a second apart, each pushing the oldest out once N are there; or, once N are there,
//! departures alone. Messages are of kind 1, as earlier archives take them too, but for those that rank by urgency and the long ones.

use crate::plain::impact;
use fennelrake_tests::random::Random;
use passage::{Form, Frame};
use std::collections::BTreeSet;

/// What messages and queries are made of.
#[derive(Clone, Copy, PartialEq, Eq)]
pub struct Workload {
    /// What the tables call it, mostly by how many terms messages and queries share.
    pub name: &'static str,
    /// How many terms there are in all.
    pub terms: u64,
    /// Whether messages are of kind 7, with 32 pairs each.
    pub long: bool,
}

impl Workload {
    /// With messages of up to twelve pairs.
    pub const fn short(name: &'static str, terms: u64) -> Self {
        Workload { name, terms, long: false }
    }
}

/// Those that an earlier archive is measured with, too.
pub const SHARED: [Workload; 3] = [Workload::short("few", 1024), Workload::short("some", 400), Workload::short("many", 40)];

pub const LONG: Workload = Workload { name: "few, 32 pairs", terms: 1024, long: true };

pub const WORKLOADS: [Workload; 4] = [SHARED[0], SHARED[1], SHARED[2], LONG];

/// How many messages are measured, once the window is full.
pub const MESSAGES: usize = 4000;

pub const SEED: u64 = 7;

#[derive(Clone, Copy)]
pub struct Setting {
    pub capacity: usize,
    pub queries: usize,
    pub workload: Workload,
}

/// How messages depart from a full window, one by each frame.
#[derive(Clone, Copy)]
pub enum Departure {
    /// A tick a second later, in which the oldest is past.
    Tick,
    /// A cancellation of any that is in force.
    Cancel,
}

/// The form of a short message, by its turn.
pub type Forms = fn(u32) -> Form;

/// Without an urgency; or routine, important and vital, one after the other.
pub const UNGRADED: Forms = |_| Form::Plain;
pub const GRADED: Forms = |turn| Form::Graded(turn % 3);

/// The greatest count.
const COUNT: u64 = 9;

pub struct Passage {
    pub setting: Setting,
    pub life: u32,
    frames: Vec<Vec<u8>>,
}

/// Up to n terms, each with an amount of 1 to `most`.
fn rising(r: &mut Random, n: u64, terms: u64, most: u64) -> Vec<(u32, u32)> {
    let mut ts: Vec<u32> = (0..n).map(|_| r.below(terms) as u32).collect();
    ts.sort_unstable();
    ts.dedup();
    ts.into_iter().map(|t| (t, 1 + r.below(most) as u32)).collect()
}

/// Exactly n terms, with the same amounts.
pub fn exactly(r: &mut Random, n: usize, terms: u64, most: u64) -> Vec<(u32, u32)> {
    let mut ts = BTreeSet::new();
    while ts.len() < n {
        ts.insert(r.below(terms) as u32);
    }
    ts.into_iter().map(|t| (t, 1 + r.below(most) as u32)).collect()
}

/// A query as the passages have them: its k and its terms.
pub fn query(r: &mut Random, terms: u64) -> (usize, Vec<(u32, u32)>) {
    let (k, n) = (1 + r.below(8) as usize, 1 + r.below(5));
    (k, rising(r, n, terms, 15))
}

impl Passage {
    /// With so many messages after those that fill the window.
    pub fn new(setting: Setting, messages: usize, seed: u64) -> Self {
        Passage { setting, life: 65535, frames: Self::filling(setting, messages, COUNT, UNGRADED, &mut Random::new(seed)) }
    }

    /// The same with counts of 1 alone, so that many scores are equal.
    pub fn tied(setting: Setting, messages: usize, forms: Forms, seed: u64) -> Self {
        Passage { setting, life: 65535, frames: Self::filling(setting, messages, 1, forms, &mut Random::new(seed)) }
    }

    /// With so many departures after the messages that fill the window, which for a seed are the same.
    pub fn departing(setting: Setting, departures: usize, by: Departure, seed: u64) -> Self {
        let mut r = Random::new(seed);
        let mut frames = Self::filling(setting, 0, COUNT, UNGRADED, &mut r);
        let mut serials: Vec<u32> = (0..setting.capacity as u32).collect();
        for i in 0..departures {
            let time = (setting.capacity + 1 + i) as u32;
            frames.push(match by {
                Departure::Tick => Frame::Tick { time }.bytes(),
                Departure::Cancel => Frame::Cancel { time, serial: serials.swap_remove(r.below(serials.len() as u64) as usize) }.bytes(),
            });
        }
        let life = match by {
            Departure::Tick => setting.capacity as u32 - 1,
            Departure::Cancel => 65535,
        };
        Passage { setting, life, frames }
    }

    fn filling(setting: Setting, more: usize, count: u64, forms: Forms, r: &mut Random) -> Vec<Vec<u8>> {
        let Workload { terms, long, .. } = setting.workload;
        let mut frames = Vec::new();
        for number in 0..setting.queries {
            let (k, terms) = query(r, terms);
            frames.push(Frame::Register { time: 0, number, k, terms }.bytes());
        }
        for i in 0..(setting.capacity + more) as u32 {
            let (form, pairs) = if long {
                (Form::Long(0), exactly(r, 32, terms, count))
            } else {
                let n = 4 + r.below(9);
                (forms(i), rising(r, n, terms, count))
            };
            frames.push(Frame::Message { time: i + 1, serial: i, form, pairs }.bytes());
        }
        frames
    }

    /// Messages alone, which fill the window: each has every term, and no two have the same impact in one.
    pub fn dear(setting: Setting, seed: u64) -> Self {
        let mut r = Random::new(seed);
        let mut taken = vec![BTreeSet::new(); setting.workload.terms as usize];
        let mut frames = Vec::new();
        while frames.len() < setting.capacity {
            let counts: Vec<u16> = taken.iter().map(|_| 1 + r.below(255) as u16).collect();
            let squares = counts.iter().map(|&c| (c as u32).pow(2)).sum();
            let impacts: Vec<u16> = counts.iter().map(|&c| impact(c, squares)).collect();
            if taken.iter().zip(&impacts).any(|(t, w)| t.contains(w)) {
                continue;
            }
            taken.iter_mut().zip(impacts).for_each(|(t, w)| assert!(t.insert(w)));
            let (i, pairs) = (frames.len() as u32, counts.iter().enumerate().map(|(t, &c)| (t as u32, c as u32)).collect());
            frames.push(Frame::Message { time: i + 1, serial: i, form: Form::Plain, pairs }.bytes());
        }
        Passage { setting, life: 65535, frames }
    }

    /// The frames that fill the window, and those after them, which are measured.
    pub fn split(&self) -> (&[Vec<u8>], &[Vec<u8>]) {
        self.frames.split_at(self.setting.queries + self.setting.capacity)
    }
}
