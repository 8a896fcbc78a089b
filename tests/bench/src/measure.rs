//! The methods run in turn over the same frames, and their times beside the proved engine's; the proved engine in turn over two sorts of frames; and
//! ways of asking for the same.

use crate::eager::Eager;
use crate::full::Full;
use crate::gaps::StoredGaps;
use crate::naive::Naive;
use crate::plain::{Method, Plain, Walk, Wide};
use crate::proved::{Earlier, Engine, Proved};
use crate::tables::Tables;
use crate::workload::{Passage, Setting};
use std::hint::black_box;
use std::time::Instant;

/// How many messages make a part, which divides all that are measured: of each part the best round counts, as others may use the machine.
const PART: usize = 10;

/// A round runs every method once; the slow ones are left out of the later rounds.
const ROUNDS: usize = 15;
const SLOW_ROUNDS: usize = 6;

pub struct Run {
    /// Part by part.
    seconds: Vec<f64>,
    /// How many queries the frames reached in all, and how many frames reached none.
    reached: usize,
    idle: usize,
    lists: Vec<Vec<(u32, u32)>>,
}

/// An engine for each passage; they take in a message each, in turn.
fn run<M: Method>(passages: &[&Passage]) -> Run {
    let started = |p: &&Passage| {
        let mut m = M::start(p.setting.capacity, p.life);
        p.split().0.iter().for_each(|f| assert!(m.frame(f).is_ok()));
        m
    };
    let mut engines: Vec<M> = passages.iter().map(started).collect();
    let measured: Vec<&[Vec<u8>]> = passages.iter().map(|p| p.split().1).collect();
    let (mut seconds, mut reached, mut idle) = (Vec::new(), 0, 0);
    for part in (0..measured[0].len()).step_by(PART) {
        let t = Instant::now();
        for turn in part..part + PART {
            for (m, frames) in engines.iter_mut().zip(&measured) {
                let queries = m.frame(&frames[turn]).expect("an accepted frame");
                reached += queries;
                idle += (queries == 0) as usize;
            }
        }
        seconds.push(t.elapsed().as_secs_f64());
    }
    let queries = passages[0].setting.queries;
    Run { seconds, reached, idle, lists: engines.iter().flat_map(|m| (0..queries).map(|q| m.list(q))).collect() }
}

/// The best rounds of a method, part by part.
#[derive(Clone, Default)]
struct Best(Vec<f64>);

impl Best {
    fn of(&mut self, r: &Run) {
        self.0.resize(r.seconds.len(), f64::MAX);
        self.0.iter_mut().zip(&r.seconds).for_each(|(least, s)| *least = s.min(*least));
    }

    fn seconds(&self) -> f64 {
        self.0.iter().sum()
    }
}

/// A way of asking, and its name.
pub type Way<B, Q> = (&'static str, fn(&mut B, &Q));

/// How often ways of asking take their turns.
const TURNS: usize = 25;

/// The seconds that all questions take, way by way: the ways take turns, so many questions at once, and of each such part the best turn counts.
pub fn in_turn<B, Q, const W: usize>(b: &mut B, questions: &[Q], part: usize, ways: &[Way<B, Q>; W]) -> [f64; W] {
    let mut seconds = [0.0; W];
    for part in questions.chunks(part) {
        let mut bests = [f64::MAX; W];
        for _ in 0..TURNS {
            for (best, (_, way)) in bests.iter_mut().zip(ways) {
                let t = Instant::now();
                part.iter().for_each(|q| way(b, black_box(q)));
                *best = best.min(t.elapsed().as_secs_f64());
            }
        }
        seconds.iter_mut().zip(bests).for_each(|(all, best)| *all += best);
    }
    seconds
}

/// What a rival has in common with the proved engine: each of these has the ones before it, too.
#[derive(PartialEq, PartialOrd)]
enum Common {
    /// How long lists are. An earlier archive may score by another scale, by which others are listed and reached.
    Lengths,
    Lists,
    /// Which thresholds are chosen, so that as many queries are reached.
    Thresholds,
}

pub struct Rival {
    pub name: &'static str,
    run: fn(&[&Passage]) -> Run,
    slow: bool,
    common: Common,
}

impl Rival {
    /// Ends the run where the rival's lacks what it should have in common with the proved engine's.
    fn compare(&self, r: &Run, proved: &Run) {
        let lengths = |run: &Run| run.lists.iter().map(Vec::len).collect::<Vec<_>>();
        assert!(lengths(r) == lengths(proved), "{}: the lengths of lists differ", self.name);
        assert!(self.common < Common::Lists || r.lists == proved.lists, "{}: the lists differ", self.name);
        assert!(self.common < Common::Thresholds || r.reached == proved.reached, "{}: another method, as other queries are reached", self.name);
    }
}

/// The rivals in the tables' order.
pub const RIVALS: [Rival; 8] = [
    Rival { name: "full re-rank, walk", run: run::<Plain<Full<Walk>>>, slow: true, common: Common::Lists },
    Rival { name: "full re-rank, wide", run: run::<Plain<Full<Wide>>>, slow: true, common: Common::Lists },
    Rival { name: "Naive, walk", run: run::<Plain<Naive<Walk>>>, slow: false, common: Common::Lists },
    Rival { name: "Naive, wide", run: run::<Plain<Naive<Wide>>>, slow: false, common: Common::Lists },
    Rival { name: "eager, walk", run: run::<Plain<Eager<Walk>>>, slow: false, common: Common::Thresholds },
    Rival { name: "eager, wide", run: run::<Plain<Eager<Wide>>>, slow: false, common: Common::Thresholds },
    Rival { name: "tables", run: run::<Plain<Tables>>, slow: false, common: Common::Thresholds },
    Rival { name: "stored gaps", run: run::<Plain<StoredGaps>>, slow: false, common: Common::Lists },
];

/// The proved engine of an earlier archive, which is to be loaded first.
pub const EARLIER: Rival = Rival { name: "earlier", run: run::<Engine<Earlier>>, slow: false, common: Common::Lengths };

/// A setting's measurements.
pub struct Row {
    pub setting: Setting,
    /// Of each of the proved engines.
    pub messages_per_second: f64,
    /// Of each rival: its time over the proved engine's.
    pub ratios: Vec<f64>,
    /// The share of frames that reach no query.
    pub idle: f64,
}

/// The proved engine's time for the second passages over that for the first, which it runs in turn.
pub fn beside(first: &[&Passage], second: &[&Passage]) -> f64 {
    let mut bests = [Best::default(), Best::default()];
    for _ in 0..ROUNDS {
        for (best, passages) in bests.iter_mut().zip([first, second]) {
            best.of(&run::<Proved>(passages));
        }
    }
    bests[1].seconds() / bests[0].seconds()
}

/// Passages of one setting, for as many engines of each method.
pub fn measured(passages: &[&Passage], rivals: &[Rival]) -> Row {
    let mut best = Best::default();
    let mut bests = vec![Best::default(); rivals.len()];
    let mut idle = 0;
    for round in 0..ROUNDS {
        let proved = run::<Proved>(passages);
        best.of(&proved);
        idle = proved.idle;
        for (rival, best) in rivals.iter().zip(&mut bests) {
            if round < SLOW_ROUNDS || !rival.slow {
                let r = (rival.run)(passages);
                rival.compare(&r, &proved);
                best.of(&r);
            }
        }
    }
    let (seconds, messages) = (best.seconds(), passages[0].split().1.len());
    Row {
        setting: passages[0].setting,
        messages_per_second: messages as f64 / seconds,
        ratios: bests.iter().map(|b| b.seconds() / seconds).collect(),
        idle: idle as f64 / (messages * passages.len()) as f64,
    }
}
