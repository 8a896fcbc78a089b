//! Random passages made to suit a log: besides ordinary frames, ones refused under each number of ORDER in turn, frames handed again, serials used
//! again, also of a message in its last second, that leaves by the frame or that was cancelled and still fills its place, cancellations of messages
//! that are in force and of ones that aren't any more, twins of messages, messages of each form and urgency, and times on which messages leave.
//! Every number is met so whatever the seed; rarer things may not be.

use crate::paper::{Form, Frame, Log};
use crate::random::Random;
use std::collections::BTreeSet;
use std::ops::Range;

/// What a passage is made of.
#[derive(Clone, Copy)]
pub struct Style {
    pub capacity: u32,
    pub life: u32,
    /// All terms are below this, and those below `rare` only messages of kind 7 have: as they are the lower ones, what queries ask for is often past
    /// such a message's 16th pair.
    pub terms: u64,
    pub rare: u64,
    pub counts: u64,
    pub serials: u64,
    pub queries: u64,
    /// Lists have up to so many entries.
    pub entries: u64,
    pub step: u64,
    /// One frame in so many comes a life after the one before, or in the last second of the oldest message in force; or a second later.
    pub jump: u64,
    /// So many frames cancel a message for every 18 that send one.
    pub cancels: u64,
}

impl Style {
    /// The terms of queries, and of messages of kinds 1 and 6.
    fn shared(&self) -> Range<u64> {
        self.rare..self.terms
    }
}

/// The refusals of a frame, in the order in which they are judged.
pub const ORDER: [u32; 12] = [1, 2, 3, 4, 14, 5, 6, 7, 8, 13, 9, 10];

/// One frame in so many is made to be refused.
const HOSTILE: usize = 16;

pub struct Source {
    r: Random,
    style: Style,
    made: usize,
    /// Which of ORDER comes next.
    turn: usize,
    last: Vec<u8>,
}

impl Source {
    pub fn new(style: Style, seed: u64) -> Self {
        Source { r: Random::new(seed), style, made: 0, turn: 0, last: Vec::new() }
    }

    /// The next frame of a passage that the log has taken in so far.
    pub fn next(&mut self, log: &Log) -> Vec<u8> {
        self.made += 1;
        if self.made % HOSTILE == 0 {
            // a log that can't refuse so yet is asked again later
            let number = ORDER[self.turn];
            if let Some(bytes) = self.refused(log, number) {
                assert_eq!(log.judge(&bytes).err(), Some(number), "{bytes:02x?} was made to be refused");
                self.turn = (self.turn + 1) % ORDER.len();
                return bytes;
            }
        }
        if self.last.is_empty() || !self.r.one_in(30) {
            self.last = self.any(log);
        }
        self.last.clone()
    }

    fn any(&mut self, log: &Log) -> Vec<u8> {
        let time = self.time(log);
        let mut bytes = self.frame(log, time, None).bytes();
        let r = &mut self.r;
        match r.below(40) {
            0 => bytes.truncate(r.below(bytes.len() as u64 + 1) as usize),
            1 => bytes.push(r.next() as u8),
            2 => {
                let i = r.below(bytes.len() as u64) as usize;
                bytes[i] ^= 1 << r.below(8);
            }
            3 => {
                let n = r.pick(4, 256, 84) as usize;
                bytes = r.bytes(n);
            }
            _ => {}
        }
        bytes
    }

    fn time(&mut self, log: &Log) -> u32 {
        let (r, s) = (&mut self.r, &self.style);
        if r.one_in(20) {
            return log.clock.saturating_sub(r.below(5) as u32);
        }
        let ahead = match (r.one_in(s.jump), r.below(2)) {
            (true, 0) => s.life + r.below(2) as u32,
            (true, _) => log.in_force().first().map_or(0, |m| s.life - (log.clock - m.time) + r.below(2) as u32),
            _ => r.below(s.step + 1) as u32,
        };
        log.clock.saturating_add(ahead)
    }

    fn frame(&mut self, log: &Log, time: u32, kind: Option<u32>) -> Frame {
        let (r, s) = (&mut self.r, &self.style);
        let kind = kind.unwrap_or_else(|| match r.below(24 + s.cancels) {
            0 | 1 => 2,
            2..=4 => 3,
            5 => 4,
            6..=11 => 1,
            12..=17 => 6,
            18..=23 => 7,
            _ => 5,
        });
        let number = r.below(s.queries) as usize;
        let earlier = |r: &mut Random, last: usize| picked(r, log.messages.len().saturating_sub(last)..log.messages.len());
        let ends = |&i: &usize| time >= log.messages[i].time && time - log.messages[i].time >= s.life;
        let ending = |r: &mut Random| log.in_force_at(log.clock).into_iter().find(ends).filter(|_| r.one_in(4));
        // a frame of an earlier time is refused for that, so any serial will do
        let now = time.max(log.clock);
        match kind {
            1 | 6 | 7 => {
                let cancelled = |r: &mut Random| picked(r, log.filled_at(now).into_iter().filter(|&i| log.messages[i].cancelled));
                let old = match r.below(8) {
                    0 => earlier(r, 2 * log.capacity),
                    1 | 2 => cancelled(r),
                    _ => None,
                };
                let old = ending(r).or(old);
                let twin = if r.one_in(6) { earlier(r, 20) } else { None };
                let serial = old.map_or(r.below(s.serials) as u32, |i| log.messages[i].serial);
                let (form, terms) = match kind {
                    1 => (Form::Plain, s.shared()),
                    6 => (Form::Graded(r.below(3) as u32), s.shared()),
                    _ => (Form::Long(r.below(3) as u32), 0..s.terms),
                };
                let mut pairs = twin.map_or_else(|| rising(r, form.most(), terms, s.counts), |i| log.messages[i].pairs.clone());
                // the other of the twins may be of kind 7
                pairs.truncate(form.most());
                Frame::Message { time, serial, form, pairs }
            }
            2 => Frame::Tick { time },
            3 => Frame::Register { time, number, k: 1 + r.below(s.entries) as usize, terms: rising(r, 8, s.shared(), 15) },
            4 => Frame::Drop { time, number },
            _ => {
                let old = match r.below(8) {
                    0..=4 => picked(r, log.in_force_at(now)),
                    5 => earlier(r, 1),
                    6 => earlier(r, 2 * log.capacity),
                    _ => None,
                };
                let old = ending(r).or(old);
                Frame::Cancel { time, serial: old.map_or(r.below(s.serials) as u32, |i| log.messages[i].serial) }
            }
        }
    }

    /// A frame to which this number applies, and none that is judged before it; later ones may apply too. None where the log has nothing to refuse it
    /// for.
    fn refused(&mut self, log: &Log, number: u32) -> Option<Vec<u8>> {
        let mut also = [false; 15];
        for n in ORDER.into_iter().skip_while(|n| *n != number) {
            also[n as usize] = n == number || self.r.one_in(3);
        }
        let kind = match number {
            5 | 6 => [1, 3, 6, 7][self.r.below(4) as usize],
            8 => [1, 6, 7][self.r.below(3) as usize],
            9 => 3,
            10 => 4,
            13 => 5,
            14 => [6, 7][self.r.below(2) as usize],
            _ => 1 + self.r.below(7) as u32,
        };
        let mut time = log.clock.saturating_add(self.r.below(self.style.step + 1) as u32);
        if also[7] {
            time = log.clock.checked_sub(1 + self.r.below(5) as u32).or(log.clock.checked_sub(1)).or((number != 7).then_some(time))?;
        }
        let mut f = self.frame(log, time, Some(kind));
        let (r, now) = (&mut self.r, time.max(log.clock));
        let in_use = |used: bool| (0..32).filter(move |&q| log.queries[q].is_some() == used);
        match &mut f {
            Frame::Message { serial, .. } if also[8] => match picked(r, log.in_force_at(now)) {
                Some(i) => *serial = log.messages[i].serial,
                None if number == 8 => return None,
                None => {}
            },
            Frame::Cancel { serial, .. } if also[13] => *serial = not_in_force(r, log, now),
            Frame::Register { number: q, .. } if also[9] => match picked(r, in_use(true)) {
                Some(i) => *q = i,
                None if number == 9 => return None,
                None => {}
            },
            Frame::Drop { number: q, .. } if also[10] => match picked(r, in_use(false)) {
                Some(i) => *q = i,
                None if number == 10 => return None,
                None => {}
            },
            _ => {}
        }
        if let (true, Frame::Message { form: Form::Graded(urgency) | Form::Long(urgency), .. }) = (also[14], &mut f) {
            *urgency = 3;
        }
        let most = if let Frame::Message { form, .. } = &f { form.most() } else { 8 };
        if let Frame::Message { pairs, .. } | Frame::Register { terms: pairs, .. } = &mut f {
            if also[6] {
                let (i, p) = (r.below(pairs.len() as u64) as usize, pairs[0]);
                if pairs.len() == most {
                    pairs.pop();
                }
                // the first pair again behind another: an equal term behind the first, a lower one behind the rest
                pairs.insert((i + 1).min(pairs.len()), p);
            }
            if also[5] {
                let i = r.below(pairs.len() as u64) as usize;
                pairs[i].1 = 0;
            }
        }
        let mut bytes = f.bytes();
        if also[4] {
            match (8 * bytes.len() - f.bits().len()) as u64 {
                0 if number == 4 => {
                    bytes = Frame::Tick { time }.bytes();
                    bytes[4] |= 1;
                }
                0 => {}
                fill => *bytes.last_mut().unwrap() |= 1 << r.below(fill),
            }
        }
        if also[3] {
            match r.below(3) {
                // the one for the other: their numbers of pairs differ in width, by which the length is wrong
                0 if [6, 7].contains(&kind) => bytes[0] ^= 0x10,
                1 if bytes.len() > 6 => bytes.truncate(6 + r.below(bytes.len() as u64 - 6) as usize),
                _ => {
                    let n = 1 + r.pick(4, 255 - bytes.len() as u64, 3) as usize;
                    bytes.extend(r.bytes(n));
                }
            }
        }
        if also[2] {
            let kind = [0, 8, 9, 10, 11, 12, 13, 14, 15][r.below(9) as usize];
            bytes[0] = kind << 4 | bytes[0] & 15;
        }
        if also[1] {
            bytes.truncate(r.below(5) as usize);
        }
        Some(bytes)
    }
}

/// A search of a passage that the log has taken in so far, as the bytes of a register frame: for any terms, or for some of a message in force too.
/// Weights are mostly low, so that many products are equal. Time and number are any. Some are made to be refused.
pub fn question(r: &mut Random, log: &Log, style: &Style) -> Vec<u8> {
    let most = [1, 3, 15][r.below(3) as usize];
    let mut terms = rising(r, 8, style.shared(), most);
    if let Some(i) = picked(r, log.in_force_at(log.clock)).filter(|_| !r.one_in(3)) {
        for &(term, _) in &log.messages[i].pairs {
            if terms.len() < 8 && r.one_in(2) && terms.iter().all(|t| t.0 != term) {
                terms.push((term, 1 + r.below(3) as u32));
            }
        }
        terms.sort_unstable();
    }
    let (wrong, i) = (r.below(40), r.below(terms.len() as u64) as usize);
    match wrong {
        0 => terms[i].1 = 0,
        1 if terms.len() < 8 => terms.insert(i, terms[i]),
        _ => {}
    }
    let time = [0, log.clock, log.clock.saturating_add(r.next() as u32), r.next() as u32][r.below(4) as usize];
    let mut bytes = Frame::Register { time, number: r.below(32) as usize, k: 1 + r.pick(2, 16, 3) as usize, terms }.bytes();
    match wrong {
        2 => bytes.truncate(r.below(bytes.len() as u64) as usize),
        3 => bytes.push(0),
        // of four terms or eight there is no fill
        4 => *bytes.last_mut().unwrap() |= 1,
        5 => bytes[0] = (r.next() as u8) << 4,
        _ => {}
    }
    bytes
}

/// A serial and a number to ask a closeness by: mostly of a message in force and of a query. The others are serials of messages that left, of none,
/// or past them all, also what the engine notes of a cancelled message; and numbers that aren't in use or are none.
pub fn serial_and_number(r: &mut Random, log: &Log) -> (u32, u32) {
    let now = log.clock;
    let noted = |i: usize| log.messages[i].serial + ((log.messages[i].pairs.len() as u32) << 20);
    let serial = match r.below(8) {
        0 => not_in_force(r, log, now),
        1 => picked(r, log.filled_at(now)).map_or(1 << 20, noted),
        2 => r.next() as u32,
        _ => picked(r, log.in_force_at(now)).map_or(0, |i| log.messages[i].serial),
    };
    let number = match r.below(8) {
        0 => r.next() as u32,
        1 => picked(r, (0..32).filter(|&q| log.queries[q].is_none())).unwrap_or(32) as u32,
        _ => picked(r, (0..32).filter(|&q| log.queries[q].is_some())).unwrap_or(0) as u32,
    };
    (serial, number)
}

/// So many lines to ask a screen for: about as many as there are queries or entries, as some rounds take, any that there can be, or more.
pub fn lines_asked(r: &mut Random, log: &Log) -> u32 {
    let lists: Vec<u64> = log.queries.iter().flatten().map(|q| log.ranking(q).len() as u64).collect();
    let (queries, entries) = (lists.len() as u64, lists.iter().sum::<u64>());
    let lines = match r.below(8) {
        0 | 1 => r.below(queries + 2),
        2..=4 => r.below(entries + 3),
        5 => {
            let rounds = 1 + r.below(*lists.iter().max().unwrap_or(&0) + 1);
            lists.iter().map(|n| rounds.min(*n)).sum()
        }
        6 => r.below(513),
        _ => 511 + r.pick(2, 1 << 31, 3),
    };
    lines as u32
}

/// The terms of a query, with weights in proportion to these counts of a message: eight terms at the most, and no weight above 15.
pub fn near(r: &mut Random, pairs: &[(u32, u32)]) -> Vec<(u32, u32)> {
    let divisor = (1..=255).rev().find(|d| pairs.iter().all(|p| p.1 % d == 0)).expect("1 divides every count");
    let top = pairs.iter().map(|p| p.1 / divisor).max().expect("a message has a pair");
    let factor = 1 + r.below((15 / top).max(1) as u64) as u32;
    let first = r.below(pairs.len().saturating_sub(8) as u64 + 1) as usize;
    pairs[first..].iter().take(8).map(|p| (p.0, (p.1 / divisor * factor).min(15))).collect()
}

/// Alters one thing: a pair goes, another comes, or an amount is one off. There are `most` pairs at the most, and amounts up to `top`.
pub fn spoil(r: &mut Random, pairs: &mut Vec<(u32, u32)>, most: usize, top: u32) {
    let (at, other) = (r.below(pairs.len() as u64) as usize, r.below(1024) as u32);
    match (r.below(4), pairs.binary_search_by_key(&other, |p| p.0)) {
        (0, _) if pairs.len() > 1 => drop(pairs.remove(at)),
        (1, Err(place)) if pairs.len() < most => pairs.insert(place, (other, 1 + r.below(top as u64) as u32)),
        (2, _) if pairs[at].1 > 1 => pairs[at].1 -= 1,
        _ => pairs[at].1 = pairs[at].1 % top + 1,
    }
}

fn picked(r: &mut Random, from: impl IntoIterator<Item = usize>) -> Option<usize> {
    let from: Vec<usize> = from.into_iter().collect();
    (!from.is_empty()).then(|| from[r.below(from.len() as u64) as usize])
}

/// The serial of a message that was in force once and isn't at this time, nor another under it; or, where there is none, any other.
fn not_in_force(r: &mut Random, log: &Log, time: u32) -> u32 {
    let held: Vec<u32> = log.in_force_at(time).into_iter().map(|i| log.messages[i].serial).collect();
    let last = log.messages.len().saturating_sub(2 * log.capacity)..log.messages.len();
    match picked(r, last.filter(|&i| !held.contains(&log.messages[i].serial))).filter(|_| !r.one_in(4)) {
        Some(i) => log.messages[i].serial,
        None => {
            let any = r.below(1 << 20) as u32;
            (any..1 << 20).chain(0..any).find(|s| !held.contains(s)).expect("more serials than messages in force")
        }
    }
}

/// Up to `most` pairs with rising terms out of these and amounts from 1 to `top`.
pub fn rising(r: &mut Random, most: usize, terms: Range<u64>, top: u64) -> Vec<(u32, u32)> {
    let all = terms.end - terms.start;
    let n = 1 + r.below(all.min(most as u64)) as usize;
    let mut ts = BTreeSet::new();
    while ts.len() < n {
        ts.insert((terms.start + r.below(all)) as u32);
    }
    ts.into_iter().map(|t| (t, 1 + r.below(top) as u32)).collect()
}
