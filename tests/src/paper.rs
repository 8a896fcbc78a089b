//! The paper log of the document, a full ranking after each frame, a search step by step, a closeness by its formula, and a screen by sorting all
//! entries. It shares no code with the engine and is written for plainness.

pub use passage::{Form, Frame};
use std::collections::VecDeque;

pub const TOP: u64 = 2000;

#[derive(Debug, Clone)]
pub struct Message {
    pub time: u32,
    pub serial: u32,
    /// 0 routine, 1 important, 2 vital.
    pub urgency: u32,
    pub pairs: Vec<(u32, u32)>,
    pub cancelled: bool,
}

#[derive(Debug, Clone)]
pub struct Query {
    pub k: usize,
    pub terms: Vec<(u32, u32)>,
}

/// The form of a routine message with so many pairs: of kind 1 where that can say them.
pub fn routine(pairs: usize) -> Form {
    if pairs <= Form::Plain.most() {
        Form::Plain
    } else {
        Form::Long(0)
    }
}

// ---- impact and rank

/// The greatest whole w with w² × n ≤ (2000 × f)²: a guess, for speed, put right by that rule alone.
pub fn impact(f: u64, n: u64) -> u64 {
    let mut w = ((TOP * f) as f64 / (n as f64).sqrt()) as u64;
    while w * w * n > (TOP * f) * (TOP * f) {
        w -= 1;
    }
    while (w + 1) * (w + 1) * n <= (TOP * f) * (TOP * f) {
        w += 1;
    }
    w
}

impl Message {
    pub fn impact(&self, term: u32) -> u64 {
        let n: u64 = self.pairs.iter().map(|p| p.1 as u64 * p.1 as u64).sum();
        self.pairs.iter().find(|p| p.0 == term).map_or(0, |p| impact(p.1 as u64, n))
    }

    pub fn score(&self, q: &Query) -> u64 {
        q.terms.iter().map(|&(t, w)| w as u64 * self.impact(t)).sum()
    }

    pub fn exceeds(&self, q: &Query, thresholds: &[u32]) -> bool {
        q.terms.iter().zip(thresholds).any(|(&(t, _), &h)| self.impact(t) > h as u64)
    }
}

/// Serial and value of those of positive value: higher first, among equals by a second measure, and the later first where that is equal too.
fn ordered<'a>(ms: impl Iterator<Item = &'a Message>, value: impl Fn(&Message) -> u64, second: impl Fn(&Message) -> u32) -> Vec<(u32, u32)> {
    let mut all: Vec<(usize, &Message, u64)> = ms.enumerate().map(|(i, m)| (i, m, value(m))).filter(|e| e.2 > 0).collect();
    all.sort_by(|a, b| b.2.cmp(&a.2).then(second(b.1).cmp(&second(a.1))).then(b.0.cmp(&a.0)));
    all.into_iter().map(|(_, m, v)| (m.serial, v as u32)).collect()
}

// ---- closeness

impl Message {
    /// Quotient and remainder of 1000 × s² by a × b: s is the sum of weight × count over shared terms, a that of the squared counts, and b that of
    /// the squared weights.
    pub fn closeness(&self, q: &Query) -> (u32, u32) {
        let shared = |&(term, weight): &(u32, u32)| self.pairs.iter().find(|p| p.0 == term).map_or(0, |p| weight as u128 * p.1 as u128);
        let squares = |all: &[(u32, u32)]| all.iter().map(|p| (p.1 as u128).pow(2)).sum::<u128>();
        let s: u128 = q.terms.iter().map(shared).sum();
        let (over, by) = (1000 * s.pow(2), squares(&self.pairs) * squares(&q.terms));
        ((over / by).try_into().unwrap(), (over % by).try_into().unwrap())
    }

    /// Whether counts and weights are in proportion, and neither side has a term that the other lacks.
    pub fn is_in_proportion(&self, q: &Query) -> bool {
        let (count, weight) = (self.pairs[0].1, q.terms[0].1);
        let mut both = self.pairs.iter().zip(&q.terms);
        self.pairs.len() == q.terms.len() && both.all(|(p, t)| p.0 == t.0 && p.1 * weight == t.1 * count)
    }
}

// ---- a search

/// What a search finds, and what it came by.
#[derive(Debug)]
pub struct Found {
    pub list: Vec<(u32, u32)>,
    /// Postings read, and postings of the query's terms that weren't.
    pub read: u32,
    pub left: u32,
    /// k messages had been seen and the k-th best score was the sum of the next postings, so that the search went on.
    pub equal: bool,
    /// The next posting of two terms had the highest weight × impact.
    pub tied: bool,
    /// A posting was read of a message that had been seen.
    pub again: bool,
}

/// The query that bytes ask a search for, or the first of 1 to 6 that applies; of every kind but 3 that is 2 at the latest.
pub fn asked(bytes: &[u8]) -> Result<Query, u32> {
    if bytes.len() >= 5 && bytes[0] / 16 != 3 {
        return Err(2);
    }
    match Frame::read(bytes)? {
        Frame::Register { k, terms, .. } => Ok(Query { k, terms }),
        other => panic!("{other:?} is of kind 3"),
    }
}

// ---- a screen

/// How many lines a screen can have.
pub const MOST_LINES: u32 = 512;

/// The first number that refuses a screen of so many lines: 12 where the state hasn't its length, 5, and 12 where the output, of so many bytes, can't
/// hold them all.
pub fn judge_screen(state_fits: bool, lines: u32, room: usize) -> Result<(), u32> {
    match lines {
        _ if !state_fits => Err(12),
        _ if lines > MOST_LINES => Err(5),
        _ if room < 9 * lines as usize => Err(12),
        _ => Ok(()),
    }
}

// ---- the log

#[derive(Clone)]
pub struct Log {
    pub capacity: usize,
    pub life: u32,
    pub clock: u32,
    pub messages: Vec<Message>,
    pub queries: Vec<Option<Query>>,
}

impl Log {
    pub fn new(capacity: usize, life: u32) -> Self {
        Log { capacity, life, clock: 0, messages: Vec::new(), queries: vec![None; 32] }
    }

    /// The messages that fill a place at a time, cancelled or not, by where they stand in the log.
    pub fn filled_at(&self, time: u32) -> Vec<usize> {
        let first = self.messages.len().saturating_sub(self.capacity);
        (first..self.messages.len()).filter(|&i| time - self.messages[i].time <= self.life).collect()
    }

    /// Those of them that are in force.
    pub fn in_force_at(&self, time: u32) -> Vec<usize> {
        self.filled_at(time).into_iter().filter(|&i| !self.messages[i].cancelled).collect()
    }

    pub fn in_force(&self) -> Vec<&Message> {
        self.in_force_at(self.clock).into_iter().map(|i| &self.messages[i]).collect()
    }

    /// Where the message stands that is in force at a time under this serial.
    pub fn holder(&self, serial: u32, time: u32) -> Option<usize> {
        self.in_force_at(time).into_iter().find(|&i| self.messages[i].serial == serial)
    }

    /// The message and the query whose closeness is asked for, or 13 or 10.
    pub fn compared(&self, serial: u32, number: u32) -> Result<(&Message, &Query), u32> {
        let at = self.holder(serial, self.clock).ok_or(13u32)?;
        let query = self.queries.get(number as usize).and_then(Option::as_ref).ok_or(10u32)?;
        Ok((&self.messages[at], query))
    }

    pub fn judge(&self, bytes: &[u8]) -> Result<Frame, u32> {
        let f = Frame::read(bytes)?;
        if f.time() < self.clock {
            return Err(7);
        }
        match &f {
            Frame::Message { time, serial, .. } if self.holder(*serial, *time).is_some() => Err(8),
            Frame::Cancel { time, serial } if self.holder(*serial, *time).is_none() => Err(13),
            Frame::Register { number, .. } if self.queries[*number].is_some() => Err(9),
            Frame::Drop { number, .. } if self.queries[*number].is_none() => Err(10),
            _ => Ok(f),
        }
    }

    /// Takes an accepted frame in: the messages that departed and arrived.
    pub fn accept(&mut self, f: &Frame) -> (Vec<Message>, Vec<Message>) {
        let before = self.in_force_at(self.clock);
        self.clock = f.time();
        let mut arrived = Vec::new();
        match f {
            Frame::Message { time, serial, form, pairs } => {
                let m = Message { time: *time, serial: *serial, urgency: form.urgency(), pairs: pairs.clone(), cancelled: false };
                self.messages.push(m.clone());
                arrived.push(m);
            }
            Frame::Tick { .. } => {}
            Frame::Register { number, k, terms, .. } => self.queries[*number] = Some(Query { k: *k, terms: terms.clone() }),
            Frame::Drop { number, .. } => self.queries[*number] = None,
            Frame::Cancel { time, serial } => {
                let at = self.holder(*serial, *time).expect("an accepted frame cancels a message in force");
                self.messages[at].cancelled = true;
            }
        }
        let after = self.in_force_at(self.clock);
        let departed = before.iter().filter(|i| !after.contains(i)).map(|&i| self.messages[i].clone()).collect();
        (departed, arrived)
    }

    /// All messages of positive score; among equal scores the more urgent stands first.
    fn ranked(&self, q: &Query) -> Vec<(u32, u32)> {
        ordered(self.in_force().into_iter(), |m| m.score(q), |m| m.urgency)
    }

    pub fn ranking(&self, q: &Query) -> Vec<(u32, u32)> {
        let mut all = self.ranked(q);
        all.truncate(q.k);
        all
    }

    /// Query, serial and score of each line of a screen. An entry's round is its place in its list: all entries by round, and in it by query, are the
    /// lines of a screen without an end.
    pub fn screen(&self, lines: u32) -> Vec<(u32, u32, u32)> {
        let registered = self.queries.iter().zip(0..).filter_map(|(q, number)| Some((q.as_ref()?, number)));
        let entries = registered.flat_map(|(q, number)| self.ranking(q).into_iter().enumerate().map(move |(round, e)| (round, number, e)));
        let mut all: Vec<(usize, u32, (u32, u32))> = entries.collect();
        all.sort_by_key(|&(round, number, _)| (round, number));
        all.into_iter().take(lines as usize).map(|(_, number, (serial, score))| (number, serial, score)).collect()
    }

    /// Among equal impacts the later stands first, whatever its urgency.
    pub fn postings(&self, term: u32) -> Vec<(u32, u32)> {
        ordered(self.in_force().into_iter(), |m| m.impact(term), |_| 0)
    }

    /// The search of the request, posting by posting; the list is that of the messages seen.
    pub fn search(&self, q: &Query) -> Found {
        // every message that has a term of the query, best first; whether it has been seen stands beside it
        let mut ranked: Vec<(u32, u32, bool)> = self.ranked(q).into_iter().map(|(serial, score)| (serial, score, false)).collect();
        let mut left: Vec<VecDeque<(u32, u32)>> = q.terms.iter().map(|&(term, _)| self.postings(term).into()).collect();
        let mut found = Found { list: Vec::new(), read: 0, left: 0, equal: false, tied: false, again: false };
        loop {
            // weight × impact of each term's next posting; an exhausted term gives 0
            let next: Vec<u32> = q.terms.iter().zip(&left).map(|(&(_, weight), l)| l.front().map_or(0, |&(_, impact)| weight * impact)).collect();
            let sum: u32 = next.iter().sum();
            let kth = ranked.iter().filter(|m| m.2).nth(q.k - 1).map(|m| m.1);
            if kth.is_some_and(|score| score > sum) || left.iter().all(|l| l.is_empty()) {
                break;
            }
            found.equal |= kth == Some(sum);
            let highest = *next.iter().max().expect("a query has a term");
            found.tied |= next.iter().filter(|v| **v == highest).count() > 1;
            // the first, which is the lowest term's; no posting has impact 0
            let at = next.iter().position(|v| *v == highest).expect("the highest is one of them");
            let (serial, _) = left[at].pop_front().expect("a term with a product has a posting");
            let message = ranked.iter_mut().find(|m| m.0 == serial).expect("a posting is of a message in force that has the term");
            found.again |= message.2;
            message.2 = true;
            found.read += 1;
        }
        found.list = ranked.iter().filter(|m| m.2).take(q.k).map(|m| (m.0, m.1)).collect();
        found.left = left.iter().map(|l| l.len() as u32).sum();
        found
    }
}
