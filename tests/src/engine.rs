//! The C entries behind safe calls. Every lent slice lies between guard bytes, which each call must leave alone.

use crate::random::Random;

pub const STATE: usize = 43680;
/// A message of 32 pairs.
pub const LONGEST_FRAME: usize = 80;
pub const FRAME_ANSWER: usize = 8;
pub const LIST_ANSWER: usize = 132;
pub const SEARCH_ANSWER: usize = 136;
pub const CLOSENESS_ANSWER: usize = 8;
/// What a line of a screen takes.
pub const LINE: usize = 9;

extern "C" {
    fn fennelrake_start(state: *mut u8, state_len: usize, capacity: u32, life: u32) -> u32;
    fn fennelrake_frame(state: *mut u8, state_len: usize, bytes: *const u8, bytes_len: usize, answer: *mut u8, answer_len: usize) -> u32;
    fn fennelrake_list(state: *const u8, state_len: usize, number: u32, answer: *mut u8, answer_len: usize) -> u32;
    fn fennelrake_postings(state: *const u8, state_len: usize, term: u32, out: *mut u8, out_len: usize) -> u64;
    fn fennelrake_search(state: *const u8, state_len: usize, frame: *const u8, frame_len: usize, answer: *mut u8, answer_len: usize) -> u32;
    fn fennelrake_closeness(state: *const u8, state_len: usize, serial: u32, number: u32, answer: *mut u8, answer_len: usize) -> u32;
    fn fennelrake_screen(state: *const u8, state_len: usize, lines: u32, out: *mut u8, out_len: usize) -> u64;
    #[allow(clippy::too_many_arguments)]
    fn fennelrake_write(
        kind: u32, time: u32, serial: u32, urgency: u32, number: u32, k: u32, pairs: u32,
        terms: *const u8, terms_len: usize, amounts: *const u8, amounts_len: usize, out: *mut u8, out_len: usize,
    ) -> u64;
}

const GUARD: usize = 64;

/// Bytes to lend, between guards.
#[derive(Clone)]
pub struct Lent {
    all: Vec<u8>,
}

fn guard(i: usize) -> u8 {
    (i * 37 + 11) as u8
}

impl Lent {
    pub fn new(bytes: &[u8]) -> Self {
        let mut all: Vec<u8> = (0..GUARD).map(guard).collect();
        all.extend_from_slice(bytes);
        all.extend((0..GUARD).map(guard));
        Lent { all }
    }

    pub fn bytes(&self) -> &[u8] {
        &self.all[GUARD..self.all.len() - GUARD]
    }

    fn at(&mut self) -> *mut u8 {
        // SAFETY: within the allocation
        unsafe { self.all.as_mut_ptr().add(GUARD) }
    }

    fn check(&self) {
        let end = self.all.len() - GUARD;
        for i in 0..GUARD {
            assert_eq!(self.all[i], guard(i), "a call wrote before the lent bytes");
            assert_eq!(self.all[end + i], guard(i), "a call wrote past the lent bytes");
        }
    }
}

/// A word of what a call wrote into lent output.
pub fn word(bytes: &[u8], i: usize) -> u32 {
    u32::from_be_bytes(bytes[4 * i..4 * i + 4].try_into().unwrap())
}

/// A frame's answer.
#[derive(Debug, PartialEq, Eq, Clone, Copy)]
pub struct Reply {
    pub number: u32,
    pub marks: u32,
    pub departures: u32,
}

pub fn start(state: &mut Lent, capacity: u32, life: u32) -> u32 {
    let len = state.bytes().len();
    // SAFETY: the pointer and length are of one slice
    let r = unsafe { fennelrake_start(state.at(), len, capacity, life) };
    state.check();
    r
}

/// The calls on any memory: only what a call is lent may be written, and of that nothing that it only reads.
pub mod raw {
    use super::*;

    pub fn frame(state: &mut Lent, bytes: &[u8], answer: &mut Lent) -> u32 {
        let mut bytes = Lent::new(bytes);
        let (before, n, k, m) = (bytes.clone(), state.bytes().len(), bytes.bytes().len(), answer.bytes().len());
        // SAFETY: each pointer and length are of one slice, and the slices don't overlap
        let r = unsafe { fennelrake_frame(state.at(), n, bytes.at(), k, answer.at(), m) };
        state.check();
        answer.check();
        bytes.check();
        assert!(before.bytes() == bytes.bytes(), "a call wrote in the frame");
        r
    }

    /// A reading, called with pointer and length of a state and of its output: of any memory it writes the output alone.
    fn reading<R>(state: &Lent, out: &mut Lent, call: impl FnOnce(*const u8, usize, *mut u8, usize) -> R) -> R {
        let mut copy = state.clone();
        let (n, m) = (copy.bytes().len(), out.bytes().len());
        let r = call(copy.at(), n, out.at(), m);
        copy.check();
        out.check();
        assert!(copy.bytes() == state.bytes(), "a reading wrote in the state");
        r
    }

    pub fn list(state: &Lent, number: u32, answer: &mut Lent) -> u32 {
        // SAFETY: as above
        reading(state, answer, |s, n, a, m| unsafe { fennelrake_list(s, n, number, a, m) })
    }

    /// Of any memory the output has room for as many as are returned.
    pub fn postings(state: &Lent, term: u32, out: &mut Lent) -> u64 {
        // SAFETY: as above
        let r = reading(state, out, |s, n, o, m| unsafe { fennelrake_postings(s, n, term, o, m) });
        assert!(8 * (r % (1 << 32)) <= out.bytes().len() as u64, "more postings than the output has room for");
        r
    }

    pub fn search(state: &Lent, bytes: &[u8], answer: &mut Lent) -> u32 {
        let mut bytes = Lent::new(bytes);
        let (before, k) = (bytes.clone(), bytes.bytes().len());
        // SAFETY: as above
        let r = reading(state, answer, |s, n, a, m| unsafe { fennelrake_search(s, n, bytes.at(), k, a, m) });
        bytes.check();
        assert!(before.bytes() == bytes.bytes(), "a call wrote in the frame");
        r
    }

    pub fn closeness(state: &Lent, serial: u32, number: u32, answer: &mut Lent) -> u32 {
        // SAFETY: as above
        reading(state, answer, |s, n, a, m| unsafe { fennelrake_closeness(s, n, serial, number, a, m) })
    }

    pub fn screen(state: &Lent, lines: u32, out: &mut Lent) -> u64 {
        // SAFETY: as above
        reading(state, out, |s, n, o, m| unsafe { fennelrake_screen(s, n, lines, o, m) })
    }

    pub fn write(f: &Fields, out: &mut Lent) -> u64 {
        let terms: Vec<u8> = f.terms.iter().flat_map(|t| t.to_be_bytes()).collect();
        let (mut terms, mut amounts) = (Lent::new(&terms), Lent::new(&f.amounts));
        let (t, a) = (terms.clone(), amounts.clone());
        let (n, k, m) = (t.bytes().len(), a.bytes().len(), out.bytes().len());
        // SAFETY: as above
        let r = unsafe { fennelrake_write(f.kind, f.time, f.serial, f.urgency, f.number, f.k, f.pairs, terms.at(), n, amounts.at(), k, out.at(), m) };
        out.check();
        terms.check();
        amounts.check();
        assert!(t.bytes() == terms.bytes() && a.bytes() == amounts.bytes(), "a call wrote in the terms or the amounts");
        r
    }
}

/// What a call writes into an answer of this length, or the number that refuses it; three bytes past it must stay.
fn answered(length: usize, call: impl FnOnce(&mut Lent) -> u32) -> Result<Vec<u8>, u32> {
    let mut answer = Lent::new(&vec![0xa5; length + 3]);
    let r = call(&mut answer);
    let (written, past) = answer.bytes().split_at(length);
    assert_eq!(past, [0xa5; 3], "bytes past the answer changed");
    if r == 0 {
        Ok(written.to_vec())
    } else {
        Err(r)
    }
}

/// A call's number; a refusal must leave the answer as it was.
fn judged(answer: &mut Lent, call: impl FnOnce(&mut Lent) -> u32) -> u32 {
    let unanswered = answer.clone();
    let r = call(answer);
    assert!(r == 0 || unanswered.bytes() == answer.bytes(), "a refusal wrote an answer");
    r
}

/// What a call writes that returns a number and how many things it wrote, of so many bytes each, or the number that refuses it. Bytes that the output
/// holds past them must stay.
fn written(held: &[u8], each: usize, call: impl FnOnce(&mut Lent) -> u64) -> Result<Vec<u8>, u32> {
    let mut out = Lent::new(held);
    let r = call(&mut out);
    let (number, count) = ((r >> 32) as u32, r as u32 as usize);
    let length = if number == 0 { each * count } else { 0 };
    assert!(length <= held.len(), "{count} of {each} bytes in {}", held.len());
    assert!(out.bytes()[length..] == held[length..], "output past what is written changed");
    if number != 0 {
        assert_eq!(count, 0, "a refusal returned a count");
        return Err(number);
    }
    Ok(out.bytes()[..length].to_vec())
}

/// The reply; a refusal must leave state and answer as they were.
pub fn frame(state: &mut Lent, bytes: &[u8]) -> Reply {
    match answered(FRAME_ANSWER, |answer| frame_into(state, bytes, answer)) {
        Ok(a) => Reply { number: 0, marks: word(&a, 0), departures: word(&a, 1) },
        Err(number) => Reply { number, marks: 0, departures: 0 },
    }
}

pub fn frame_into(state: &mut Lent, bytes: &[u8], answer: &mut Lent) -> u32 {
    let before = state.clone();
    let r = judged(answer, |answer| raw::frame(state, bytes, answer));
    assert!(r == 0 || before.bytes() == state.bytes(), "a refusal changed the state");
    r
}

/// The list of a query as a reading returns it, or the number that refuses it.
pub fn list(state: &Lent, number: u32) -> Result<Vec<(u32, u32)>, u32> {
    answered(LIST_ANSWER, |answer| list_into(state, number, answer)).map(|a| entries(&a))
}

/// Serial and score of each entry of a list's answer.
fn entries(a: &[u8]) -> Vec<(u32, u32)> {
    let count = word(a, 0) as usize;
    assert!(count <= 16);
    for i in count..16 {
        assert_eq!((word(a, 1 + i), word(a, 17 + i)), (0, 0), "an unused place isn't 0");
    }
    (0..count).map(|i| (word(a, 1 + i), word(a, 17 + i))).collect()
}

pub fn list_into(state: &Lent, number: u32, answer: &mut Lent) -> u32 {
    judged(answer, |answer| raw::list(state, number, answer))
}

/// The postings of a term, written into output of so many bytes, or the number that refuses it.
pub fn postings(state: &Lent, term: u32, room: usize) -> Result<Vec<(u32, u32)>, u32> {
    let pairs = written(&vec![0xa5; room], 8, |out| raw::postings(state, term, out))?;
    Ok(pairs.chunks(8).map(|p| (word(p, 0), word(p, 1))).collect())
}

/// The list that a search finds and the postings that it reads, or the number that refuses it.
pub fn search(state: &Lent, bytes: &[u8]) -> Result<(Vec<(u32, u32)>, u32), u32> {
    answered(SEARCH_ANSWER, |answer| search_into(state, bytes, answer)).map(|a| (entries(&a), word(&a, 33)))
}

pub fn search_into(state: &Lent, bytes: &[u8], answer: &mut Lent) -> u32 {
    judged(answer, |answer| raw::search(state, bytes, answer))
}

/// Quotient and remainder of a closeness, or the number that refuses it.
pub fn closeness(state: &Lent, serial: u32, number: u32) -> Result<(u32, u32), u32> {
    answered(CLOSENESS_ANSWER, |answer| closeness_into(state, serial, number, answer)).map(|a| (word(&a, 0), word(&a, 1)))
}

pub fn closeness_into(state: &Lent, serial: u32, number: u32, answer: &mut Lent) -> u32 {
    judged(answer, |answer| raw::closeness(state, serial, number, answer))
}

/// Query, serial and score.
pub type Line = (u32, u32, u32);

/// The lines of a screen, written into output of so many bytes, or the number that refuses it.
pub fn screen(state: &Lent, lines: u32, room: usize) -> Result<Vec<Line>, u32> {
    screen_over(state, lines, &vec![0xa5; room])
}

/// The same into output that holds bytes already: those past the lines must stay.
pub fn screen_over(state: &Lent, lines: u32, held: &[u8]) -> Result<Vec<Line>, u32> {
    let placed = written(held, LINE, |out| raw::screen(state, lines, out))?;
    Ok(placed.chunks(LINE).map(|line| (line[0] as u32, word(&line[1..], 0), word(&line[1..], 1))).collect())
}

/// The fields of a frame to write: any numbers.
#[derive(Debug, Clone, Default)]
pub struct Fields {
    pub kind: u32,
    pub time: u32,
    pub serial: u32,
    pub urgency: u32,
    pub number: u32,
    pub k: u32,
    pub pairs: u32,
    pub terms: Vec<u16>,
    pub amounts: Vec<u8>,
}

/// The frame's bytes, or the number that refuses it.
pub fn write(f: &Fields, room: usize) -> Result<Vec<u8>, u32> {
    write_over(f, &vec![0xa5; room])
}

/// The same into output that holds bytes already: those past the frame must stay.
pub fn write_over(f: &Fields, held: &[u8]) -> Result<Vec<u8>, u32> {
    written(held, 1, |out| raw::write(f, out))
}

// ---- what the state memory keeps (docs/STATE.md)

/// The words of the header.
pub const HEADER: usize = 5;

/// How many slots the ring has, and a slot's words: those before its cells, and its cells.
const SLOTS: usize = 257;
const HEAD: usize = 3;
const CELLS: usize = 32;
pub const SLOT: usize = HEAD + CELLS;

/// Where word i of a slot stands, behind the header: each of those before the cells in a column of its own, and then the cells of every slot.
fn slot_at(j: usize, i: usize) -> usize {
    let column = HEADER + SLOTS * i.min(HEAD);
    column + if i < HEAD { j } else { CELLS * j + i - HEAD }
}

/// Where one of the first so many words of any slot stands.
pub fn any_in_slot(r: &mut Random, words: usize) -> usize {
    slot_at(r.below(SLOTS as u64) as usize, r.below(words as u64) as usize)
}

/// The word at which a query's record starts, behind the slots.
pub fn record_at(q: usize) -> usize {
    HEADER + SLOTS * SLOT + 60 * q
}

/// Where a record has the number of its list's entries, their serials and their keys.
pub const LISTED: usize = 10;
pub const SERIALS: usize = 19;
pub const KEYS: usize = 35;

/// A word of the state memory.
pub fn state_word(bytes: &[u8], i: usize) -> u32 {
    u32::from_le_bytes(bytes[4 * i..4 * i + 4].try_into().unwrap())
}

/// The term of any cell of the ring, whose other bits are 8 of its count and 14 of its impact.
pub fn any_term(state: &[u8], r: &mut Random) -> u32 {
    state_word(state, slot_at(r.below(SLOTS as u64) as usize, HEAD + r.below(CELLS as u64) as usize)) >> 22
}

/// The serial of any slot of the ring.
pub fn any_serial(state: &[u8], r: &mut Random) -> u32 {
    state_word(state, slot_at(r.below(SLOTS as u64) as usize, 1))
}

pub struct Slot {
    at: usize,
    /// Its words before the cells: time, serial, and size with 64 times the urgency.
    pub head: [u32; HEAD],
    pub cells: [u32; CELLS],
}

impl Slot {
    /// Where its words stand.
    pub fn words(&self) -> impl Iterator<Item = usize> {
        let at = self.at;
        (0..SLOT).map(move |i| slot_at(at, i))
    }
}

/// The slots of the window, oldest first.
pub fn window(state: &[u8]) -> Vec<Slot> {
    let (oldest, count) = (state_word(state, 3) as usize, state_word(state, 4) as usize);
    let slot = |at: usize| {
        let word = |i: usize| state_word(state, slot_at(at, i));
        Slot { at, head: std::array::from_fn(word), cells: std::array::from_fn(|i| word(HEAD + i)) }
    };
    (0..count).map(|i| slot((oldest + i) % SLOTS)).collect()
}

/// The bytes of a query's record.
pub fn record(state: &[u8], q: usize) -> &[u8] {
    &state[4 * record_at(q)..4 * record_at(q + 1)]
}

pub struct Kept {
    pub thresholds: Vec<u32>,
    pub candidates: Vec<u32>,
}

/// What a registered query's record keeps: its thresholds, and its candidates by serial in the order of acceptance.
pub fn kept(state: &[u8], q: usize) -> Option<Kept> {
    let r = record(state, q);
    if state_word(r, 0) == 0 {
        return None;
    }
    let n = state_word(r, 1) as usize;
    let flagged = |s: &Slot| state_word(r, 51 + s.at / 32) >> (31 - s.at % 32) & 1 == 1;
    let candidates = window(state).into_iter().filter(flagged).map(|s| s.head[1]).collect();
    Some(Kept { thresholds: (0..n).map(|i| state_word(r, 11 + i)).collect(), candidates })
}
