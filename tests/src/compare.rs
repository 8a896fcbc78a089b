//! A search, a closeness and a screen of the engine beside those of the log.

use crate::engine::{self, Lent, Line, STATE};
use crate::paper::{asked, judge_screen, Found, Frame, Log, Message, Query};

/// A copy of the state with a query registered at the clock, under this number, whether or not that is in use.
fn with_query(state: &Lent, log: &Log, number: usize, q: &Query) -> Lent {
    let (mut copy, time) = (state.clone(), log.clock);
    if log.queries[number].is_some() {
        assert_eq!(engine::frame(&mut copy, &Frame::Drop { time, number }.bytes()).number, 0);
    }
    assert_eq!(engine::frame(&mut copy, &Frame::Register { time, number, k: q.k, terms: q.terms.clone() }.bytes()).number, 0);
    copy
}

/// Asks both for a search by any bytes, and compares number, list and postings read. The list is also the log's ranking, and the one that the engine
/// keeps where the query is registered in a copy of its state, at the clock and under this number.
pub fn search(state: &Lent, log: &Log, bytes: &[u8], number: usize) -> Result<Found, u32> {
    let got = engine::search(state, bytes);
    let q = match asked(bytes) {
        Err(refusal) => {
            assert_eq!(got, Err(refusal), "a search by {bytes:02x?}");
            return Err(refusal);
        }
        Ok(q) => q,
    };
    let found = log.search(&q);
    assert_eq!(got, Ok((found.list.clone(), found.read)), "list and postings read of a search for {q:?}");
    assert_eq!(found.list, log.ranking(&q), "the messages seen and the ranking of all, for {q:?}");
    let copy = with_query(state, log, number, &q);
    assert_eq!(engine::list(&copy, number as u32).as_deref(), Ok(&found.list[..]), "the list of {q:?}, registered");
    Ok(found)
}

/// Asks both for the closeness of a message to a query, and compares number, quotient and remainder.
pub fn closeness(state: &Lent, log: &Log, serial: u32, number: u32) -> Result<(u32, u32), u32> {
    let got = engine::closeness(state, serial, number);
    match log.compared(serial, number) {
        Err(refusal) => assert_eq!(got, Err(refusal), "a closeness of message {serial} to query {number}"),
        Ok((m, q)) => assert_close(got, m, q),
    }
    got
}

/// The same to a query that is registered in a copy of the state, under this number. The message is in force.
pub fn closeness_to(state: &Lent, log: &Log, serial: u32, q: &Query, number: usize) -> (u32, u32) {
    let m = &log.messages[log.holder(serial, log.clock).expect("a message in force")];
    let got = engine::closeness(&with_query(state, log, number, q), serial, number as u32);
    assert_close(got, m, q);
    m.closeness(q)
}

/// Quotient and remainder are the log's. The quotient is at most 1,000, and 1,000 with remainder 0 exactly for counts in proportion to the weights.
fn assert_close(got: Result<(u32, u32), u32>, m: &Message, q: &Query) {
    let close = m.closeness(q);
    assert_eq!(got, Ok(close), "closeness of {m:?} to {q:?}");
    assert!(close.0 <= 1000, "{close:?} of {m:?} to {q:?}");
    assert_eq!(close == (1000, 0), m.is_in_proportion(q), "{close:?} of {m:?} to {q:?}");
}

/// Asks both for a screen of so many lines in output of so many bytes, and compares number and lines.
pub fn screen(state: &Lent, log: &Log, lines: u32, room: usize) -> Result<Vec<Line>, u32> {
    let got = engine::screen(state, lines, room);
    let want = judge_screen(state.bytes().len() == STATE, lines, room).map(|()| log.screen(lines));
    assert_eq!(got, want, "a screen of {lines} lines in {room} bytes");
    if let Ok(placed) = &got {
        assert_shared_out(state, lines, placed);
    }
    got
}

/// A query's lines are the first entries of its list: at least its share of the lines, or all of them. No line is left where an entry is.
fn assert_shared_out(state: &Lent, lines: u32, placed: &[Line]) {
    let lists: Vec<(u32, Vec<(u32, u32)>)> = (0..32).filter_map(|number| Some((number, engine::list(state, number).ok()?))).collect();
    for (number, list) in &lists {
        let own: Vec<(u32, u32)> = placed.iter().filter(|line| line.0 == *number).map(|line| (line.1, line.2)).collect();
        assert!(list.starts_with(&own), "of {lines} lines query {number} has {own:?}, and lists {list:?}");
        let share = list.len().min(lines as usize / lists.len());
        assert!(own.len() >= share, "of {lines} lines query {number} has {}, and its share is {share}", own.len());
    }
    let entries: usize = lists.iter().map(|(_, list)| list.len()).sum();
    assert_eq!(placed.len(), entries.min(lines as usize), "of {lines} lines, with {entries} entries");
}
