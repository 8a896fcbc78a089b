//! Screens: worked ones, every number of lines, lists of many lengths, refusals, and random boards. Each is compared with all entries sorted, and each
//! query has its share of the lines.

use fennelrake_tests::board::Board;
use fennelrake_tests::compare;
use fennelrake_tests::engine::{self, Lent, Line, LINE, LISTED, STATE};
use fennelrake_tests::paper::{Form, Frame, MOST_LINES};
use fennelrake_tests::random::Random;
use fennelrake_tests::source::{lines_asked, rising};

/// Sixteen messages, of which the later score higher in term 5 and the earlier in term 6. These queries list so many of them, those of an even number
/// by term 5 and those of an odd one by term 6; where that is 0, the query asks for a term that no message has.
fn listing(lengths: impl IntoIterator<Item = (usize, usize)>) -> Board {
    let mut b = Board::new(256, 1000);
    (1..=16).for_each(|i| b.message(Form::Plain, &[(5, i), (6, 17 - i)]));
    lengths.into_iter().for_each(|(number, n)| list(&mut b, number, n));
    b
}

fn list(b: &mut Board, number: usize, n: usize) {
    let (term, weight) = (if n == 0 { 900 } else { 5 + number as u32 % 2 }, 1 + number as u32 % 15);
    b.list(number, n.max(1), &[(term, weight)]);
}

/// The queries of a screen's lines.
fn numbers(b: &Board, lines: u32) -> Vec<u32> {
    b.screen(lines).iter().map(|line| line.0).collect()
}

/// Queries and serials of all lines that there are.
fn serials(b: &Board) -> Vec<(u32, u32)> {
    b.screen(MOST_LINES).iter().map(|line| (line.0, line.1)).collect()
}

/// Fewer lines than on a screen are its first ones.
fn assert_every_number_of_lines(b: &Board) {
    let whole = b.screen(MOST_LINES);
    (0..=MOST_LINES).for_each(|lines| assert_eq!(b.screen(lines), whole[..whole.len().min(lines as usize)], "{lines} lines"));
}

// ---- worked ones

#[test]
fn worked() {
    let mut b = Board::c10();
    assert_eq!(b.screen(1), [(0, 3, 2828)]);
    assert_eq!(b.screen(31), [(0, 3, 2828), (0, 2, 2000)]);
    b.list(7, 16, &[(5, 1)]);
    b.list(3, 2, &[(40, 1)]);
    let whole = [(0, 3, 2828), (3, 3, 1414), (7, 2, 2000), (0, 2, 2000), (7, 4, 894)];
    for lines in [0, 1, 2, 3, 4, 5, 6, 31, 512] {
        assert_eq!(b.screen(lines), whole[..whole.len().min(lines as usize)], "{lines} lines");
    }
}

/// Every byte of two lines: the query, and serial and score, each in four bytes with the most significant first. Those past them stay, and what the
/// output held before doesn't matter.
#[test]
fn the_output() {
    let mut b = Board::new(256, 1000);
    let eight: Vec<(u32, u32)> = (500..508).map(|term| (term, 15)).collect();
    b.list(31, 16, &eight);
    for serial in [0xf_edcb, 0x1_2345] {
        b.take(Frame::Message { time: 0, serial, form: Form::Graded(2), pairs: eight.clone() });
    }
    let want = [31, 0, 0x01, 0x23, 0x45, 0, 0x01, 0x4b, 0x68, 31, 0, 0x0f, 0xed, 0xcb, 0, 0x01, 0x4b, 0x68];
    for (lines, held) in [1, 2, 3].into_iter().flat_map(|lines| [0x00, 0x3c, 0xff].map(|held| (lines, held))) {
        let mut out = Lent::new(&[held; 3 * LINE + 7]);
        let placed = 2.min(lines);
        assert_eq!(engine::raw::screen(&b.state, lines as u32, &mut out), placed as u64);
        assert_eq!(out.bytes(), [&want[..LINE * placed], &[held; 3 * LINE + 7][LINE * placed..]].concat());
    }
}

// ---- how many lines

/// As many lines as there are; and one more than there can be, or more than that, also where the last bits would do.
#[test]
fn numbers_of_lines() {
    let b = listing((0..32).map(|number| (number, 16)));
    for lines in [0, 1, 31, 32, 33, 511, 512] {
        assert_eq!(b.screen(lines).len(), lines as usize);
    }
    for lines in [513, 514, 600, 1024, 1 << 16, (1 << 16) + 1, (1 << 16) + 512, 1 << 31, (1 << 31) + 512, u32::MAX] {
        assert_eq!(compare::screen(&b.state, &b.log, lines, LINE * 1024), Err(5), "{lines} lines");
    }
}

/// As many queries as there can be, of as many entries: all lines are placed.
#[test]
fn every_list_full() {
    let b = listing((0..32).map(|number| (number, 16)));
    assert_eq!(numbers(&b, MOST_LINES), (0..MOST_LINES).map(|i| i % 32).collect::<Vec<_>>());
    let by_5_and_6 = |round: u32| [16 - round, 1 + round].repeat(16);
    assert_eq!(b.screen(MOST_LINES).iter().map(|line| line.1).collect::<Vec<_>>(), (0..16).flat_map(by_5_and_6).collect::<Vec<_>>());
    assert_every_number_of_lines(&b);
}

/// Numbers that aren't in use, empty lists, full ones, and others.
#[test]
fn every_number_of_lines() {
    let lengths = (0..32).filter(|number| number % 7 != 3).map(|number| (number, [0, 1, 16, 3, 7, 2][number % 6]));
    assert_every_number_of_lines(&listing(lengths));
}

// ---- whose lines

/// The lowest numbers have them, in whatever order the queries were registered.
#[test]
fn fewer_lines_than_queries() {
    let b = listing((0..32).rev().map(|number| (number, 1 + number % 3)));
    (0..=32).for_each(|lines| assert_eq!(numbers(&b, lines), (0..lines).collect::<Vec<_>>()));
    let b = listing([(31, 16), (3, 16), (7, 16)]);
    assert_eq!(numbers(&b, 2), [3, 7]);
    assert_eq!(numbers(&b, 4), [3, 7, 31, 3]);
}

/// What the short lists leave is the long one's, wherever it stands; and a short one among long ones has its lines, too.
#[test]
fn one_among_others() {
    for one in [0, 15, 31] {
        let b = listing((0..32).map(|number| (number, if number == one { 16 } else { 1 })));
        for lines in [31, 32, 33, 46, 47, 48, 512] {
            let want = (0..32).chain([one as u32; 15]).take(lines as usize);
            assert_eq!(numbers(&b, lines), want.collect::<Vec<_>>(), "{one} is the long one, {lines} lines");
        }
        let b = listing((0..32).map(|number| (number, if number == one { 1 } else { 16 })));
        for lines in [32, 33, 63, 64, 496, 497, 498, 512] {
            let want = (0..MOST_LINES).filter(|i| *i < 32 || i % 32 != one as u32).map(|i| i % 32).take(lines as usize);
            assert_eq!(numbers(&b, lines), want.collect::<Vec<_>>(), "{one} is the short one, {lines} lines");
        }
    }
}

/// Queries that no message suits have no line, and take none from others.
#[test]
fn empty_lists() {
    let b = listing((0..32).map(|number| (number, 0)));
    [0, 1, 31, 32, 512].into_iter().for_each(|lines| assert_eq!(b.screen(lines), []));
    let b = listing([(0, 0), (1, 2), (2, 0), (30, 1), (31, 0)]);
    (0..=4).for_each(|lines| assert_eq!(numbers(&b, lines), [1, 30, 1][..3.min(lines as usize)]));
    assert_eq!(serials(&b), [(1, 1), (30, 16), (1, 2)]);
}

#[test]
fn no_query() {
    let mut b = listing([]);
    for _ in 0..2 {
        [0, 1, 31, 512].into_iter().for_each(|lines| assert_eq!(b.screen(lines), []));
        list(&mut b, 9, 16);
        assert_eq!(numbers(&b, 3), [9; 3]);
        b.drop(9);
    }
}

/// A number dropped has no line; another query under it has its own, and one under a lower number comes before it.
#[test]
fn dropped() {
    let mut b = listing([(2, 2), (9, 3), (20, 1)]);
    assert_eq!(serials(&b), [(2, 16), (9, 1), (20, 16), (2, 15), (9, 2), (9, 3)]);
    b.drop(9);
    assert_eq!(serials(&b), [(2, 16), (20, 16), (2, 15)]);
    b.list(9, 2, &[(5, 1)]);
    assert_eq!(serials(&b), [(2, 16), (9, 16), (20, 16), (2, 15), (9, 15)]);
    list(&mut b, 1, 1);
    b.drop(2);
    assert_eq!(serials(&b), [(1, 1), (9, 16), (20, 16), (9, 15)]);
}

/// A message leaves for N, by a cancellation, and by age.
#[test]
fn departed() {
    let mut b = Board::new(3, 100);
    b.list(0, 2, &[(5, 1)]);
    b.list(1, 16, &[(6, 1)]);
    (0..3).for_each(|_| b.message(Form::Plain, &[(5, 1), (6, 1)]));
    assert_eq!(serials(&b), [(0, 3), (1, 3), (0, 2), (1, 2), (1, 1)]);
    b.message(Form::Plain, &[(5, 1), (6, 1)]);
    assert_eq!(serials(&b), [(0, 4), (1, 4), (0, 3), (1, 3), (1, 2)]);
    b.cancel(4);
    assert_eq!(serials(&b), [(0, 3), (1, 3), (0, 2), (1, 2)]);
    for (time, want) in [(102, &[(0, 3), (1, 3), (0, 2), (1, 2)][..]), (103, &[(0, 3), (1, 3)]), (104, &[])] {
        b.take(Frame::Tick { time });
        assert_eq!(serials(&b), want, "at {time}");
    }
}

/// Of equal scores the more urgent has the line before; the scores are told without the urgency.
#[test]
fn urgencies() {
    let mut b = Board::new(256, 1000);
    [2, 0, 1, 2].into_iter().for_each(|urgency| b.message(Form::Graded(urgency), &[(5, 1)]));
    b.list(0, 4, &[(5, 1)]);
    b.list(5, 2, &[(5, 15)]);
    let whole = [(0, 4, 2000), (5, 4, 30000), (0, 1, 2000), (5, 1, 30000), (0, 3, 2000), (0, 2, 2000)];
    (0..8).for_each(|lines| assert_eq!(b.screen(lines), whole[..6.min(lines as usize)]));
}

// ---- refusals

/// A screen of state memory that is cut or lengthened so.
fn lent(b: &Board, state: usize, lines: u32, room: usize) -> Result<Vec<Line>, u32> {
    let mut bytes = b.state.bytes().to_vec();
    bytes.resize(state, 0);
    compare::screen(&Lent::new(&bytes), &b.log, lines, room)
}

/// A screen with everything wrong that can be, mended from one row to the next: of what is wrong the first is told.
#[test]
fn refused_in_order() {
    let b = Board::c10();
    for (state, lines, room, want) in [(STATE + 1, 513, 17, 12), (STATE, 513, 17, 5), (STATE, 512, 17, 12), (STATE, 2, 17, 12), (STATE, 2, 18, 0)] {
        assert_eq!(lent(&b, state, lines, room).err().unwrap_or(0), want, "{state} bytes of state, {lines} lines, {room} bytes of output");
    }
}

/// Whatever is wrong together with whatever else.
#[test]
fn refused_in_every_way() {
    let b = Board::c10();
    let mut met = [0usize; 15];
    for state in [0, 4, STATE - 4, STATE - 1, STATE, STATE + 1, STATE + 4, 2 * STATE] {
        for lines in [0, 1, 2, 3, 31, 511, 512, 513, 514, (1 << 16) + 1, u32::MAX] {
            for room in [0, 8, 9, 10, 17, 18, 26, 27, 278, 279, 4598, 4599, 4607, 4608, 4609, 4616, 4617, 4618, 9000] {
                met[lent(&b, state, lines, room).err().unwrap_or(0) as usize] += 1;
            }
        }
    }
    // of 19 outputs 19, 17, 14, 12, 10, 8 and 6 hold 0, 1, 2, 3, 31, 511 and 512 lines
    assert_eq!((met[0], met[5]), (19 + 17 + 14 + 12 + 10 + 8 + 6, 4 * 19));
}

/// Only state memory of its length is taken, and output that all lines fit in, however many are placed: C10's board has two.
#[test]
fn lengths_lent() {
    let b = Board::c10();
    for (lines, needed, otherwise) in [(0, 0, 0), (1, 9, 0), (2, 18, 0), (3, 27, 0), (31, 279, 0), (512, 4608, 0), (513, 0, 5), (u32::MAX, 0, 5)] {
        b.assert_lengths(needed, otherwise, |state, out| engine::screen_over(state, lines, out.bytes()).err().unwrap_or(0));
    }
}

/// What the output held doesn't matter, and what it holds past the lines stays: where they don't fill those asked for, too.
#[test]
fn any_output() {
    let (b, mut r) = (listing([(3, 16), (8, 5), (12, 0)]), Random::new(81));
    for lines in (0..25).chain([511, 512]) {
        for more in [0, 1, 8, 9, 10, 5000] {
            let held = r.bytes(LINE * lines as usize + more);
            assert_eq!(engine::screen_over(&b.state, lines, &held), Ok(b.screen(lines)), "{lines} lines in {} bytes", held.len());
        }
    }
}

// ---- all small ones, and random ones

/// Every four numbers that aren't in use or list none to three messages.
#[test]
fn every_small_board() {
    for board in 0..5usize.pow(4) {
        let length = |(i, number)| Some((number, (board / 5usize.pow(i) % 5).checked_sub(1)?));
        let b = listing((0..).zip([0, 1, 30, 31]).filter_map(length));
        (0..=13).for_each(|lines| drop(b.screen(lines)));
    }
}

/// What random screens have to be for the test to mean anything. A round is a run of rising numbers.
fn sorts(b: &Board, lines: u32, placed: &[Line]) -> [bool; 6] {
    let lists: Vec<usize> = b.log.queries.iter().flatten().map(|q| b.log.ranking(q).len()).collect();
    let (rounds, entries): (Vec<&[Line]>, usize) = (placed.chunk_by(|a, b| a.0 < b.0).collect(), lists.iter().sum());
    let last = rounds.last().map_or(0, |round| round.len());
    let due = lists.iter().filter(|n| **n >= rounds.len()).count();
    [
        placed.len() < lines as usize,
        placed.len() == lines as usize && placed.len() == entries,
        placed.len() < entries && rounds.len() > 1 && last < due,
        placed.len() < entries && rounds.len() > 1 && last == due,
        lists.contains(&0) && rounds.len() > 3,
        0 < lines && (lines as usize) < lists.len(),
    ]
}

/// Queries and messages at random, some of them cancelled.
#[test]
fn random_boards() {
    let mut r = Random::new(82);
    let mut met = [0usize; 6];
    for round in 0..160 {
        let (capacity, terms, queries) = ([2, 8, 40, 256][round % 4], [4, 12, 60][round % 3], [1, 4, 12, 32][round / 4 % 4]);
        let mut b = Board::new(capacity, 1000);
        for _ in 0..r.below(60) {
            let (urgency, pairs) = (r.below(3) as u32, rising(&mut r, 8, 0..terms, 4));
            b.message(Form::Graded(urgency), &pairs);
            if r.one_in(6) {
                b.cancel(b.log.messages.len() as u32);
            }
        }
        let used: Vec<usize> = (0..32).filter(|_| r.below(32) < queries).collect();
        for number in used {
            let (k, terms) = (1 + r.below(16) as usize, rising(&mut r, 3, 0..terms + 2, 15));
            b.list(number, k, &terms);
        }
        for _ in 0..20 {
            let lines = lines_asked(&mut r, &b.log);
            let room = LINE * lines.min(MOST_LINES) as usize;
            if let Ok(placed) = compare::screen(&b.state, &b.log, lines, room) {
                met.iter_mut().zip(sorts(&b, lines, &placed)).for_each(|(count, is)| *count += is as usize);
            }
        }
    }
    assert!(met.iter().all(|count| *count > 40), "hardly met: {met:?}");
}

/// Lists that say more entries than there can be, in memory that no call left: no more lines are placed than were asked for.
#[test]
fn foreign_lengths() {
    let b = listing((0..32).map(|number| (number, 16)));
    for listed in [0, 1, 15, 16, 17, 18, 32, 255, 257, 1 << 16, 1 << 31, u32::MAX] {
        let mut bytes = b.state.bytes().to_vec();
        for number in 0..32 {
            let at = 4 * (engine::record_at(number) + LISTED);
            bytes[at..at + 4].copy_from_slice(&u32::to_le_bytes(listed));
            let state = Lent::new(&bytes);
            for lines in [0, 1, 31, 511, 512] {
                let placed = engine::screen(&state, lines, LINE * 512 + 1).expect("a screen that is accepted");
                assert!(placed.len() <= lines as usize, "{listed} entries of {} queries, {lines} lines", number + 1);
            }
        }
    }
}
