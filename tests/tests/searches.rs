//! Searches asked for once: worked ones, ties, ends and refusals. Each is compared with the log's search, posting by posting, and with the query
//! registered.

use fennelrake_tests::board::{ask, Board, Pairs};
use fennelrake_tests::compare;
use fennelrake_tests::engine::{self, word, Lent, SEARCH_ANSWER, STATE};
use fennelrake_tests::paper::{asked, Form, Frame, Query};
use fennelrake_tests::random::Random;

// ---- worked searches

#[test]
fn worked() {
    let b = Board::c10();
    let both = &[(5, 1), (9, 2)];
    assert_eq!(b.search(1, both), (1, vec![(3, 2828)]));
    assert_eq!(b.search(2, both), (2, vec![(3, 2828), (2, 2000)]));
    assert_eq!(b.search(3, both), (3, vec![(3, 2828), (2, 2000), (4, 894)]));
    assert_eq!(b.search(2, &[(40, 1)]), (1, vec![(3, 1414)]));
    assert_eq!(b.search(1, &[(7, 1)]), (0, vec![]));
    let b = Board::of(&[&[(5, 1)], &[(9, 1)]]);
    assert_eq!(b.search(1, &[(5, 1), (9, 1)]), (2, vec![(2, 2000)]));
    let b = Board::of(&[&[(5, 1), (9, 1)], &[(9, 1), (40, 1)]]);
    assert_eq!(b.search(1, &[(5, 1), (9, 1)]), (1, vec![(1, 2828)]));
    assert_eq!(b.search(2, &[(5, 1), (9, 1)]), (3, vec![(1, 2828), (2, 1414)]));
    let b = Board::of(&[&[(5, 1), (9, 1)], &[(40, 1)]]);
    assert_eq!(b.search(2, &[(5, 2), (9, 2), (40, 1)]), (3, vec![(1, 5656), (2, 2000)]));
}

/// Every byte of an answer: 34 numbers of four bytes, the most significant first; those past it stay.
#[test]
fn the_answer() {
    let mut b = Board::new(8, 100);
    b.take(Frame::Message { time: 10, serial: 0xa_bcde, form: Form::Graded(2), pairs: vec![(5, 1)] });
    b.take(Frame::Message { time: 10, serial: 0x1_0203, form: Form::Plain, pairs: vec![(5, 1), (6, 1)] });
    let mut answer = Lent::new(&[0x3c; SEARCH_ANSWER + 7]);
    assert_eq!(engine::search_into(&b.state, &ask(16, &[(5, 15), (6, 15)]), &mut answer), 0);
    let mut want = vec![0; SEARCH_ANSWER];
    let (serials, scores) = ([[0, 1, 2, 3], [0, 0xa, 0xbc, 0xde]], [[0, 0, 0xa5, 0xb4], [0, 0, 0x75, 0x30]]);
    for (place, bytes) in [(0, [0, 0, 0, 2]), (1, serials[0]), (2, serials[1]), (17, scores[0]), (18, scores[1]), (33, [0, 0, 0, 3])] {
        want[4 * place..4 * place + 4].copy_from_slice(&bytes);
    }
    want.extend([0x3c; 7]);
    assert_eq!(answer.bytes(), want);
    // what it held before doesn't matter, and an answer without an entry is all zero
    for held in [0x00, 0xff] {
        let mut answer = Lent::new(&[held; SEARCH_ANSWER]);
        assert_eq!(engine::search_into(&b.state, &ask(16, &[(7, 1)]), &mut answer), 0);
        assert_eq!(answer.bytes(), [0; SEARCH_ANSWER]);
    }
}

// ---- which posting is read, and when the search ends

/// The lower of two terms with the same weight × impact is read first: that finds the best message at once, or not.
#[test]
fn tied_terms() {
    // message 1 is the only one of term 5, and the last of term 9
    let b = Board::of(&[&[(5, 1), (9, 1)], &[(9, 1), (40, 1)]]);
    assert_eq!(b.search(1, &[(5, 1), (9, 1)]), (1, vec![(1, 2828)]));
    // the same with the terms changed over: the lower one has the other message before it
    let b = Board::of(&[&[(5, 1), (9, 1)], &[(5, 1), (40, 1)]]);
    assert_eq!(b.search(1, &[(5, 1), (9, 1)]), (2, vec![(1, 2828)]));
    // of three tied terms the first is read on as long as its next posting is as high as theirs: message 1 comes second in it
    let b = Board::of(&[&[(5, 1), (9, 1), (40, 1)], &[(5, 1), (9, 1), (50, 1)]]);
    assert_eq!(b.search(1, &[(5, 1), (9, 1), (40, 1)]), (2, vec![(1, 3462)]));
}

/// It is weight × impact that is compared, and not the impact or the weight: 2 × 1000 is 1 × 2000, and both are less than 3 × 894.
#[test]
fn products() {
    let four = &[(9, 1), (20, 1), (21, 1), (22, 1)][..];
    let b = Board::of(&[&[(5, 1)], four]);
    assert_eq!(b.search(1, &[(5, 1), (9, 2)]), (2, vec![(2, 2000)]));
    let b = Board::of(&[four, &[(5, 1)]]);
    assert_eq!(b.search(1, &[(5, 1), (9, 2)]), (2, vec![(2, 2000)]));
    // 2682 of term 7 comes first and isn't above the 4000 to come; after term 5 there is only 2000
    let b = Board::of(&[&[(5, 1)], four, &[(7, 1), (30, 2)]]);
    assert_eq!(b.search(1, &[(5, 1), (7, 3), (9, 2)]), (2, vec![(3, 2682)]));
    assert_eq!(b.search(1, &[(7, 3), (9, 1)]), (1, vec![(3, 2682)]));
    assert_eq!(b.search(1, &[(7, 1), (9, 1)]), (1, vec![(2, 1000)]));
}

/// A k-th score that is the sum of the next postings doesn't end the search; one more does.
#[test]
fn a_score_that_is_the_sum() {
    // 2000 after the first posting, and 1000 + 1000 to come
    let (fives, nines) = (&[(5, 1), (20, 1), (21, 1), (22, 1)][..], &[(9, 1), (20, 1), (21, 1), (22, 1)][..]);
    let b = Board::of(&[&[(5, 1)], fives, nines]);
    assert_eq!(b.search(1, &[(5, 1), (9, 1)]), (2, vec![(1, 2000)]));
    // 4000, and 2 × 1000 + 1000 to come
    assert_eq!(b.search(1, &[(5, 2), (9, 1)]), (1, vec![(1, 4000)]));
    // the second best score is it, too
    let b = Board::of(&[&[(5, 1)], &[(5, 1)], fives, nines]);
    assert_eq!(b.search(2, &[(5, 1), (9, 1)]), (3, vec![(2, 2000), (1, 2000)]));
    // a newer message of the same score is in a posting yet to be read
    let b = Board::of(&[&[(5, 1)], &[(9, 1)], &[(9, 1)]]);
    assert_eq!(b.search(1, &[(5, 1), (9, 1)]), (3, vec![(3, 2000)]));
}

/// One term: as many postings as the list has entries, and those that equal the last; with all of them equal, all.
#[test]
fn one_term() {
    let counts = [1, 2, 3, 4, 5];
    let falling: Vec<Vec<(u32, u32)>> = counts.iter().map(|&c| vec![(5, 1), (6, c)]).collect();
    let b = Board::of(&falling.iter().map(|p| &p[..]).collect::<Vec<_>>());
    for k in 1..=5 {
        let (read, list) = b.search(k, &[(5, 7)]);
        assert_eq!((read as usize, list.len()), (k, k));
        assert_eq!(list.iter().map(|e| e.0).collect::<Vec<_>>(), (1..=k as u32).collect::<Vec<_>>());
    }
    let b = Board::of(&[&[(5, 1)], &[(5, 1), (6, 1)], &[(5, 2), (6, 2)], &[(5, 3)], &[(5, 9)]]);
    assert_eq!(b.search(1, &[(5, 1)]), (3, vec![(5, 2000)]));
    assert_eq!(b.search(3, &[(5, 1)]), (3, vec![(5, 2000), (4, 2000), (1, 2000)]));
    assert_eq!(b.search(4, &[(5, 1)]), (5, vec![(5, 2000), (4, 2000), (1, 2000), (3, 1414)]));
    assert_eq!(b.search(1, &[(6, 1)]), (2, vec![(3, 1414)]));
}

/// Fewer messages than k: every posting is read, and the list has every message that has one of the terms.
#[test]
fn k_above_the_messages() {
    let b = Board::of(&[&[(5, 1), (9, 1)], &[(9, 1)], &[(40, 1)]]);
    for k in 4..=16 {
        assert_eq!(b.search(k, &[(5, 1), (9, 1)]), (3, vec![(1, 2828), (2, 2000)]));
        assert_eq!(b.search(k, &[(5, 1), (9, 1), (40, 1)]), (4, vec![(1, 2828), (3, 2000), (2, 2000)]));
    }
    // as many messages as k: with all of them seen there is a posting left, message 1's second one
    assert_eq!(b.search(3, &[(5, 1), (9, 1), (40, 1)]), (3, vec![(1, 2828), (3, 2000), (2, 2000)]));
    assert_eq!(b.search(2, &[(5, 1), (9, 1)]), (2, vec![(1, 2828), (2, 2000)]));
}

/// Seen are messages and not postings: two of one message don't make up two messages.
#[test]
fn two_postings_of_a_message() {
    let b = Board::of(&[&[(5, 1), (40, 9)], &[(5, 1), (9, 1)]]);
    assert_eq!(b.search(2, &[(5, 1), (9, 1)]), (3, vec![(2, 2828), (1, 220)]));
    assert_eq!(b.search(1, &[(5, 1), (9, 1)]), (1, vec![(2, 2828)]));
    // eight postings of one message, then one of the other
    let all: Vec<(u32, u32)> = (0..8).map(|t| (t, 1)).collect();
    let b = Board::of(&[&[(7, 1), (40, 255)], &all]);
    assert_eq!(b.search(2, &all), (9, vec![(2, 8 * 707), (1, 7)]));
    assert_eq!(b.search(1, &all).0, 1);
}

/// Terms that no message has give nothing to read, and 0 to the sum.
#[test]
fn terms_that_none_has() {
    let b = Board::of(&[&[(5, 1)], &[(5, 1), (6, 1)]]);
    assert_eq!(b.search(1, &[(4, 15), (5, 1), (1023, 15)]), (1, vec![(1, 2000)]));
    assert_eq!(b.search(2, &[(4, 15), (5, 1), (1023, 15)]), (2, vec![(1, 2000), (2, 1414)]));
    assert_eq!(b.search(16, &[(0, 15), (4, 1), (7, 1), (1023, 15)]), (0, vec![]));
    assert_eq!(Board::of(&[]).search(1, &[(5, 1)]), (0, vec![]));
}

/// Among equal scores at the last place the urgent one is listed, though it is read last.
#[test]
fn urgency_at_the_last_place() {
    let mut b = Board::new(256, 1000);
    for form in [Form::Graded(1), Form::Graded(2), Form::Plain, Form::Graded(0), Form::Plain] {
        b.message(form, &[(5, 1)]);
    }
    b.message(Form::Graded(2), &[(5, 1), (6, 1)]);
    assert_eq!(b.search(1, &[(5, 1)]), (5, vec![(2, 2000)]));
    assert_eq!(b.search(2, &[(5, 1)]), (5, vec![(2, 2000), (1, 2000)]));
    assert_eq!(b.search(3, &[(5, 1)]), (5, vec![(2, 2000), (1, 2000), (5, 2000)]));
    assert_eq!(b.search(6, &[(5, 1)]).1.last(), Some(&(6, 1414)));
    // by two terms of one score, of which the urgent message has the higher one
    let mut b = Board::new(256, 1000);
    b.message(Form::Graded(2), &[(9, 1)]);
    b.message(Form::Plain, &[(5, 1)]);
    b.message(Form::Plain, &[(5, 1)]);
    assert_eq!(b.search(1, &[(5, 1), (9, 1)]), (3, vec![(1, 2000)]));
    assert_eq!(b.search(2, &[(5, 1), (9, 1)]), (3, vec![(1, 2000), (3, 2000)]));
}

// ---- which messages there are

/// A cancelled message is neither read nor found, and its serial may be another's.
#[test]
fn cancelled_messages() {
    let mut b = Board::of(&[&[(5, 1)], &[(5, 1), (6, 1)], &[(5, 1), (6, 2)]]);
    assert_eq!(b.search(1, &[(5, 1)]), (1, vec![(1, 2000)]));
    b.cancel(1);
    assert_eq!(b.search(1, &[(5, 1)]), (1, vec![(2, 1414)]));
    assert_eq!(b.search(3, &[(5, 1)]), (2, vec![(2, 1414), (3, 894)]));
    let time = b.log.clock;
    b.take(Frame::Message { time, serial: 1, form: Form::Plain, pairs: vec![(5, 1), (6, 3)] });
    assert_eq!(b.search(3, &[(5, 1)]), (3, vec![(2, 1414), (3, 894), (1, 632)]));
    [1, 2, 3].into_iter().for_each(|serial| b.cancel(serial));
    assert_eq!(b.search(3, &[(5, 1), (6, 1)]), (0, vec![]));
}

/// What is in force at the engine's clock counts, whatever time the frame says; and nothing of a message that has left.
#[test]
fn aged_messages() {
    let mut b = Board::new(3, 100);
    b.take(Frame::Message { time: 10, serial: 1, form: Form::Plain, pairs: vec![(5, 1)] });
    b.take(Frame::Message { time: 20, serial: 2, form: Form::Plain, pairs: vec![(5, 1), (6, 1)] });
    b.take(Frame::Tick { time: 110 });
    for (time, number) in [(0, 0), (109, 31), (110, 0), (111, 7), (120, 0), (u32::MAX, 31)] {
        let bytes = Frame::Register { time, number, k: 1, terms: vec![(5, 1)] }.bytes();
        assert_eq!(engine::search(&b.state, &bytes), Ok((vec![(1, 2000)], 1)), "time {time}, number {number}");
    }
    b.take(Frame::Tick { time: 111 });
    assert_eq!(b.search(2, &[(5, 1)]), (1, vec![(2, 1414)]));
    b.take(Frame::Tick { time: 121 });
    assert_eq!(b.search(2, &[(5, 1)]), (0, vec![]));
    // N of 3: the first of four goes
    for serial in 0..4 {
        b.take(Frame::Message { time: 121, serial, form: Form::Plain, pairs: vec![(5, 1)] });
    }
    assert_eq!(b.search(16, &[(5, 1)]), (3, vec![(3, 2000), (2, 2000), (1, 2000)]));
}

/// Wherever the window stands in the ring, around its end too, the later of equal ones is read first: message `earlier` + 4 has both terms.
#[test]
fn around_the_ring() {
    for earlier in [0, 1, 250, 252, 253, 254, 255, 256, 257, 258, 600] {
        let mut b = Board::new(5, 65535);
        (0..earlier).for_each(|_| b.message(Form::Plain, &[(5, 1), (9, 1)]));
        for pairs in [&[(9, 1)][..], &[(5, 1)], &[(5, 1)], &[(5, 1), (9, 1)], &[(9, 1)]] {
            b.message(Form::Plain, pairs);
        }
        let terms = &[(5, 1), (9, 1)];
        assert_eq!(b.search(1, terms), (5, vec![(earlier + 4, 2828)]), "{earlier} messages before");
        assert_eq!(b.search(2, terms).1, [(earlier + 4, 2828), (earlier + 5, 2000)]);
        assert_eq!(b.search(16, terms).0, 6);
        b.cancel(earlier + 4);
        assert_eq!(b.search(1, terms), (4, vec![(earlier + 5, 2000)]));
    }
}

/// The greatest numbers: 256 messages of eight terms each, and weights of 15. Where all products are equal the first term is read to its end, with
/// which the sum falls below the scores; where 128 messages have the highest score, so many postings are read.
#[test]
fn as_much_as_there_can_be() {
    let all: Vec<(u32, u32)> = (0..8).map(|t| (1016 + t, 255)).collect();
    let heavy: Vec<(u32, u32)> = all.iter().map(|p| (p.0, 15)).collect();
    let b = Board::of(&vec![&all[..]; 256]);
    let (read, list) = b.search(16, &heavy);
    assert_eq!((read, list.len(), list[0], list[15]), (256, 16, (256, 8 * 15 * 707), (241, 8 * 15 * 707)));
    let mut b = Board::new(256, 1000);
    (0..256).for_each(|i| b.message(Form::Plain, &[(i, 1 + 19 * (i % 2)), (1023, 255)]));
    let (read, list) = b.search(16, &[(1023, 15)]);
    assert_eq!((read, list[0], list[15]), (128, (255, 15 * 1999), (225, 15 * 1999)));
    // fifteen messages and k 16: all of their postings
    let b = Board::of(&vec![&all[..]; 15]);
    assert_eq!(b.search(16, &heavy).0, 8 * 15);
}

/// Terms 0 to n - 1, counted once each: 353 of 32 pairs, 485 of 17, and 500 of 16. The searches are for pairs past the 16th, and for the 16th beside
/// them.
#[test]
fn long_messages() {
    let once = |n: u32| (0..n).map(|t| (t, 1)).collect::<Vec<_>>();
    let b = Board::of(&[&once(32), &once(17), &once(16), &[(31, 1)]]);
    assert_eq!(b.search(1, &[(16, 1)]), (1, vec![(2, 485)]));
    assert_eq!(b.search(16, &[(16, 1), (17, 1)]), (3, vec![(1, 706), (2, 485)]));
    let three = &[(15, 1), (16, 1), (31, 1)];
    assert_eq!(b.search(1, three), (1, vec![(4, 2000)]));
    // messages 4, 3 and 2, which has both of the next postings, and 1; then 353 + 353 are to come
    assert_eq!(b.search(2, three), (5, vec![(4, 2000), (1, 1059)]));
    assert_eq!(b.search(16, three), (7, vec![(4, 2000), (1, 1059), (2, 970), (3, 500)]));
    // as much as there can be: the last eight of 32 pairs in each of 256 messages
    let all: Vec<(u32, u32)> = (992..1024).map(|t| (t, 255)).collect();
    let heavy: Vec<(u32, u32)> = all[24..].iter().map(|p| (p.0, 15)).collect();
    let (read, list) = Board::of(&vec![&all[..]; 256]).search(16, &heavy);
    assert_eq!((read, list.len(), list[0], list[15]), (256, 16, (256, 8 * 15 * 353), (241, 8 * 15 * 353)));
}

/// Each posting is of a message of its own, and all products are different: more are read than the list has entries, since those next in three terms
/// add up, and fewer than there are.
#[test]
fn a_message_for_each_posting() {
    let pairs: Vec<Vec<(u32, u32)>> = (0..60).map(|i| vec![(i % 3, 60 - i), (100 + i, 200)]).collect();
    let b = Board::of(&pairs.iter().map(|p| &p[..]).collect::<Vec<_>>());
    for k in 1..=16 {
        let (read, list) = b.search(k, &[(0, 3), (1, 3), (2, 3)]);
        assert!(read as usize > k && read < 60, "{read} of 60 for {k}");
        assert_eq!(list.iter().map(|e| e.0).collect::<Vec<_>>(), (1..=k as u32).collect::<Vec<_>>());
    }
}

// ---- refusals

/// A search with everything wrong that can be, mended from one row to the next: of what is wrong the first is told.
#[test]
fn refused_in_order() {
    let b = Board::c10();
    for (mended, number) in [12, 12, 1, 2, 3, 4, 5, 6, 0].into_iter().enumerate() {
        let wrong = |place: usize, bad: u32, good: u32| if mended <= place { bad } else { good };
        let mut state = b.state.bytes().to_vec();
        state.resize(wrong(0, STATE as u32 + 1, STATE as u32) as usize, 0);
        let mut answer = Lent::new(&vec![0xa5; wrong(1, 135, 136) as usize]);
        let mut bytes = ask(2, &[(5, wrong(6, 0, 1)), (wrong(7, 5, 9), 2)]);
        // the last of four bits that fill up 76
        *bytes.last_mut().unwrap() |= wrong(5, 1, 0) as u8;
        bytes.resize(wrong(2, 4, wrong(4, 11, 10)) as usize, 0);
        bytes[0] += wrong(3, 0x30, 0) as u8;
        assert_eq!(engine::search_into(&Lent::new(&state), &bytes, &mut answer), number, "{bytes:02x?}");
    }
}

/// Only state memory of its length is taken, and an answer of at least its length. Of any frame, also one that would be refused, 12 is told first.
#[test]
fn lengths_lent() {
    let b = Board::c10();
    let good = ask(1, &[(5, 1)]);
    for (frame, otherwise) in [(&good[..], 0), (&[], 1), (&[0x20, 0, 0, 7, 0x80], 2), (&good[..7], 3)] {
        b.assert_lengths(SEARCH_ANSWER, otherwise, |state, answer| engine::search_into(state, frame, answer));
    }
}

/// Every kind but 3, with lengths around each boundary: whole frames of these kinds, and what isn't one in any way.
#[test]
fn every_other_kind() {
    let b = Board::c10();
    let whole = [
        Frame::Message { time: 50, serial: 9, form: Form::Plain, pairs: vec![(5, 1), (9, 1)] },
        Frame::Tick { time: 50 },
        Frame::Drop { time: 50, number: 0 },
        Frame::Cancel { time: 50, serial: 4 },
        Frame::Message { time: 50, serial: 9, form: Form::Graded(2), pairs: vec![(5, 1), (9, 1)] },
        Frame::Message { time: 50, serial: 9, form: Form::Graded(3), pairs: vec![(5, 0), (5, 1)] },
        Frame::Message { time: 0, serial: 4, form: Form::Plain, pairs: vec![(9, 0), (5, 0)] },
        Frame::Message { time: 50, serial: 9, form: Form::Long(2), pairs: vec![(5, 1), (9, 1)] },
        Frame::Message { time: 50, serial: 9, form: Form::Long(0), pairs: (0..32).map(|t| (t, 1)).collect() },
        Frame::Message { time: 50, serial: 9, form: Form::Long(3), pairs: vec![(5, 0), (5, 1)] },
    ];
    for f in whole {
        assert_eq!(engine::search(&b.state, &f.bytes()), Err(2), "{f:?}");
    }
    let register = ask(3, &[(5, 1), (9, 2), (40, 3)]);
    let mut r = Random::new(31);
    for kind in (0..16u8).filter(|kind| *kind != 3) {
        for len in 0..90 {
            let random = r.bytes(len);
            for mut bytes in [vec![0; len], vec![0xff; len], random, register.iter().copied().chain([0; 90]).take(len).collect()] {
                if let Some(first) = bytes.first_mut() {
                    *first = kind << 4 | *first & 15;
                }
                assert_eq!(engine::search(&b.state, &bytes), Err(if len < 5 { 1 } else { 2 }), "{bytes:02x?}");
            }
        }
    }
}

/// Frames of kind 3 with any bytes, most of them malformed: the number is that of the reader written from the document.
#[test]
fn any_bytes() {
    let b = Board::c10();
    let mut r = Random::new(32);
    let mut met = [0usize; 15];
    for len in 0..40 {
        for _ in 0..400 {
            let mut bytes = r.bytes(len);
            if let Some(first) = bytes.first_mut() {
                *first = 3 << 4 | *first & 15;
            }
            // half of them as long as their number of terms says
            if len > 5 && r.one_in(2) {
                let n = (bytes[5] % 8) as usize + 1;
                bytes.resize((48 + 14 * n).div_ceil(8), 0);
            }
            let found = compare::search(&b.state, &b.log, &bytes, 3);
            met[found.err().unwrap_or(0) as usize] += 1;
        }
    }
    for number in [0, 1, 3, 4, 5, 6] {
        assert!(met[number] > 20, "number {number} was hardly met: {met:?}");
    }
}

/// Neither a time below the clock nor a number in use is refused, and neither alters what is found.
#[test]
fn time_and_number_ignored() {
    let mut b = Board::c10();
    for number in 1..32 {
        b.take(Frame::Register { time: 40, number, k: 16, terms: vec![(40, 1)] });
    }
    let want = Ok((vec![(3, 2828), (2, 2000)], 2));
    for number in 0..32 {
        for time in [0, 1, 39, 40, 41, 140, 141, 1 << 31, u32::MAX] {
            let bytes = Frame::Register { time, number, k: 2, terms: vec![(5, 1), (9, 2)] }.bytes();
            assert_eq!(engine::search(&b.state, &bytes), want, "time {time}, number {number}");
        }
    }
}

// ---- all small logs, and random ones

/// Every four messages of six sorts, and every search for one or two terms with weights up to 3 for up to four messages.
#[test]
fn every_small_log() {
    const SORTS: [Pairs; 6] = [&[(5, 1)], &[(9, 1)], &[(5, 1), (9, 1)], &[(5, 1), (9, 2)], &[(5, 2), (9, 1)], &[(5, 1), (9, 1), (40, 1)]];
    let weights = (1..4).flat_map(|v| (1..4).map(move |w| vec![(5, v), (9, w)]));
    let queries: Vec<Vec<(u32, u32)>> = weights.chain([vec![(5, 1)], vec![(9, 2)], vec![(9, 1), (40, 1)]]).collect();
    let mut sums = (0, 0);
    for order in 0..6usize.pow(4) {
        let mut b = Board::new(4, 1000);
        // the third is urgent
        (0..4).for_each(|i| b.message(if i == 2 { Form::Graded(2) } else { Form::Plain }, SORTS[order / 6usize.pow(i) % 6]));
        for terms in &queries {
            for k in 1..=4 {
                let q = Query { k, terms: terms.clone() };
                let found = b.log.search(&q);
                assert_eq!(engine::search(&b.state, &ask(k, terms)), Ok((found.list.clone(), found.read)), "{q:?} of {:?}", b.log.messages);
                assert_eq!(found.list, b.log.ranking(&q));
                sums.0 += found.read;
                sums.1 += found.left;
            }
        }
    }
    assert!(sums.0 > 100_000 && sums.1 > 100_000, "of all postings {} were read and {} left: one is hardly met", sums.0, sums.1);
}

/// A log of random messages with few terms and low counts, so that impacts and products are often equal, and searches for up to eight of them.
#[test]
fn random_logs() {
    let mut r = Random::new(33);
    let (mut met, mut most_read) = ([0usize; 7], 0);
    for round in 0..400 {
        let (capacity, vocabulary) = ([1, 4, 16, 64, 256][round % 5], [2, 4, 9, 40][round / 5 % 4]);
        let mut b = Board::new(capacity, 1000);
        for _ in 0..r.below(2 * capacity as u64 + 2) {
            let mut pairs: Vec<(u32, u32)> = (0..vocabulary).map(|t| (t, r.below(3) as u32)).filter(|p| p.1 > 0).collect();
            pairs.push((50 + r.below(5) as u32, 1 + r.below(2) as u32));
            pairs.truncate(32);
            let (kind, urgency) = (r.below(3), r.pick(2, 3, 1) as u32);
            let form = match kind {
                0 if pairs.len() <= 16 => Form::Plain,
                1 if pairs.len() <= 16 => Form::Graded(urgency),
                _ => Form::Long(urgency),
            };
            b.message(form, &pairs);
            if r.one_in(6) {
                let in_force: Vec<u32> = b.log.in_force().iter().map(|m| m.serial).collect();
                b.cancel(in_force[r.below(in_force.len() as u64) as usize]);
            }
        }
        for _ in 0..12 {
            let n = 1 + r.below(8).min(vocabulary as u64);
            let mut terms: Vec<(u32, u32)> = (0..n).map(|_| (r.below(vocabulary as u64 + 2) as u32, 1 + r.pick(3, 15, 2) as u32)).collect();
            terms.sort_unstable();
            terms.dedup_by_key(|t| t.0);
            let bytes = ask(1 + r.below(16) as usize, &terms);
            let found = compare::search(&b.state, &b.log, &bytes, r.below(32) as usize).expect("a search that is accepted");
            let full = found.list.len() == asked(&bytes).unwrap().k;
            let pairs = |serial: u32| b.log.messages[b.log.holder(serial, b.log.clock).expect("a listed message is in force")].pairs.len();
            let long = found.list.iter().any(|e| pairs(e.0) > 16);
            for (count, is) in met.iter_mut().zip([found.left > 0, found.left == 0 && full, !full, found.equal, found.tied, found.again, long]) {
                *count += is as usize;
            }
            most_read = most_read.max(found.read);
        }
    }
    assert!(met.iter().all(|count| *count > 40) && most_read > 300, "hardly met: {met:?}, {most_read} postings at most");
}

/// Any bytes as state memory: a search is safe, ends, and leaves it as it is. What it answers isn't fixed but where it is refused.
#[test]
fn foreign_memory() {
    let mut r = Random::new(34);
    let mut entries = 0;
    for round in 0..300 {
        let mut bytes = match round % 3 {
            0 => r.bytes(STATE),
            1 => vec![[0x00, 0xff, 0x80, 0x01, 0x11][round / 3 % 5]; STATE],
            _ => Board::c10().state.bytes().to_vec(),
        };
        // of the words that steer a search: N, oldest and count, and serial, size and cells of slots
        for _ in 0..r.below(40) {
            let i = if r.one_in(2) { r.below(engine::HEADER as u64) as usize } else { engine::any_in_slot(&mut r, engine::SLOT) };
            let words = [0, 1, 2, 16, 17, 32, 33, 64, 96, 161, 225, 255, 256, 257, 258, 1 << 20, 33 << 20, 1 << 31, u32::MAX, r.next() as u32];
            let word = words[r.below(words.len() as u64) as usize];
            bytes[4 * i..4 * i + 4].copy_from_slice(&u32::to_le_bytes(word));
        }
        let state = Lent::new(&bytes);
        for _ in 0..20 {
            // the terms of two cells as they stand there, so that there are postings
            let mut term = || engine::any_term(&bytes, &mut r);
            let (one, other) = (term(), term());
            let mut terms: Vec<(u32, u32)> = [one, other, 5, 9].map(|t| (t, 1 + t % 15)).to_vec();
            terms.sort_unstable();
            terms.dedup();
            let held = r.bytes(SEARCH_ANSWER);
            let mut answer = Lent::new(&held);
            assert_eq!(engine::raw::search(&state, &ask(1 + r.below(16) as usize, &terms), &mut answer), 0);
            assert!(answer.bytes() != held, "an accepted search wrote nothing");
            entries += (word(answer.bytes(), 0) > 0) as usize;
            for refused in [&[][..], &[0x30, 0, 0, 0], &[0x20, 0, 0, 7, 0x80], &[0x30, 0, 0, 0, 0]] {
                let number = engine::search_into(&state, refused, &mut answer);
                assert_eq!(Err(number), asked(refused).map(|_| ()), "{refused:02x?}");
            }
        }
    }
    assert!(entries > 200, "hardly a search found anything in foreign memory: {entries}");
}
