//! Closeness of a message to a query: worked ones, the greatest numbers, refusals, and random pairs. Each is compared with exact arithmetic; it is
//! 1,000 and 0 exactly where counts and weights are in proportion.

use fennelrake_tests::board::{corners, Board, Pairs};
use fennelrake_tests::engine::{self, Lent, CLOSENESS_ANSWER, STATE};
use fennelrake_tests::paper::{routine, Form, Frame};
use fennelrake_tests::random::Random;
use fennelrake_tests::source::{near, rising, spoil};

const LAST_SERIAL: u32 = 1_048_575;

/// The forms that can say so many pairs.
fn forms(pairs: usize) -> impl Iterator<Item = Form> {
    [Form::Plain, Form::Graded(1), Form::Graded(2), Form::Long(0), Form::Long(2)].into_iter().filter(move |f| pairs <= f.most())
}

/// Terms from the first on, with one amount each.
fn even(first: u32, n: u32, amount: u32) -> Vec<(u32, u32)> {
    (first..first + n).map(|term| (term, amount)).collect()
}

/// A message of serial 1 and a query of number 3, whatever the message's kind and urgency.
fn assert_close(pairs: Pairs, terms: Pairs, want: (u32, u32)) {
    for form in forms(pairs.len()) {
        let mut b = Board::new(256, 1000);
        b.register(3, terms);
        b.message(form, pairs);
        assert_eq!(b.closeness(1, 3), Ok(want), "{form:?}, {pairs:?} and {terms:?}");
    }
}

/// One message at the clock.
fn send(b: &mut Board, serial: u32, pairs: Pairs) {
    b.take(Frame::Message { time: b.log.clock, serial, form: routine(pairs.len()), pairs: pairs.to_vec() });
}

// ---- worked ones

#[test]
fn worked() {
    let b = Board::c10();
    assert_eq!([2, 3, 4].map(|serial| b.closeness(serial, 0)), [Ok((200, 0)), Ok((400, 0)), Ok((40, 0))]);
    assert_eq!(b.closeness(1, 0), Err(13));
}

/// Whatever the factor between counts and weights.
#[test]
fn in_proportion() {
    for (pairs, terms) in [
        (&[(5, 3), (6, 6), (9, 9)][..], &[(5, 1), (6, 2), (9, 3)][..]),
        (&[(5, 1), (6, 2), (9, 3)], &[(5, 1), (6, 2), (9, 3)]),
        (&[(5, 1), (6, 2), (9, 3)], &[(5, 5), (6, 10), (9, 15)]),
        (&[(5, 2), (6, 4), (9, 6)], &[(5, 3), (6, 6), (9, 9)]),
        (&[(5, 255), (6, 17)], &[(5, 15), (6, 1)]),
        (&[(0, 1)], &[(0, 1)]),
        (&[(0, 1)], &[(0, 15)]),
        (&[(1023, 255)], &[(1023, 1)]),
        (&[(1023, 255)], &[(1023, 13)]),
        (&even(500, 8, 255), &even(500, 8, 15)),
        (&even(500, 8, 1), &even(500, 8, 14)),
    ] {
        assert_close(pairs, terms, (1000, 0));
    }
}

/// Counts 3, 6 and 9 and weights 1, 2 and 3, but for one thing.
#[test]
fn nearly_in_proportion() {
    let (pairs, terms) = ([(5, 3), (6, 6), (9, 9)], [(5, 1), (6, 2), (9, 3)]);
    assert_close(&pairs, &terms[..2], (357, 90));
    assert_close(&pairs[..2], &terms, (357, 90));
    assert_close(&pairs, &terms[1..], (928, 936));
    assert_close(&pairs[1..], &terms, (928, 936));
    assert_close(&pairs[..2], &terms[1..], (246, 90));
    assert_close(&[(5, 3), (6, 6), (9, 10)], &terms, (997, 1090));
    assert_close(&[(5, 3), (6, 6), (9, 8)], &terms, (996, 1104));
    assert_close(&[(5, 4), (6, 6), (9, 9)], &terms, (993, 34));
    assert_close(&pairs, &[(5, 1), (6, 2), (9, 4)], (982, 2628));
    // the same amounts under another term, and in another order
    assert_close(&pairs, &[(5, 1), (6, 2), (10, 3)], (127, 972));
    assert_close(&pairs, &[(5, 3), (6, 2), (9, 1)], (510, 360));
    // as many and as high as there can be, but that one weight or one count is one less
    assert_close(&even(500, 8, 255), &[&even(500, 7, 15)[..], &[(507, 14)]].concat(), (999, 466_099_200));
    assert_close(&[&even(500, 7, 255)[..], &[(507, 254)]].concat(), &even(500, 8, 15), (999, 933_868_800));
}

/// Without a shared term both numbers are 0; with one that hardly matters only the quotient is.
#[test]
fn far_apart() {
    assert_close(&[(5, 1)], &[(6, 1)], (0, 0));
    assert_close(&even(500, 32, 255), &even(492, 8, 15), (0, 0));
    assert_close(&even(500, 32, 255), &even(532, 8, 15), (0, 0));
    assert_close(&[(5, 1), (9, 255)], &[(5, 1), (6, 1)], (0, 1000));
    assert_close(&[(5, 255), (9, 1)], &[(8, 15), (9, 1)], (0, 1000));
}

/// Pairs of count 255 and terms of weight 15, as many as there can be, of which eight, five or one are shared, wherever they stand. There are
/// remainders that take all of 32 bits.
#[test]
fn greatest_numbers() {
    for first in [500, 512, 524] {
        assert_close(&even(500, 32, 255), &even(first, 8, 15), (250, 0));
    }
    for first in [497, 527] {
        assert_close(&even(500, 32, 255), &even(first, 8, 15), (97, 2_457_945_000));
    }
    for first in [493, 531] {
        assert_close(&even(500, 32, 255), &even(first, 8, 15), (3, 3_394_305_000));
    }
    assert_close(&even(500, 16, 255), &even(508, 8, 15), (500, 0));
    assert_close(&even(500, 17, 255), &even(509, 8, 15), (470, 1_170_450_000));
    assert_close(&even(500, 32, 255), &even(531, 1, 15), (31, 117_045_000));
}

/// Every byte of an answer: two numbers of four bytes, the most significant first; those past it stay, and what it held before doesn't matter.
#[test]
fn the_answer() {
    let mut b = Board::of(&[&even(500, 32, 255)]);
    b.register(0, &even(497, 8, 15));
    b.register(31, &even(0, 8, 15));
    for (number, want) in [(0, [0, 0, 0, 0x61, 0x92, 0x81, 0x43, 0xa8]), (31, [0; 8])] {
        for held in [0x00, 0x3c, 0xff] {
            let mut answer = Lent::new(&[held; CLOSENESS_ANSWER + 7]);
            assert_eq!(engine::closeness_into(&b.state, 1, number, &mut answer), 0);
            assert_eq!(answer.bytes(), [&want[..], &[held; 7]].concat());
        }
    }
}

// ---- which message and which query

/// A message of age T is in force, and a second later it isn't.
#[test]
fn aged() {
    for (life, arrival) in corners() {
        let mut b = Board::new(3, life);
        b.register(0, &[(5, 1)]);
        b.take(Frame::Tick { time: arrival });
        send(&mut b, 2, &[(5, 1), (6, 1)]);
        for (time, want) in [(arrival, Ok((500, 0))), (arrival + life, Ok((500, 0))), (arrival + life + 1, Err(13))] {
            b.take(Frame::Tick { time });
            assert_eq!(b.closeness(2, 0), want, "T = {life}, arrival at {arrival}, at {time}");
        }
    }
}

/// The last N messages are in force, wherever they stand in the ring and around its end, and hardly two are as close; the one before them was pushed
/// out, and the one after them is yet to come.
#[test]
fn pushed_out() {
    for (capacity, earlier) in [1, 2, 5, 256].into_iter().flat_map(|n| [0, 1, 250, 254, 255, 256, 257, 258, 600].map(|earlier| (n, earlier))) {
        let mut b = Board::new(capacity, 65535);
        b.register(7, &[(5, 1), (6, 3)]);
        for i in 1..=earlier + capacity {
            b.message(Form::Plain, &[(5, 1 + i % 251), (6, 1 + i % 255)]);
        }
        for serial in earlier + 1..=earlier + capacity {
            assert!(b.closeness(serial, 7).is_ok(), "N = {capacity}, {earlier} messages before, serial {serial}");
        }
        for serial in [earlier, earlier + capacity + 1] {
            assert_eq!(b.closeness(serial, 7), Err(13), "N = {capacity}, {earlier} messages before, serial {serial}");
        }
    }
}

/// A cancelled message, with each number of pairs: neither by its serial nor by what the engine notes in its place, the serial and 2 to the 20 for
/// each pair. Sent again, what was sent last counts, also where it is cancelled once more.
#[test]
fn cancelled() {
    for (serial, n) in [0, 7, LAST_SERIAL].into_iter().flat_map(|serial| (1..=32).map(move |n| (serial, n))) {
        let mut b = Board::new(8, 100);
        b.register(0, &[(5, 1)]);
        for turn in 0..2 {
            send(&mut b, serial, &even(5, n, 9));
            assert!(b.closeness(serial, 0).is_ok());
            b.cancel(serial);
            for noted in (0..=64).chain([4095]) {
                assert_eq!(b.closeness(serial + (noted << 20), 0), Err(13), "serial {serial} and {noted}, {n} pairs, turn {turn}");
            }
        }
        send(&mut b, serial, &[(5, 3), (6, 4)]);
        assert_eq!(b.closeness(serial, 0), Ok((360, 0)));
    }
}

/// Of a full window each message in turn is cancelled: the others stay what they were.
#[test]
fn cancelled_among_others() {
    let mut b = Board::new(6, 1000);
    b.register(0, &[(5, 2), (6, 1)]);
    (1..=9).for_each(|count| b.message(Form::Graded(count % 3), &[(5, count), (6, 1)]));
    for gone in [9, 4, 6, 5, 8, 7] {
        b.cancel(gone);
        assert_eq!((4..=9).filter(|&serial| b.closeness(serial, 0).is_ok()).count(), b.log.in_force().len());
    }
    assert!(b.log.in_force().is_empty());
}

/// Serials that no message has, above all serials too: those that differ from one in force in a bit past the 20th.
#[test]
fn unknown_serials() {
    let mut b = Board::new(8, 100);
    b.register(0, &[(5, 1)]);
    for serial in [0, 1, 0x5_5555, LAST_SERIAL] {
        send(&mut b, serial, &[(5, 1)]);
        assert_eq!(b.closeness(serial, 0), Ok((1000, 0)));
        for bit in 20..32 {
            assert_eq!(b.closeness(serial | 1 << bit, 0), Err(13), "serial {serial}, bit {bit}");
        }
    }
    for serial in [2, 0x5_5554, LAST_SERIAL - 1, LAST_SERIAL + 2, u32::MAX] {
        assert_eq!(b.closeness(serial, 0), Err(13), "serial {serial}");
    }
}

/// Each number has its own query; those not in use are refused, and those that are none, also where they differ from one in use in a bit past the
/// fifth. A number dropped is refused, and another query under it is what counts then.
#[test]
fn numbers() {
    let mut b = Board::of(&[&[(5, 1), (6, 2)]]);
    for number in 0..32 {
        assert_eq!(b.closeness(1, number), Err(10));
        b.register(number as usize, &[(5, 1 + number / 4), (6, 1 + number % 4)]);
        for bit in 5..32 {
            assert_eq!(b.closeness(1, number | 1 << bit), Err(10), "number {number}, bit {bit}");
        }
    }
    let close: Vec<_> = (0..32).map(|number| b.closeness(1, number)).collect();
    assert_eq!((close[1], close[7], close[31]), (Ok((1000, 0)), Ok((1000, 0)), Ok((640, 0))));
    assert_eq!([32, 33, u32::MAX].map(|number| b.closeness(1, number)), [Err(10); 3]);
    for number in [0, 17, 31] {
        b.drop(number);
        assert_eq!(b.closeness(1, number as u32), Err(10));
        b.register(number, &[(6, 1)]);
        assert_eq!(b.closeness(1, number as u32), Ok((800, 0)));
    }
}

// ---- refusals

/// A closeness with everything wrong that can be, mended from one row to the next: of what is wrong the first is told.
#[test]
fn refused_in_order() {
    let b = Board::c10();
    for (state, answer, serial, number, want) in
        [(STATE + 1, 7, 1, 31, 12), (STATE, 7, 1, 31, 12), (STATE, 8, 1, 31, 13), (STATE, 8, 3, 31, 10), (STATE, 8, 3, 0, 0)]
    {
        let mut bytes = b.state.bytes().to_vec();
        bytes.resize(state, 0);
        assert_eq!(engine::closeness_into(&Lent::new(&bytes), serial, number, &mut Lent::new(&vec![0xa5; answer])), want);
    }
}

/// Only state memory of its length is taken, and an answer of at least its length. Of any serial and number 12 is told first.
#[test]
fn lengths_lent() {
    let b = Board::c10();
    for (serial, number, otherwise) in [(3, 0, 0), (1, 0, 13), (u32::MAX, 0, 13), (3, 1, 10), (3, 32, 10), (1, 1, 13), (1 << 20, 32, 13)] {
        b.assert_lengths(CLOSENESS_ANSWER, otherwise, |state, answer| engine::closeness_into(state, serial, number, answer));
    }
}

// ---- all small ones, and random ones

/// Every message and every query of up to three terms with amounts up to 4.
#[test]
fn every_small_one() {
    let small = |i: u32| [(5, i % 5), (6, i / 5 % 5), (9, i / 25)].into_iter().filter(|p| p.1 > 0).collect::<Vec<_>>();
    let all: Vec<Vec<(u32, u32)>> = (1..125).map(small).collect();
    let (mut alike, mut apart) = (0, 0);
    for queries in all.chunks(32) {
        let mut b = Board::of(&all.iter().map(|p| &p[..]).collect::<Vec<_>>());
        queries.iter().enumerate().for_each(|(number, terms)| b.register(number, terms));
        for (serial, number) in (1..125).flat_map(|serial| (0..queries.len() as u32).map(move |number| (serial, number))) {
            let close = b.closeness(serial, number).expect("a message in force and a query in use");
            alike += (close == (1000, 0)) as usize;
            apart += (close == (0, 0)) as usize;
        }
    }
    // in proportion: 3 × 16 of one term, 3 × 32 of two and 88 of three; without a shared term: 6 × 4 × 4 of one and one, 6 × 4 × 16 of one and two
    assert_eq!((alike, apart), (232, 480));
}

/// What pairs of a message and a query have to be for the test to mean anything.
fn sorts((quotient, remainder): (u32, u32)) -> [bool; 6] {
    [
        quotient == 1000,
        quotient == 999,
        (1..999).contains(&quotient) && remainder > 0,
        (1..999).contains(&quotient) && remainder == 0,
        quotient == 0 && remainder > 0,
        quotient == 0 && remainder == 0,
    ]
}

/// Queries made in proportion to messages, these or those with one thing off then, or any: each message to each query.
#[test]
fn random_pairs() {
    let mut r = Random::new(71);
    let mut met = [0usize; 6];
    for round in 0..60 {
        let (most, terms, base) = ([8, 3, 32][round % 3], [9, 40, 1024][round / 3 % 3], [1, 4, 15, 255][round % 4]);
        let mut b = Board::new(64, 1000);
        for number in 0..32 {
            let mut pairs = rising(&mut r, most, 0..terms, base);
            let factor = 1 + r.below(255 / base) as u32;
            pairs.iter_mut().for_each(|p| p.1 *= factor);
            let mut query = near(&mut r, &pairs);
            match r.below(5) {
                0 => spoil(&mut r, &mut pairs, 32, 255),
                1 => spoil(&mut r, &mut query, 8, 15),
                2 => query = rising(&mut r, 8, 0..terms, 15),
                _ => {}
            }
            let all: Vec<Form> = forms(pairs.len()).collect();
            b.message(all[r.below(all.len() as u64) as usize], &pairs);
            b.register(number, &query);
        }
        for (serial, number) in (1..=32).flat_map(|serial| (0..32).map(move |number| (serial, number))) {
            let close = b.closeness(serial, number).expect("a message in force and a query in use");
            met.iter_mut().zip(sorts(close)).for_each(|(count, is)| *count += is as usize);
        }
    }
    assert!(met.iter().all(|count| *count > 40), "hardly met: {met:?}");
}

/// Memory that no call left, in one word or in two: a message without a pair or a count, a query without a term or a weight, and sizes above all.
/// It is safe and leaves the state as it is, and no quotient is above 1,000. What else it answers isn't fixed.
#[test]
fn foreign_memory() {
    let mut b = Board::new(3, 100);
    b.register(0, &[(5, 1)]);
    send(&mut b, 7, &[(5, 1)]);
    let (slots, record) = (engine::window(b.state.bytes()), engine::record_at(0)..engine::record_at(1));
    let at: Vec<usize> = (0..engine::HEADER).chain(slots[0].words()).chain(record).collect();
    let words = [0, 1, 7, 16, 33, 63, 64, 65, 96, 257, 1 << 20, 1 << 22, 33 << 20, 1 << 31, u32::MAX];
    let mut met = [0usize; 15];
    for (&i, &j) in at.iter().flat_map(|i| at.iter().map(move |j| (i, j))) {
        for word in words {
            let mut bytes = b.state.bytes().to_vec();
            [i, j].into_iter().for_each(|i| bytes[4 * i..4 * i + 4].copy_from_slice(&u32::to_le_bytes(word)));
            let mut answer = Lent::new(&[0xa5; CLOSENESS_ANSWER]);
            let number = engine::closeness_into(&Lent::new(&bytes), 7, 0, &mut answer);
            assert!(number != 0 || engine::word(answer.bytes(), 0) <= 1000);
            met[number as usize] += 1;
        }
    }
    assert!([0, 10, 13].iter().all(|&number| met[number] > 0), "hardly met: {met:?}");
}
