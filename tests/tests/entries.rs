//! Single calls: refusals in their order, lengths lent, the writer, and memory that no call left.

use fennelrake_tests::engine::{self, Fields, Lent, CLOSENESS_ANSWER, FRAME_ANSWER, LINE, LIST_ANSWER, LONGEST_FRAME, SEARCH_ANSWER, STATE};
use fennelrake_tests::paper::{judge_screen, Form, Frame};
use fennelrake_tests::random::Random;

fn fresh() -> Lent {
    let mut state = Lent::new(&vec![0; STATE]);
    assert_eq!(engine::start(&mut state, 3, 100), 0);
    state
}

#[test]
fn starting() {
    for (capacity, life, len, want) in [
        (0, 1, STATE, 11), (257, 1, STATE, 11), (1, 0, STATE, 11), (1, 65536, STATE, 11), (u32::MAX, u32::MAX, STATE, 11),
        (0, 0, STATE - 1, 11), (1, 1, STATE - 1, 12), (256, 65535, STATE + 1, 12), (1, 1, 0, 12), (1, 1, STATE, 0), (256, 65535, STATE, 0),
    ] {
        let mut state = Lent::new(&vec![0x77; len]);
        assert_eq!(engine::start(&mut state, capacity, life), want, "N {capacity} T {life} length {len}");
        assert_eq!(want != 0, state.bytes().iter().all(|&b| b == 0x77), "only an accepted start writes");
    }
}

#[test]
fn lengths_lent() {
    let tick = Frame::Tick { time: 1 }.bytes();
    for (state_len, answer_len, want) in [
        (STATE, FRAME_ANSWER, 0), (STATE, FRAME_ANSWER - 1, 12), (STATE, 0, 12), (STATE - 1, FRAME_ANSWER, 12), (0, 0, 12), (STATE + 4, 64, 12),
    ] {
        let mut bytes = fresh().bytes().to_vec();
        bytes.resize(state_len, 0);
        let (mut state, mut answer) = (Lent::new(&bytes), Lent::new(&vec![0x33; answer_len]));
        assert_eq!(engine::frame_into(&mut state, &tick, &mut answer), want);
        // 12 comes before what is wrong with the frame itself
        assert_eq!(engine::frame_into(&mut state, &[], &mut answer), if want == 12 { 12 } else { 1 });
    }
    assert_eq!(engine::list(&Lent::new(&[0; 8]), 0), Err(12));
    for number in [0, 31, 32, u32::MAX] {
        assert_eq!(engine::list(&fresh(), number), Err(10));
    }
    // a number in use, one that isn't, and one that can't be: 12 comes first for each
    let mut state = fresh();
    let register = Frame::Register { time: 0, number: 7, k: 1, terms: vec![(5, 1)] }.bytes();
    assert_eq!(engine::frame(&mut state, &register).number, 0);
    for number in [7, 8, 32] {
        for (len, want) in [(LIST_ANSWER, if number == 7 { 0 } else { 10 }), (LIST_ANSWER - 1, 12), (8, 12), (0, 12)] {
            let mut answer = Lent::new(&vec![0x33; len]);
            assert_eq!(engine::list_into(&state, number, &mut answer), want, "number {number}, {len} bytes");
        }
        for len in [0, 4, STATE - 1, STATE + 1] {
            let mut bytes = state.bytes().to_vec();
            bytes.resize(len, 0);
            assert_eq!(engine::list(&Lent::new(&bytes), number), Err(12));
        }
    }
    assert_eq!(engine::postings(&Lent::new(&[0; 8]), 2000, 0), Err(12));
    assert_eq!(engine::postings(&fresh(), 1024, 0), Err(5));
    assert_eq!(engine::postings(&fresh(), 1023, 0), Ok(vec![]));
}

/// The worked frames C4 to C7; a cancellation, whose serial no fill follows; an urgent message of one pair, without a fill too; and the same of kind
/// 7, with a bit more for the number of pairs and seven that fill it up.
#[test]
fn worked_frames() {
    let state = fresh();
    let number = |bytes: &[u8]| engine::frame(&mut state.clone(), bytes).number;
    assert_eq!(Frame::Tick { time: 120 }.bytes(), [0x20, 0, 0, 7, 0x80]);
    assert_eq!(number(&[0x20, 0, 0, 7, 0x80]), 0);
    assert_eq!(number(&[0x20, 0, 0, 7, 0x81]), 4);
    assert_eq!(number(&[0x20, 0, 0, 7]), 1);
    assert_eq!(number(&[0x20, 0, 0, 7, 0x80, 0]), 3);
    assert_eq!(number(&[0x40, 0, 0, 0, 0, 0]), 10);
    assert_eq!(number(&[0x30, 0, 0, 0, 0, 9, 1, 0x44, 9, 0x20]), 0);
    assert_eq!(number(&[0x10, 0, 0, 1, 0x40, 0, 2, 0, 0x14, 4]), 0);
    assert_eq!(Frame::Cancel { time: 40, serial: 1 }.bytes(), [0x50, 0, 0, 2, 0x80, 0, 1]);
    assert_eq!(number(&[0x50, 0, 0, 2, 0x80, 0, 1]), 13);
    assert_eq!(number(&[0x50, 0, 0, 2, 0x80, 0]), 3);
    assert_eq!(number(&[0x50, 0, 0, 2, 0x80, 0, 1, 0]), 3);
    let vital = |form| Frame::Message { time: 10, serial: 1, form, pairs: vec![(5, 1)] }.bytes();
    assert_eq!(vital(Form::Graded(2)), [0x60, 0, 0, 0, 0xa0, 0, 1, 0x80, 5, 1]);
    assert_eq!(number(&[0x60, 0, 0, 0, 0xa0, 0, 1, 0x80, 5, 1]), 0);
    assert_eq!(number(&[0x60, 0, 0, 0, 0xa0, 0, 1, 0xc0, 5, 1]), 14);
    assert_eq!(number(&[0x60, 0, 0, 0, 0xa0, 0, 1, 0x80, 5]), 3);
    assert_eq!(number(&[0x60, 0, 0, 0, 0xa0, 0, 1, 0x80, 5, 1, 0]), 3);
    assert_eq!(vital(Form::Long(2)), [0x70, 0, 0, 0, 0xa0, 0, 1, 0x80, 2, 0x80, 0x80]);
    assert_eq!(number(&[0x70, 0, 0, 0, 0xa0, 0, 1, 0x80, 2, 0x80, 0x80]), 0);
    assert_eq!(number(&[0x70, 0, 0, 0, 0xa0, 0, 1, 0xc0, 2, 0x80, 0x80]), 14);
    assert_eq!(number(&[0x70, 0, 0, 0, 0xa0, 0, 1, 0x80, 2, 0x80, 0]), 5);
    assert_eq!(number(&[0x70, 0, 0, 0, 0xa0, 0, 1, 0x80, 2, 0x80, 0x81]), 4);
    assert_eq!(number(&[0x70, 0, 0, 0, 0xa0, 0, 1, 0x80, 2, 0x80]), 3);
    assert_eq!(number(&[0x70, 0, 0, 0, 0xa0, 0, 1, 0x80, 2, 0x80, 0x80, 0]), 3);
    // kind 6 for 7, and 7 for 6: the length is that of a number of pairs of the other width
    assert_eq!(number(&[0x60, 0, 0, 0, 0xa0, 0, 1, 0x80, 2, 0x80, 0x80]), 3);
    assert_eq!(number(&[0x70, 0, 0, 0, 0xa0, 0, 1, 0x80, 5, 1]), 3);
    assert_eq!(number(&[0x80, 0, 0, 0, 0xa0, 0, 1, 0x80, 2, 0x80, 0x80]), 2);
}

/// A message of either kind that says an urgency, with everything wrong that can be, mended from one row to the next: of what is wrong the first is
/// told.
#[test]
fn an_urgent_message_refused_in_order() {
    for form in [Form::Graded, Form::Long] {
        let mut state = fresh();
        let message = |time, serial, form, pairs: &[(u32, u32)]| Frame::Message { time, serial, form, pairs: pairs.to_vec() }.bytes();
        assert_eq!(engine::frame(&mut state, &message(50, 1, Form::Plain, &[(5, 1)])).number, 0);
        for (mended, number) in [1, 2, 3, 4, 14, 5, 6, 7, 8, 0].into_iter().enumerate() {
            let wrong = |place: usize, bad: u32, good: u32| if mended <= place { bad } else { good };
            let pairs = [(5, wrong(5, 0, 1)), (wrong(6, 5, 6), 1)];
            let mut bytes = message(wrong(7, 49, 50), wrong(8, 1, 2), form(wrong(4, 3, 2)), &pairs);
            // the last bit of those that fill up 98 or 99
            *bytes.last_mut().unwrap() |= wrong(3, 1, 0) as u8;
            bytes.resize(wrong(0, 4, wrong(2, 14, 13)) as usize, 0);
            bytes[0] = wrong(1, 0x80, bytes[0] as u32) as u8;
            assert_eq!(engine::frame(&mut state, &bytes).number, number, "{bytes:02x?}");
        }
    }
}

/// Every kind, lengths around each boundary, and bytes of one value: the engine agrees with the reader written from the document.
#[test]
fn any_bytes() {
    let state = fresh();
    let mut r = Random::new(11);
    for kind in 0..16u8 {
        for len in 0..90usize {
            for fill in [0x00, 0xff, 0x55] {
                let mut bytes = vec![fill; len];
                if let Some(first) = bytes.first_mut() {
                    *first = kind << 4 | *first & 15;
                }
                check(&state, &bytes);
            }
            for _ in 0..20 {
                let mut bytes = r.bytes(len);
                if let Some(first) = bytes.first_mut() {
                    *first = kind << 4;
                }
                check(&state, &bytes);
            }
        }
    }
    check(&state, &r.bytes(4096));
}

/// Messages of kind 7 with every number of pairs: cut anywhere, longer by a byte, under each kind, and with each bit another. The engine agrees as
/// above.
#[test]
fn long_messages_altered() {
    let state = fresh();
    for n in 1..=32 {
        let pairs = (0..n).map(|i| (31 * i + 3, 255 - 8 * i)).collect();
        let bytes = Frame::Message { time: 77, serial: 0xf_fffe, form: Form::Long(n % 3), pairs }.bytes();
        assert_eq!(engine::frame(&mut state.clone(), &bytes).number, 0);
        (0..bytes.len()).for_each(|len| check(&state, &bytes[..len]));
        check(&state, &[&bytes[..], &[0]].concat());
        for i in 0..8 * bytes.len() {
            let mut altered = bytes.clone();
            altered[i / 8] ^= 0x80 >> (i % 8);
            check(&state, &altered);
        }
        for kind in 0..16 {
            let mut altered = bytes.clone();
            altered[0] = kind << 4 | altered[0] & 15;
            check(&state, &altered);
        }
    }
}

fn check(state: &Lent, bytes: &[u8]) {
    let number = engine::frame(&mut state.clone(), bytes).number;
    match Frame::read(bytes) {
        Err(want) => assert_eq!(number, want, "{bytes:02x?}"),
        Ok(f) => {
            // a fresh engine has nothing to drop or to cancel
            let want = match f {
                Frame::Drop { .. } => 10,
                Frame::Cancel { .. } => 13,
                _ => 0,
            };
            assert_eq!(number, want, "{f:?}");
            assert_eq!(f.bytes(), bytes, "one set of fields for each frame");
        }
    }
}

#[test]
fn writer() {
    let mut r = Random::new(12);
    let mut met = [0usize; 15];
    // of more than 16 pairs: written, and refused since the kind has no more
    let mut long = [0usize; 2];
    for _ in 0..30000 {
        let n = r.pick(2, 36, 18) as usize;
        let mut terms: Vec<u16> = (0..n).map(|_| r.below(1040) as u16).collect();
        if !r.one_in(6) {
            terms.sort_unstable();
            terms.dedup();
        }
        let amounts: Vec<u8> = terms.iter().map(|_| if r.one_in(60) { 0 } else { 1 + r.pick(3, 255, 15) as u8 }).collect();
        let f = Fields {
            kind: if r.one_in(20) { r.below(10) as u32 } else { 1 + r.below(7) as u32 },
            time: r.next() as u32,
            serial: r.pick(9, 1 << 32, 1 << 20) as u32,
            urgency: r.pick(9, 1 << 32, 4) as u32,
            number: r.pick(9, 1 << 32, 32) as u32,
            k: r.below(18) as u32,
            pairs: if r.one_in(12) { r.below(40) as u32 } else { terms.len() as u32 },
            terms,
            amounts,
        };
        let want = expected(&f);
        let need = want.as_ref().map_or(0, |w| w.len());
        let room = if r.one_in(10) && need > 0 { need - 1 } else { need + r.below(4) as usize };
        let want = want.and_then(|w| if w.len() <= room { Ok(w) } else { Err(12) });
        let got = engine::write(&f, room);
        assert_eq!(got, want, "{f:?}");
        met[*got.as_ref().err().unwrap_or(&0) as usize] += 1;
        if f.pairs > 16 {
            long[0] += (f.kind == 7 && got.is_ok()) as usize;
            long[1] += ([1, 6].contains(&f.kind) && got == Err(5)) as usize;
        }
    }
    for number in [0, 2, 14, 5, 6, 12] {
        assert!(met[number] > 20, "number {number} was hardly met: {met:?}");
    }
    assert!(long.iter().all(|count| *count > 20), "messages of more than 16 pairs were hardly met: {long:?}");
}

/// The bytes that the fields make, or 2, 14, 5 or 6.
fn expected(f: &Fields) -> Result<Vec<u8>, u32> {
    let pairs = |most: usize, top: u32| -> Result<Vec<(u32, u32)>, u32> {
        let n = f.pairs as usize;
        if n == 0 || n > most || n > f.terms.len() || n > f.amounts.len() {
            return Err(5);
        }
        let ps: Vec<(u32, u32)> = (0..n).map(|i| (f.terms[i] as u32, f.amounts[i] as u32)).collect();
        if ps.iter().any(|p| p.0 > 1023 || p.1 == 0 || p.1 > top) {
            return Err(5);
        }
        Ok(ps)
    };
    let rising = |ps: &[(u32, u32)]| -> Result<(), u32> { if ps.windows(2).any(|w| w[0].0 >= w[1].0) { Err(6) } else { Ok(()) } };
    let frame = match f.kind {
        6 | 7 if f.urgency > 2 => return Err(14),
        1 | 6 | 7 => {
            if f.serial > 0xf_ffff {
                return Err(5);
            }
            let ps = pairs(if f.kind == 7 { 32 } else { 16 }, 255)?;
            rising(&ps)?;
            Frame::Message { time: f.time, serial: f.serial, form: form(f.kind, f.urgency), pairs: ps }
        }
        2 => Frame::Tick { time: f.time },
        3 => {
            if f.number > 31 || f.k == 0 || f.k > 16 {
                return Err(5);
            }
            let ps = pairs(8, 15)?;
            rising(&ps)?;
            Frame::Register { time: f.time, number: f.number as usize, k: f.k as usize, terms: ps }
        }
        4 if f.number > 31 => return Err(5),
        4 => Frame::Drop { time: f.time, number: f.number as usize },
        5 if f.serial > 0xf_ffff => return Err(5),
        5 => Frame::Cancel { time: f.time, serial: f.serial },
        _ => return Err(2),
    };
    Ok(frame.bytes())
}

/// The form of a message by its kind.
fn form(kind: u32, urgency: u32) -> Form {
    match kind {
        1 => Form::Plain,
        6 => Form::Graded(urgency),
        7 => Form::Long(urgency),
        _ => panic!("{kind} is no kind of message"),
    }
}

/// Urgencies above 2, those too whose last two bits are a grade's.
const NO_URGENCY: [u32; 7] = [3, 4, 7, 256, 1 << 16, 1 << 31, u32::MAX];

/// The writer with everything wrong in a message of either kind that says an urgency, mended from one row to the next.
#[test]
fn an_urgent_message_not_written_in_order() {
    for (kind, urgency) in [6, 7].into_iter().flat_map(|kind| NO_URGENCY.map(|urgency| (kind, urgency))) {
        for (mended, number) in [2, 14, 5, 6, 12, 0].into_iter().enumerate() {
            let wrong = |place: usize, bad: u32, good: u32| if mended <= place { bad } else { good };
            let f = Fields {
                kind: wrong(0, 8, kind),
                serial: wrong(2, 1 << 20, 1),
                urgency: wrong(1, urgency, 2),
                pairs: 2,
                terms: vec![5, wrong(3, 5, 6) as u16],
                amounts: vec![1, 1],
                ..Fields::default()
            };
            assert_eq!(engine::write(&f, wrong(4, 12, 13) as usize).err().unwrap_or(0), number, "{f:?}");
        }
    }
}

/// Kinds that have no urgency make the same frame whatever it is.
#[test]
fn urgencies_not_looked_at() {
    for kind in 1..=5 {
        let with = |urgency| Fields { kind, urgency, time: 7, serial: 9, number: 3, k: 2, pairs: 1, terms: vec![5], amounts: vec![1] };
        let frame = engine::write(&with(0), LONGEST_FRAME).expect("a frame that can be written");
        assert_eq!(frame[0] >> 4, kind as u8);
        for urgency in [1, 2].into_iter().chain(NO_URGENCY) {
            assert_eq!(engine::write(&with(urgency), LONGEST_FRAME).as_deref(), Ok(&frame[..]), "kind {kind}, urgency {urgency}");
        }
    }
}

/// Messages of every kind, of each urgency and number of pairs: written, read and taken in, with the kind and the urgency that they were given.
#[test]
fn every_kind_of_message() {
    for (kind, urgency) in [(1, 0), (6, 0), (6, 1), (6, 2), (7, 0), (7, 1), (7, 2)] {
        let (head, most) = match kind {
            1 => (60, 16),
            6 => (62, 16),
            _ => (63, 32),
        };
        for n in 1..=most {
            let (terms, amounts): (Vec<u16>, Vec<u8>) = (0..n).map(|i| (32 * i as u16 + 7, 255 - i as u8)).unzip();
            let f = Fields { kind, urgency, time: u32::MAX, serial: 0xf_ffff, pairs: n, terms, amounts, ..Fields::default() };
            let bytes = engine::write(&f, LONGEST_FRAME).expect("a frame that can be written");
            let pairs = f.terms.iter().zip(&f.amounts).map(|(&t, &a)| (t as u32, a as u32)).collect();
            let want = Frame::Message { time: u32::MAX, serial: 0xf_ffff, form: form(kind, urgency), pairs };
            assert_eq!(Frame::read(&bytes), Ok(want));
            assert_eq!((bytes[0] >> 4, bytes.len()), (kind as u8, (head + 18 * n as usize).div_ceil(8)));
            let mut state = fresh();
            assert_eq!(engine::frame(&mut state, &bytes).number, 0);
            assert_eq!(engine::window(state.bytes())[0].head, [u32::MAX, 0xf_ffff, n + 64 * urgency]);
        }
    }
}

/// How many pairs the writer takes, by the kind of message: none and one more than that are 5, and so is a number whose last bits would do.
#[test]
fn numbers_of_pairs() {
    for (kind, most) in [(1, 16), (6, 16), (7, 32)] {
        for n in (0..=40).chain([48, 64, 255, 256, 257, 272, 1 << 16, (1 << 16) + 1, 1 << 31, u32::MAX]) {
            let (terms, amounts) = (0..n.min(300)).map(|i| (3 * i as u16, 9)).unzip();
            let f = Fields { kind, pairs: n, terms, amounts, ..Fields::default() };
            let want = if (1..=most).contains(&n) { 0 } else { 5 };
            assert_eq!(engine::write(&f, LONGEST_FRAME).err().unwrap_or(0), want, "kind {kind}, {n} pairs");
        }
    }
}

/// The longest frame there is takes all of its bytes: with one fewer it is 12.
#[test]
fn the_longest_frame() {
    let (terms, amounts) = (992..1024).map(|t| (t, 255)).unzip();
    let f = Fields { kind: 7, time: u32::MAX, serial: 0xf_ffff, urgency: 2, pairs: 32, terms, amounts, ..Fields::default() };
    assert_eq!(engine::write(&f, LONGEST_FRAME - 1), Err(12));
    let bytes = engine::write(&f, LONGEST_FRAME).expect("a frame that can be written");
    assert_eq!((bytes.len(), bytes.last()), (LONGEST_FRAME, Some(&0xfe)), "639 bits, the last of them ones");
    let mut state = fresh();
    assert_eq!(engine::frame(&mut state, &bytes).number, 0);
    for term in 992..1024 {
        assert_eq!(engine::postings(&state, term, 8), Ok(vec![(0xf_ffff, 353)]), "term {term}");
    }
}

/// State memory that no sequence of calls left: every call is safe, ends, and writes only within what it was lent. What it answers isn't fixed, but for
/// refusals that go by lengths and arguments alone.
#[test]
fn foreign_memory() {
    let mut r = Random::new(13);
    let (mut changed, mut close, mut placed) = (0, 0, 0);
    for round in 0..200 {
        let bytes = foreign(&mut r, round);
        let mut state = Lent::new(&bytes);
        for _ in 0..20 {
            let before = state.clone();
            let mut answer = Lent::new(&r.bytes(FRAME_ANSWER));
            engine::raw::frame(&mut state, &frame(&mut r), &mut answer);
            changed += (before.bytes() != state.bytes()) as usize;
            let mut answer = Lent::new(&r.bytes(LIST_ANSWER));
            engine::raw::list(&state, r.pick(4, 1 << 32, 32) as u32, &mut answer);
            let mut answer = Lent::new(&r.bytes(SEARCH_ANSWER));
            engine::raw::search(&state, &frame(&mut r), &mut answer);
            let (n, term) = (r.pick(4, 64, 2049) as usize, r.pick(8, 1 << 32, 1024) as u32);
            engine::raw::postings(&state, term, &mut Lent::new(&r.bytes(n)));
            // the term of a cell as it stands there, so that there are postings
            let term = engine::any_term(state.bytes(), &mut r);
            engine::raw::postings(&state, term, &mut Lent::new(&r.bytes(n)));
            // and the serial of a slot, so that there is a message
            let (serial, number) = (engine::any_serial(state.bytes(), &mut r), r.pick(4, 1 << 32, 32) as u32);
            close += (engine::raw::closeness(&state, serial, number, &mut Lent::new(&r.bytes(CLOSENESS_ANSWER))) == 0) as usize;
            placed += foreign_screen(&mut r, &state);
        }
        // a start takes nothing from what the memory held
        assert_eq!(engine::start(&mut state, 3, 100), 0);
        assert!(state.bytes() == fresh().bytes(), "a start left something of foreign memory");
    }
    assert!(changed > 200, "hardly a call took a frame into foreign memory: {changed}");
    assert!(close > 20, "hardly a message of foreign memory was close to a query: {close}");
    assert!(placed > 2000, "hardly an entry of foreign memory was placed: {placed}");
}

/// A screen of any number of lines, in output that holds any bytes and is often too short, and of state memory that sometimes hasn't its length: its
/// number goes by these alone. How many lines were placed, which aren't more than that.
fn foreign_screen(r: &mut Random, state: &Lent) -> usize {
    let mut bytes = state.bytes().to_vec();
    if r.one_in(8) {
        bytes.resize(STATE - 1 + 2 * r.below(2) as usize, 0);
    }
    let lines = r.pick(4, 1 << 32, 514) as u32;
    let needed = LINE * lines.min(513) as usize;
    let room = if r.one_in(3) { r.below(needed as u64 + 1) as usize } else { needed + r.below(20) as usize };
    let got = engine::screen_over(&Lent::new(&bytes), lines, &r.bytes(room));
    assert_eq!(got.as_ref().err(), judge_screen(bytes.len() == STATE, lines, room).as_ref().err(), "{lines} lines in {room} bytes");
    let placed = got.map_or(0, |placed| placed.len());
    assert!(placed <= lines as usize, "{placed} lines of {lines}");
    placed
}

fn any_form(r: &mut Random) -> Form {
    form([1, 6, 7][r.below(3) as usize], r.below(3) as u32)
}

/// Four pairs, with this count of term 500; of kind 7 as many as there can be.
fn some_pairs(form: Form, count: u32) -> Vec<(u32, u32)> {
    let more = if matches!(form, Form::Long(_)) { 28 } else { 0 };
    [(0, 1), (1, 255), (500, count)].into_iter().chain((0..more).map(|i| (600 + i, 9))).chain([(1023, 7)]).collect()
}

/// Any bytes; all of one value; a passage's state with bytes or words of it changed.
fn foreign(r: &mut Random, round: usize) -> Vec<u8> {
    if round % 4 == 0 {
        return r.bytes(STATE);
    }
    if round % 4 == 1 {
        return vec![[0x00, 0xff, 0x80, 0x01][round / 4 % 4]; STATE];
    }
    let mut state = Lent::new(&vec![0; STATE]);
    assert_eq!(engine::start(&mut state, 1 + r.below(256) as u32, 1 + r.below(65535) as u32), 0);
    for i in 0..r.below(60) as u32 {
        let (number, terms) = (r.below(32) as usize, vec![(1, 1), (500, 15)]);
        engine::frame(&mut state, &Frame::Register { time: i, number, k: 1 + r.below(16) as usize, terms }.bytes());
        let form = any_form(r);
        engine::frame(&mut state, &Frame::Message { time: i, serial: i, form, pairs: some_pairs(form, 1 + i) }.bytes());
        engine::frame(&mut state, &Frame::Cancel { time: i, serial: r.below(60) as u32 }.bytes());
    }
    let mut bytes = state.bytes().to_vec();
    if round % 4 == 2 {
        for _ in 0..200 {
            let i = r.below(STATE as u64) as usize;
            bytes[i] = r.next() as u8;
        }
    } else {
        // the words of the header, and the first ones of slots and records, steer every loop
        for _ in 0..1 + r.below(20) {
            let i = match r.below(3) {
                0 => r.below(engine::HEADER as u64) as usize,
                1 => engine::any_in_slot(r, 4),
                _ => engine::record_at(r.below(32) as usize) + r.below(20) as usize,
            };
            // the serial word of a cancelled message, too: 1, 32 and 33 times 2 to the 20; and sizes beside an urgency of 1 to 3
            let words = [
                0, 1, 16, 17, 32, 33, 64, 96, 161, 192, 225, 255, 256, 257, 1 << 20, 32 << 20, 33 << 20, 1 << 31, u32::MAX - 1, u32::MAX,
            ];
            let word: u32 = words[r.below(words.len() as u64) as usize];
            bytes[4 * i..4 * i + 4].copy_from_slice(&u32::to_le_bytes(word));
        }
    }
    bytes
}

/// A frame of each kind, with times at both ends of their range, or any bytes.
fn frame(r: &mut Random) -> Vec<u8> {
    let time = [u32::MAX, r.next() as u32, r.below(200) as u32][r.below(3) as usize];
    let number = r.below(32) as usize;
    let f = match r.below(6) {
        0 => Frame::Tick { time },
        1 => Frame::Register { time, number, k: 1 + r.below(16) as usize, terms: vec![(1, 1), (500, 15)] },
        2 => Frame::Drop { time, number },
        3 => {
            let form = any_form(r);
            Frame::Message { time, serial: r.below(1 << 20) as u32, form, pairs: some_pairs(form, 3) }
        }
        4 => Frame::Cancel { time, serial: r.pick(4, 1 << 20, 60) as u32 },
        _ => {
            let n = r.pick(4, 256, LONGEST_FRAME as u64 + 1) as usize;
            return r.bytes(n);
        }
    };
    f.bytes()
}

/// The writer takes nothing from what its output held before, and leaves what is past the frame.
#[test]
fn foreign_output() {
    let mut r = Random::new(14);
    for _ in 0..5000 {
        let kind = r.pick(9, 1 << 32, 8) as u32;
        let n = 1 + r.below(match kind {
            3 => 8,
            7 => 32,
            _ => 16,
        });
        let mut terms: Vec<u16> = (0..n).map(|_| r.below(1024) as u16).collect();
        terms.sort_unstable();
        terms.dedup();
        let amounts: Vec<u8> = terms.iter().map(|_| 1 + r.below(15) as u8).collect();
        let (time, serial, urgency) = (r.next() as u32, r.below(1 << 20) as u32, r.below(3) as u32);
        let (number, k) = (r.below(32) as u32, 1 + r.below(16) as u32);
        let f = Fields { kind, time, serial, urgency, number, k, pairs: terms.len() as u32, terms, amounts };
        let room = r.below(LONGEST_FRAME as u64 + 16) as usize;
        assert_eq!(engine::write_over(&f, &r.bytes(room)), engine::write(&f, room), "{f:?}");
    }
}
