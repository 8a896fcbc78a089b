//! The session program, run on whole inputs: what it prints is compared byte for byte.

use fennelrake_tests::engine::{self, Lent, STATE};
use fennelrake_tests::paper::{Form, Frame, Log};
use fennelrake_tests::source::{Source, Style, ORDER};
use std::fmt::Write as _;
use std::io::{BufRead, BufReader, Read, Write};
use std::path::PathBuf;
use std::process::{Child, Command, Stdio};
use std::sync::mpsc;
use std::time::{Duration, Instant};

fn spawn() -> Child {
    let program = PathBuf::from(env!("CARGO_MANIFEST_DIR")).join("../crates/session/out/session");
    assert!(program.is_file(), "crates/session/out/session isn't there: `make sample` makes it");
    Command::new(program).stdin(Stdio::piped()).stdout(Stdio::piped()).stderr(Stdio::piped()).spawn().expect("crates/session/out/session can't be run")
}

/// All that a session prints for an input. Its status must be 0.
fn session(input: &[u8]) -> String {
    let mut child = spawn();
    let (mut stdin, input) = (child.stdin.take().unwrap(), input.to_vec());
    // a session that ends after its header leaves the rest unread
    let feeding = std::thread::spawn(move || match stdin.write_all(&input) {
        Err(e) if e.kind() != std::io::ErrorKind::BrokenPipe => panic!("the session's input: {e}"),
        _ => {}
    });
    let out = child.wait_with_output().unwrap();
    feeding.join().unwrap();
    assert!(out.status.success(), "the session ended with {}", out.status);
    assert!(out.stderr.is_empty(), "the session complained: {}", String::from_utf8_lossy(&out.stderr));
    String::from_utf8(out.stdout).expect("a session prints ASCII")
}

/// N and T, then frames, each after its length.
fn input(capacity: u32, life: u32, frames: &[Vec<u8>]) -> Vec<u8> {
    let mut all = vec![(capacity - 1) as u8, (life >> 8) as u8, life as u8];
    for f in frames {
        all.push(u8::try_from(f.len()).unwrap());
        all.extend_from_slice(f);
    }
    all
}

fn tick(time: u32) -> Vec<u8> {
    Frame::Tick { time }.bytes()
}

fn message(time: u32, serial: u32, pairs: &[(u32, u32)]) -> Vec<u8> {
    Frame::Message { time, serial, form: Form::Plain, pairs: pairs.to_vec() }.bytes()
}

fn graded(time: u32, serial: u32, urgency: u32, pairs: &[(u32, u32)]) -> Vec<u8> {
    Frame::Message { time, serial, form: Form::Graded(urgency), pairs: pairs.to_vec() }.bytes()
}

fn long(time: u32, serial: u32, urgency: u32, pairs: &[(u32, u32)]) -> Vec<u8> {
    Frame::Message { time, serial, form: Form::Long(urgency), pairs: pairs.to_vec() }.bytes()
}

fn register(time: u32, number: usize, k: usize, terms: &[(u32, u32)]) -> Vec<u8> {
    Frame::Register { time, number, k, terms: terms.to_vec() }.bytes()
}

fn cancel(time: u32, serial: u32) -> Vec<u8> {
    Frame::Cancel { time, serial }.bytes()
}

fn drop_query(time: u32, number: usize) -> Vec<u8> {
    Frame::Drop { time, number }.bytes()
}

/// T = 0 and a cut header end it, whatever follows.
#[test]
fn headers() {
    for cut in [&[][..], &[2], &[2, 0], &[0xff, 0xff]] {
        assert_eq!(session(cut), "0 1 00000000 0\n", "{cut:02x?}");
    }
    for zero in [&[2, 0, 0][..], &[0, 0, 0], &[0xff, 0, 0], &[2, 0, 0, 5, 0x20, 0, 0, 7, 0x80], &[2, 0, 0, 0, 0]] {
        assert_eq!(session(zero), "0 11 00000000 0\n", "{zero:02x?}");
    }
    for fine in [[2, 0, 0x64], [0, 0, 1], [0xff, 0xff, 0xff]] {
        assert_eq!(session(&fine), "", "{fine:02x?}");
    }
}

/// A cut last frame is judged by the bytes present.
#[test]
fn cut_frames() {
    for (rest, want) in [
        (&[5, 0x20, 0, 0, 7][..], "1 1 00000000 0\n"),
        (&[0], "1 1 00000000 0\n"),
        (&[5], "1 1 00000000 0\n"),
        (&[255], "1 1 00000000 0\n"),
        (&[0, 0, 5], "1 1 00000000 0\n2 1 00000000 0\n3 1 00000000 0\n"),
        // what is there is a whole tick, with a length byte that says more; with one that says less the rest is the next frame's length
        (&[6, 0x20, 0, 0, 7, 0x80], "1 0 00000000 0\n"),
        (&[255, 0x20, 0, 0, 7, 0x80], "1 0 00000000 0\n"),
        (&[4, 0x20, 0, 0, 7, 0x80], "1 1 00000000 0\n2 1 00000000 0\n"),
        (&[6, 0x20, 0, 0, 7, 0x80, 0], "1 3 00000000 0\n"),
        (&[9, 0x80, 0, 0, 0, 0], "1 2 00000000 0\n"),
        (&[7, 0x50, 0, 0, 0, 0, 0], "1 3 00000000 0\n"),
        (&[10, 0x60, 0, 0, 0, 0xa0, 0, 1, 0xc0, 5], "1 3 00000000 0\n"),
        (&[11, 0x60, 0, 0, 0, 0xa0, 0, 1, 0xc0, 5, 1], "1 14 00000000 0\n"),
        (&[11, 0x70, 0, 0, 0, 0xa0, 0, 1, 0xc0, 2, 0x80], "1 3 00000000 0\n"),
        (&[12, 0x70, 0, 0, 0, 0xa0, 0, 1, 0xc0, 2, 0x80, 0x80], "1 14 00000000 0\n"),
        (&[12, 0x70, 0, 0, 0, 0xa0, 0, 1, 0x80, 2, 0x80, 0x80], "1 0 00000000 0\n"),
    ] {
        let all = [&[2, 0, 0x64], rest].concat();
        assert_eq!(session(&all), want, "{all:02x?}");
    }
    // nothing of an earlier, longer frame is taken for bytes of a cut one
    let mut all = input(3, 100, &[vec![0x20, 0, 0, 7, 0x80, 0, 0, 0], tick(120)]);
    all.extend([5, 0x20, 0, 0, 7]);
    assert_eq!(session(&all), "1 3 00000000 0\n2 0 00000000 0\n3 1 00000000 0\n");
}

/// The longest frame that a length byte can say.
#[test]
fn long_frames() {
    let mut long = vec![0; 255];
    long[0] = 0x20;
    assert_eq!(session(&input(3, 100, &[long.clone(), tick(1), long])), "1 3 00000000 0\n2 0 00000000 0\n3 3 00000000 0\n");
}

/// A dropped query is marked, and has no list any more.
#[test]
fn dropping() {
    let frames = [register(0, 0, 2, &[(5, 1)]), drop_query(0, 0), drop_query(0, 0), register(0, 0, 1, &[(6, 1)])];
    assert_eq!(session(&input(3, 100, &frames)), "1 0 00000001 0\nQ 0 0\n2 0 00000001 0\n3 10 00000000 0\n4 0 00000001 0\nQ 0 0\n");
    // a departure reaches another query by the same frame
    let frames = [register(0, 0, 2, &[(5, 1)]), register(0, 9, 2, &[(5, 3)]), message(0, 8, &[(5, 1)]), drop_query(101, 0)];
    let want = "1 0 00000001 0\nQ 0 0\n2 0 00000200 0\nQ 9 0\n3 0 00000201 0\nQ 0 1 8 2000\nQ 9 1 8 6000\n4 0 00000201 1\nQ 9 0\n";
    assert_eq!(session(&input(3, 100, &frames)), want);
}

/// Messages cancelled, their serials used again, pushed out and past. Each of them has an impact above every threshold that is safe for the list
/// before it moves, so the marks don't depend on which the engine chose.
#[test]
fn cancelling() {
    let frames = [
        register(0, 0, 2, &[(5, 1), (9, 2)]),
        message(10, 1, &[(5, 3), (9, 4)]),
        message(20, 2, &[(5, 1)]),
        message(30, 3, &[(9, 1), (40, 1)]),
        cancel(40, 1),
        cancel(40, 1),
        message(41, 1, &[(5, 1)]),
        message(42, 4, &[(9, 1)]),
        cancel(39, 3),
        cancel(131, 3),
        tick(142),
        cancel(142, 4),
        tick(143),
    ];
    let want = "1 0 00000001 0\nQ 0 0\n2 0 00000001 0\nQ 0 1 1 4400\n3 0 00000001 0\nQ 0 2 1 4400 2 2000\n4 0 00000001 0\nQ 0 2 1 4400 3 2828\n\
                5 0 00000001 1\nQ 0 2 3 2828 2 2000\n6 13 00000000 0\n7 0 00000001 0\nQ 0 2 3 2828 1 2000\n8 0 00000001 1\nQ 0 2 4 4000 3 2828\n\
                9 7 00000000 0\n10 13 00000000 0\n11 0 00000001 2\nQ 0 1 4 4000\n12 0 00000001 1\nQ 0 0\n13 0 00000000 0\n";
    assert_eq!(session(&input(3, 100, &frames)), want);
}

/// Equal scores ranked by urgency, as messages come, leave for N and are cancelled; urgency 3 is refused, before a count of 0 is. With one term of
/// weight 1 only one threshold is tight, so the marks don't depend on which the engine chose.
#[test]
fn urgencies() {
    let one = &[(5, 1)];
    let frames = [
        register(0, 0, 2, one),
        graded(10, 1, 2, one),
        message(20, 2, one),
        graded(30, 3, 1, one),
        graded(30, 4, 0, one),
        graded(10, 1, 3, &[(5, 0)]),
        graded(30, 5, 3, one),
        graded(40, 5, 2, one),
        cancel(40, 3),
        message(41, 3, one),
        graded(50, 6, 2, &[(5, 1), (6, 1)]),
    ];
    let want = "1 0 00000001 0\nQ 0 0\n2 0 00000001 0\nQ 0 1 1 2000\n3 0 00000001 0\nQ 0 2 1 2000 2 2000\n4 0 00000001 0\nQ 0 2 1 2000 3 2000\n\
                5 0 00000001 1\nQ 0 2 3 2000 4 2000\n6 14 00000000 0\n7 14 00000000 0\n8 0 00000001 1\nQ 0 2 5 2000 3 2000\n\
                9 0 00000001 1\nQ 0 2 5 2000 4 2000\n10 0 00000001 0\nQ 0 2 5 2000 3 2000\n11 0 00000001 1\nQ 0 2 5 2000 3 2000\n";
    assert_eq!(session(&input(3, 100, &frames)), want);
}

/// Messages of up to 32 pairs, by the term that stands 32nd: 353 where all are counted once, 1999 where it is counted 255 times. As above only one
/// threshold is tight.
#[test]
fn long_messages() {
    let once: Vec<(u32, u32)> = (0..32).map(|t| (t, 1)).collect();
    let mostly_one: Vec<(u32, u32)> = (0..32).map(|t| (t, if t == 31 { 255 } else { 1 })).collect();
    let frames = [
        register(0, 0, 2, &[(31, 1)]),
        long(10, 1, 0, &once),
        long(20, 2, 2, &once),
        long(30, 3, 1, &once[..31]),
        message(40, 4, &[(31, 1)]),
        long(45, 5, 3, &once),
        cancel(50, 2),
        long(60, 2, 0, &mostly_one),
        tick(141),
    ];
    let want = "1 0 00000001 0\nQ 0 0\n2 0 00000001 0\nQ 0 1 1 353\n3 0 00000001 0\nQ 0 2 2 353 1 353\n4 0 00000000 0\n\
                5 0 00000001 1\nQ 0 2 4 2000 2 353\n6 14 00000000 0\n7 0 00000001 1\nQ 0 1 4 2000\n\
                8 0 00000001 0\nQ 0 2 4 2000 2 1999\n9 0 00000001 2\nQ 0 1 2 1999\n";
    assert_eq!(session(&input(3, 100, &frames)), want);
}

/// Marks of the first and the last query, their lists in rising number; a mark for each of the 32.
#[test]
fn marks() {
    let (first, last) = (register(0, 0, 1, &[(5, 1)]), register(0, 31, 1, &[(5, 2)]));
    let frames = [last, first, message(1, 1048575, &[(5, 7)]), message(1, 0, &[(6, 7)]), tick(101), tick(102)];
    let want = "1 0 80000000 0\nQ 31 0\n2 0 00000001 0\nQ 0 0\n3 0 80000001 0\nQ 0 1 1048575 2000\nQ 31 1 1048575 4000\n\
                4 0 00000000 0\n5 0 00000000 0\n6 0 80000001 2\nQ 0 0\nQ 31 0\n";
    assert_eq!(session(&input(3, 100, &frames)), want);

    let mut frames: Vec<_> = (0..32).rev().map(|q| register(0, q, 1, &[(5, 1)])).collect();
    frames.push(message(0, 3, &[(5, 1)]));
    let mut want = String::new();
    for (i, q) in (0..32).rev().enumerate() {
        writeln!(want, "{} 0 {:08x} 0\nQ {q} 0", i + 1, 1u32 << q).unwrap();
    }
    want += "33 0 ffffffff 0\n";
    (0..32).for_each(|q| writeln!(want, "Q {q} 1 3 2000").unwrap());
    assert_eq!(session(&input(3, 100, &frames)), want);
}

/// N less one is a byte: 256 messages are in force with 255, one with 0.
#[test]
fn capacities() {
    let frames: Vec<_> = (0..300).map(|i| message(0, i, &[(5, 1)])).chain([tick(101)]).collect();
    for capacity in [1, 2, 255, 256] {
        let mut want: String = (0..300).map(|i| format!("{} 0 00000000 {}\n", i + 1, (i >= capacity) as u32)).collect();
        writeln!(want, "301 0 00000000 {capacity}").unwrap();
        assert_eq!(session(&input(capacity, 100, &frames)), want, "N = {capacity}");
    }
}

/// T is two bytes, the higher first. C8: with T = 100 an arrival at 20 is in force at 120 and gone at 121.
#[test]
fn lives() {
    for life in [1, 100, 255, 256, 257, 65280, 65535] {
        let frames = [message(20, 1, &[(5, 1)]), tick(20 + life), tick(20 + life + 1)];
        assert_eq!(session(&input(3, life, &frames)), "1 0 00000000 0\n2 0 00000000 0\n3 0 00000000 1\n", "T = {life}");
    }
    assert_eq!(session(&[2, 0x01, 0x00, 10, 0x10, 0, 0, 1, 0x40, 0, 2, 0, 0x14, 4, 5, 0x20, 0, 0, 0x11, 0x40]), "1 0 00000000 0\n2 0 00000000 0\n");
    assert_eq!(session(&[2, 0x01, 0x00, 10, 0x10, 0, 0, 1, 0x40, 0, 2, 0, 0x14, 4, 5, 0x20, 0, 0, 0x11, 0x50]), "1 0 00000000 0\n2 0 00000000 1\n");
}

/// Refused frames count, and do nothing else: neither the clock nor a list moves.
#[test]
fn ordinals() {
    let frames = [
        register(0, 3, 2, &[(5, 1), (9, 2)]),
        vec![],
        message(50, 1, &[(5, 1)]),
        tick(49),
        register(60, 3, 1, &[(5, 1)]),
        message(70, 1, &[(5, 1)]),
        drop_query(80, 4),
        vec![0x20, 0, 0, 7, 0x81],
        message(55, 2, &[(9, 1)]),
        tick(154),
    ];
    let want = "1 0 00000008 0\nQ 3 0\n2 1 00000000 0\n3 0 00000008 0\nQ 3 1 1 2000\n4 7 00000000 0\n5 9 00000000 0\n6 8 00000000 0\n\
                7 10 00000000 0\n8 4 00000000 0\n9 0 00000008 0\nQ 3 2 2 4000 1 2000\n10 0 00000008 1\nQ 3 1 2 4000\n";
    assert_eq!(session(&input(3, 100, &frames)), want);
}

/// The longest line: sixteen entries of the greatest serials, with the greatest score there is.
#[test]
fn longest_list() {
    let terms: Vec<(u32, u32)> = (0..8).map(|i| (i * 100, 15)).collect();
    let counts: Vec<(u32, u32)> = (0..8).map(|i| (i * 100, 255)).collect();
    let frames: Vec<_> = std::iter::once(register(0, 31, 16, &terms)).chain((0..17).map(|i| message(0, 1048575 - i, &counts))).collect();
    let mut want = "1 0 80000000 0\nQ 31 0\n".to_string();
    // 707 for each of eight equal counts; the later stands first
    for i in 0..17 {
        write!(want, "{} 0 80000000 0\nQ 31 {}", i + 2, (i + 1).min(16)).unwrap();
        (0..=i).rev().take(16).for_each(|j| write!(want, " {} 84840", 1048575 - j).unwrap());
        want += "\n";
    }
    assert_eq!(session(&input(256, 100, &frames)), want);
}

// ---- random passages

/// What a session has to print for random frames of a style. Marks depend on thresholds, which the log doesn't fix: they are those of the archive's
/// engine, run beside it. All else is the log's.
fn told(style: Style, count: usize, seed: u64) -> (Vec<Vec<u8>>, String) {
    let mut log = Log::new(style.capacity as usize, style.life);
    let mut state = Lent::new(&vec![0; STATE]);
    assert_eq!(engine::start(&mut state, style.capacity, style.life), 0);
    let mut source = Source::new(style, seed);
    let (mut frames, mut out) = (Vec::new(), String::new());
    for ordinal in 1..=count {
        let bytes = source.next(&log);
        let marks = engine::frame(&mut state, &bytes).marks;
        match log.judge(&bytes) {
            Err(number) => writeln!(out, "{ordinal} {number} 00000000 0").unwrap(),
            Ok(f) => {
                let departures = log.accept(&f).0.len();
                writeln!(out, "{ordinal} 0 {marks:08x} {departures}").unwrap();
                for q in (0..32).filter(|q| marks >> q & 1 == 1) {
                    if let Some(query) = &log.queries[q] {
                        let list = log.ranking(query);
                        write!(out, "Q {q} {}", list.len()).unwrap();
                        list.iter().for_each(|(serial, score)| write!(out, " {serial} {score}").unwrap());
                        out.push('\n');
                    }
                }
            }
        }
        frames.push(bytes);
    }
    (frames, out)
}

fn compare(style: Style, count: usize, seed: u64) {
    let (frames, want) = told(style, count, seed);
    let got = session(&input(style.capacity, style.life, &frames));
    if let Some((i, (got, want))) = got.lines().zip(want.lines()).enumerate().find(|(_, (got, want))| got != want) {
        panic!("line {}: the session prints\n{got}\nand should\n{want}\n(marks may differ where session and archive have different sources)", i + 1);
    }
    assert!(got == want, "the session prints {} bytes and should {}", got.len(), want.len());
    let met = |word: usize, what: &str| want.lines().any(|l| l.starts_with('Q') == (word == 2) && l.split(' ').nth(word) == Some(what));
    for number in [0].into_iter().chain(ORDER) {
        assert!(met(1, &number.to_string()), "number {number} isn't in the passage");
    }
    for entries in [0, 1, 16] {
        assert!(met(2, &entries.to_string()), "no list of {entries} is in the passage");
    }
}

#[test]
fn random_passage() {
    let (terms, rare) = (40, 0);
    let style = Style { capacity: 64, life: 200, terms, rare, counts: 9, serials: 200, queries: 32, entries: 16, step: 3, jump: 60, cancels: 18 };
    compare(style, 4000, 21);
}

#[test]
fn random_passage_of_many_messages() {
    let (terms, rare) = (40, 28);
    let style = Style { capacity: 256, life: 9000, terms, rare, counts: 4, serials: 700, queries: 6, entries: 16, step: 1, jump: 300, cancels: 18 };
    compare(style, 3000, 22);
}

#[test]
fn random_passage_of_ties() {
    let (terms, rare) = (2, 0);
    let style = Style { capacity: 40, life: 300, terms, rare, counts: 1, serials: 120, queries: 10, entries: 16, step: 2, jump: 60, cancels: 18 };
    compare(style, 3000, 24);
}

// ---- long inputs

/// The peak of a running process's resident memory, in kB.
fn peak(child: &Child) -> u64 {
    let status = std::fs::read_to_string(format!("/proc/{}/status", child.id())).expect("the session is running");
    let line = status.lines().find(|l| l.starts_with("VmHWM:")).expect("the system tells of the peak");
    line.split_whitespace().nth(1).unwrap().parse().unwrap()
}

/// Memory doesn't grow with the input's length: 100,000 frames, many of them as long as they can be, far more bytes than the growth allowed.
#[test]
fn streaming() {
    const FRAMES: usize = 100_000;
    const GROWTH: u64 = 1024;
    let mut long = vec![0xff; 255];
    long[0] = 0x2f;
    let began = Instant::now();
    let mut child = spawn();
    let (mut stdin, stdout) = (child.stdin.take().unwrap(), child.stdout.take().unwrap());
    let (done, wait) = mpsc::channel::<()>();
    let feeding = std::thread::spawn(move || {
        let mut all = input(2, 1, &[register(0, 1, 1, &[(5, 1)])]);
        let mut sent = 0;
        for i in 1..FRAMES as u32 {
            let f = match i % 4 {
                0 | 1 => tick(i),
                2 => message(i, i, &[(5, 1)]),
                _ => long.clone(),
            };
            all.push(f.len() as u8);
            all.extend(f);
            if all.len() > 60_000 || i == FRAMES as u32 - 1 {
                sent += all.len();
                stdin.write_all(&all).unwrap();
                all.clear();
            }
        }
        // the input stays open until the memory has been looked at
        let _ = wait.recv_timeout(Duration::from_secs(20));
        sent
    });
    let mut lines = BufReader::new(stdout).lines().map(|l| l.unwrap());
    let mut at_first = 0;
    for i in 0..FRAMES {
        // each message leaves with the tick two frames on; the long frame between is refused
        let (reply, list) = match i % 4 {
            _ if i == 0 => ("0 00000002 0", Some("Q 1 0".to_string())),
            2 => ("0 00000002 0", Some(format!("Q 1 1 {i} 2000"))),
            3 => ("3 00000000 0", None),
            0 => ("0 00000002 1", Some("Q 1 0".to_string())),
            _ => ("0 00000000 0", None),
        };
        assert_eq!(lines.next(), Some(format!("{} {reply}", i + 1)));
        if list.is_some() {
            assert_eq!(lines.next(), list);
        }
        if i == 1000 {
            at_first = peak(&child);
        }
    }
    let at_last = peak(&child);
    done.send(()).unwrap();
    let sent = feeding.join().unwrap() as u64 / 1024;
    assert_eq!(lines.next(), None);
    let mut complaint = String::new();
    child.stderr.take().unwrap().read_to_string(&mut complaint).unwrap();
    assert!(child.wait().unwrap().success() && complaint.is_empty(), "the session failed: {complaint}");
    println!("{sent} kB in {:?}; peak {at_first} kB, then {at_last} kB", began.elapsed());
    assert!(sent > 4 * GROWTH, "the input is too short to tell");
    assert!(at_last <= at_first + GROWTH, "memory grew from {at_first} to {at_last} kB over an input of {sent} kB");
    assert!(began.elapsed() < Duration::from_secs(60), "{:?} for {FRAMES} frames", began.elapsed());
}
