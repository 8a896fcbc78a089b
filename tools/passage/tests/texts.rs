//! The program on good and bad texts: what a writer of passages is told, and that nothing is printed beside it.

use std::io::Write;
use std::process::{Command, Stdio};

struct Ran {
    status: i32,
    output: Vec<u8>,
    said: String,
}

fn run(args: &[&str], input: &[u8]) -> Ran {
    let mut child = Command::new(env!("CARGO_BIN_EXE_passage"))
        .args(args)
        .stdin(Stdio::piped())
        .stdout(Stdio::piped())
        .stderr(Stdio::piped())
        .spawn()
        .unwrap();
    // a program that only says how it is used reads nothing
    let _ = child.stdin.take().unwrap().write_all(input);
    let out = child.wait_with_output().unwrap();
    Ran { status: out.status.code().unwrap(), output: out.stdout, said: String::from_utf8(out.stderr).unwrap() }
}

/// The text of one frame after a good first line.
fn frame(line: &str) -> String {
    format!("engine 3 100\n{line}\n")
}

/// So many pairs, each term counted once.
fn counted(n: u32) -> String {
    (0..n).map(|t| format!(" {t}:1")).collect()
}

fn told(text: &[u8], want: &str) {
    let ran = run(&[], text);
    let shown = String::from_utf8_lossy(text);
    assert_eq!(ran.said, format!("passage: {want}\n"), "{shown:?}");
    assert_eq!((ran.status, ran.output.len()), (1, 0), "{shown:?}");
}

#[test]
fn the_first_line() {
    for (text, want) in [
        ("", "line 1: the line 'engine N T' is missing"),
        ("\n# nothing but this\n", "line 1: the line 'engine N T' is missing"),
        ("\n\ntick 5\n", "line 3: the first line is 'engine N T', and there is 'tick'"),
        ("\u{feff}engine 3 100\n", "line 1: the first line is 'engine N T', and there is '\\u{feff}engine'"),
        ("engine\n", "line 1: N is missing"),
        ("engine 3\n", "line 1: T is missing"),
        ("engine 0 100\n", "line 1: N must be a number from 1 to 256, and is '0'"),
        ("engine 257 100\n", "line 1: N must be a number from 1 to 256, and is '257'"),
        ("engine 3 65536\n", "line 1: T must be a number from 0 to 65535, and is '65536'"),
        ("engine 3 100 7\n", "line 1: the line should end, and there is '7'"),
        ("engine 3 100\rtick 5\n", "line 1: the line should end, and there is 'tick'"),
    ] {
        told(text.as_bytes(), want);
    }
}

#[test]
fn frames() {
    for (line, want) in [
        ("tock 5", "'tock' is no kind of frame: message, long, tick, register, drop, cancel or bytes"),
        ("engine 3 100", "'engine' is no kind of frame: message, long, tick, register, drop, cancel or bytes"),
        // a session asks for neither
        ("search k 2 5:1 9:2", "'search' is no kind of frame: message, long, tick, register, drop, cancel or bytes"),
        ("closeness serial 2 query 0", "'closeness' is no kind of frame: message, long, tick, register, drop, cancel or bytes"),
        ("tick", "the time is missing"),
        ("tick 4294967296", "the time must be a number from 0 to 4294967295, and is '4294967296'"),
        ("tick -1", "the time must be a number from 0 to 4294967295, and is '-1'"),
        ("tick +1", "the time must be a number from 0 to 4294967295, and is '+1'"),
        ("tick 99999999999999999999", "the time must be a number from 0 to 4294967295, and is '99999999999999999999'"),
        ("tick 5 6", "the line should end, and there is '6'"),
        ("message 10", "'serial' is missing"),
        ("message 10 5:1", "'serial' is expected, and there is '5:1'"),
        ("message 10 serial", "the serial is missing"),
        ("message 10 serial 5:1", "the serial must be a number from 0 to 1048575, and is '5:1'"),
        ("message 10 serial 1048576 5:1", "the serial must be a number from 0 to 1048575, and is '1048576'"),
        ("message 10 serial 1", "1 to 16 pairs are expected, and there are 0"),
        ("message 10 serial 1 5", "a pair term:count is expected, and there is '5'"),
        ("message 10 serial 1 5:0", "a pair is a term 0 to 1023 and a count 1 to 255, and there is '5:0'"),
        ("message 10 serial 1 5:256", "a pair is a term 0 to 1023 and a count 1 to 255, and there is '5:256'"),
        ("message 10 serial 1 5:+1", "a pair is a term 0 to 1023 and a count 1 to 255, and there is '5:+1'"),
        ("message 10 serial 1 1024:1", "a pair is a term 0 to 1023 and a count 1 to 255, and there is '1024:1'"),
        ("message 10 serial 1 5:1:1", "a pair is a term 0 to 1023 and a count 1 to 255, and there is '5:1:1'"),
        ("message 10 serial 1 9:1 5:1", "terms must rise, and 5 follows 9"),
        ("message 10 serial 1 5:1 5:2", "terms must rise, and 5 follows 5"),
        ("message 10 serial 1 urgency", "the urgency is missing"),
        ("message 10 serial 1 urgency 2 5:1", "the urgency must be routine, important or vital, and is '2'"),
        ("message 10 serial 1 urgency 5:1", "the urgency must be routine, important or vital, and is '5:1'"),
        ("message 10 serial 1 urgency Vital 5:1", "the urgency must be routine, important or vital, and is 'Vital'"),
        ("message 10 serial 1 urgency vital", "1 to 16 pairs are expected, and there are 0"),
        ("message 10 serial 1 urgency vital important 5:1", "a pair term:count is expected, and there is 'important'"),
        ("message 10 serial 1 vital 5:1", "a pair term:count is expected, and there is 'vital'"),
        ("message 10 serial 1 5:1 urgency vital", "a pair term:count is expected, and there is 'urgency'"),
        ("message 10 urgency vital serial 1 5:1", "'serial' is expected, and there is 'urgency'"),
        ("long 10", "'serial' is missing"),
        ("long 10 serial 1", "'urgency' is missing"),
        ("long 10 serial 1 5:1", "'urgency' is expected, and there is '5:1'"),
        ("long 10 serial 1 urgency", "the urgency is missing"),
        ("long 10 serial 1 urgency 2 5:1", "the urgency must be routine, important or vital, and is '2'"),
        ("long 10 serial 1 urgency vital", "1 to 32 pairs are expected, and there are 0"),
        ("long 10 serial 1 urgency vital 5:0", "a pair is a term 0 to 1023 and a count 1 to 255, and there is '5:0'"),
        ("long 10 serial 1 urgency vital 9:1 5:1", "terms must rise, and 5 follows 9"),
        ("register 0 k 2 5:1", "'query' is expected, and there is 'k'"),
        ("register 0 query 32 k 2 5:1", "the query must be a number from 0 to 31, and is '32'"),
        ("register 0 query 0 5:1", "'k' is expected, and there is '5:1'"),
        ("register 0 query 0 k 0 5:1", "k must be a number from 1 to 16, and is '0'"),
        ("register 0 query 0 k 17 5:1", "k must be a number from 1 to 16, and is '17'"),
        ("register 0 query 0 k 2 5:16", "a pair is a term 0 to 1023 and a weight 1 to 15, and there is '5:16'"),
        ("register 0 query 0 k 2 0:1 1:1 2:1 3:1 4:1 5:1 6:1 7:1 8:1", "1 to 8 pairs are expected, and there are 9"),
        ("drop 5", "'query' is missing"),
        ("drop 5 query 3 4", "the line should end, and there is '4'"),
        ("cancel", "the time is missing"),
        ("cancel 5", "'serial' is missing"),
        ("cancel 5 7", "'serial' is expected, and there is '7'"),
        ("cancel 5 serial 1048576", "the serial must be a number from 0 to 1048575, and is '1048576'"),
        ("cancel 5 serial 7 5:1", "the line should end, and there is '5:1'"),
        ("bytes 20 0 00", "a byte is two hexadecimal digits, and there is '0'"),
        ("bytes 20 +1", "a byte is two hexadecimal digits, and there is '+1'"),
        ("bytes 2000000780", "a byte is two hexadecimal digits, and there is '2000000780'"),
        ("bytes 0g", "a byte is two hexadecimal digits, and there is '0g'"),
    ] {
        told(frame(line).as_bytes(), &format!("line 2: {want}"));
    }
    for (head, most) in [("message 10 serial 1", 16), ("message 10 serial 1 urgency vital", 16), ("long 10 serial 1 urgency vital", 32)] {
        let text = frame(&format!("{head}{}", counted(most + 1)));
        told(text.as_bytes(), &format!("line 2: 1 to {most} pairs are expected, and there are {}", most + 1));
    }
    let long = frame(&format!("bytes{}", " 00".repeat(256)));
    told(long.as_bytes(), "line 2: a session's frame has at most 255 bytes, and there are 256");
    // left-out lines count, and the first wrong line is the one that is told
    told(b"engine 3 100 # three\r\n\r\n# none\ntick 1\ntick x\ntick y\n", "line 5: the time must be a number from 0 to 4294967295, and is 'x'");
    told(b"engine 3 100\ntick 1\ntick \xff\n", "line 3: the text isn't UTF-8");
}

#[test]
fn good_texts() {
    // each kind at the end of its ranges; lines ended in both ways; the last one not ended
    let text = "# a passage\r\nengine 256 65535 # N and T\r\n\n  register 0 query 31 k 16 0:1 1023:15\nmessage 7 serial 1048575 0:255#\n\
                message 7 serial 0 urgency  vital\t0:255 1:1\ntick 4294967295\nbytes 20 00 00 07 81\nbytes\ncancel 4294967295 serial 1048575\ndrop 4294967295 query 31";
    let plain = "engine 256 65535\nregister 0 query 31 k 16 0:1 1023:15\nmessage 7 serial 1048575 0:255\n\
                 message 7 serial 0 urgency vital 0:255 1:1\ntick 4294967295\nbytes 20 00 00 07 81\nbytes\ncancel 4294967295 serial 1048575\ndrop 4294967295 query 31\n";
    let input = run(&[], text.as_bytes());
    assert_eq!((input.status, input.said.as_str()), (0, ""));
    assert_eq!(input.output[..4], [255, 255, 255, 10]);
    // the last two frames, each after its length
    assert_eq!(input.output[input.output.len() - 15..], [7, 0x5f, 0xff, 0xff, 0xff, 0xff, 0xff, 0xff, 6, 0x4f, 0xff, 0xff, 0xff, 0xff, 0x80]);
    let back = run(&["--text"], &input.output);
    assert_eq!((back.status, back.said.as_str()), (0, ""));
    assert_eq!(String::from_utf8(back.output).unwrap(), plain);
    assert_eq!(run(&[], plain.as_bytes()).output, input.output);
}

/// A message that says no urgency and a routine one are two frames, and each comes back as it was. Urgency 3 isn't one that a text can say.
#[test]
fn urgencies() {
    let text = "engine 3 100\nmessage 10 serial 1 5:1\nmessage 10 serial 1 urgency routine 5:1\nmessage 30 serial 3 urgency important 5:1\n\
                message 10 serial 1 urgency vital 5:1\nbytes 60 00 00 00 a0 00 01 c0 05 01\n";
    let input = run(&[], text.as_bytes());
    assert_eq!((input.status, input.said.as_str()), (0, ""));
    let frames = [
        [0x10, 0, 0, 0, 0xa0, 0, 1, 0, 0x14, 4],
        [0x60, 0, 0, 0, 0xa0, 0, 1, 0, 5, 1],
        [0x60, 0, 0, 1, 0xe0, 0, 3, 0x40, 5, 1],
        [0x60, 0, 0, 0, 0xa0, 0, 1, 0x80, 5, 1],
        [0x60, 0, 0, 0, 0xa0, 0, 1, 0xc0, 5, 1],
    ];
    let want: Vec<u8> = [2, 0, 100].into_iter().chain(frames.iter().flat_map(|f| std::iter::once(10).chain(*f))).collect();
    assert_eq!(input.output, want);
    assert_eq!(String::from_utf8(run(&["--text"], &input.output).output).unwrap(), text);
}

/// A long message of one pair isn't the frame that a message with an urgency is, and each comes back as it was; so do the most pairs of all three.
#[test]
fn long_messages() {
    let (most, longest) = (counted(16), counted(32));
    let text = format!(
        "engine 3 100\nlong 10 serial 1 urgency vital 5:1\nmessage 10 serial 1 urgency vital 5:1\nlong 10 serial 1 urgency routine{most}\n\
         message 10 serial 1 urgency routine{most}\nmessage 10 serial 1{most}\nlong 10 serial 1 urgency important{longest}\n\
         bytes 70 00 00 00 a0 00 01 c0 02 80 80\n"
    );
    let input = run(&[], text.as_bytes());
    assert_eq!((input.status, input.said.as_str()), (0, ""));
    let (mut frames, mut rest) = (Vec::new(), &input.output[3..]);
    while let Some((&length, more)) = rest.split_first() {
        let (frame, after) = more.split_at(length as usize);
        frames.push(frame);
        rest = after;
    }
    assert_eq!(frames.iter().map(|f| f.len()).collect::<Vec<_>>(), [11, 10, 44, 44, 44, 80, 11]);
    assert_eq!(frames[0], [0x70, 0, 0, 0, 0xa0, 0, 1, 0x80, 2, 0x80, 0x80]);
    assert_eq!(frames[1], [0x60, 0, 0, 0, 0xa0, 0, 1, 0x80, 5, 1]);
    // from the eighth byte on: important and 32 pairs, 01 11111, then 0:1 and 1:1, 0000000000 00000001 0000000001 00000001
    assert_eq!(frames[5][..13], [0x70, 0, 0, 0, 0xa0, 0, 1, 0x7e, 0, 0, 0x80, 0x20, 0x20]);
    assert_eq!(String::from_utf8(run(&["--text"], &input.output).output).unwrap(), text);
}

#[test]
fn other_uses() {
    let cut = run(&["--text"], &[2, 0]);
    assert_eq!((cut.status, cut.said.as_str()), (1, "passage: the header is cut: it takes 3 bytes, and there are 2\n"));
    for args in [&["c10.txt"][..], &["--text", "c10.txt"], &["--help"]] {
        let used = run(args, b"");
        assert_eq!((used.status, used.output.len()), (2, 0));
        assert_eq!(used.said, "usage: passage < TEXT > INPUT, or passage --text < INPUT > TEXT\n");
    }
}
