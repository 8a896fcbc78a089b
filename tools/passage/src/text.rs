//! A passage as text, one line a frame:
//!
//! ```text
//! engine 3 100                            N and T; the first line
//! register 0 query 0 k 2 5:1 9:2          time, number, list length, term:weight ..
//! message 20 serial 2 5:1 9:4             time, serial, term:count ..: kind 1, which says no urgency
//! message 30 serial 3 urgency vital 5:1   the same with an urgency, routine, important or vital: kind 6
//! long 40 serial 4 urgency vital 5:1 ..   the same with up to 32 pairs, where a message has up to 16: kind 7
//! tick 120
//! drop 130 query 0
//! cancel 140 serial 2                     time, and the serial of a message in force
//! bytes 20 00 00 07 81                    a frame of any bytes, in hexadecimal
//! ```
//!
//! What follows a `#` and empty lines are left out. A search is no line, nor is a closeness: a session takes frames alone, and a host asks for a search
//! by the bytes of a register frame.

use crate::{Form, Frame};

/// By their numbers in a frame.
const URGENCIES: [&str; 3] = ["routine", "important", "vital"];

/// A passage: N, T and the bytes of each frame.
#[derive(Debug, PartialEq, Eq)]
pub struct Passage {
    pub capacity: u32,
    pub life: u32,
    pub frames: Vec<Vec<u8>>,
}

/// What is wrong with a text, and in which line.
#[derive(Debug, PartialEq, Eq)]
pub struct Wrong {
    pub line: usize,
    pub what: String,
}

/// A word as messages show it: signs that can't be seen are written out.
fn shown(word: &str) -> String {
    format!("'{}'", word.escape_debug())
}

/// Decimal digits alone; Rust's own reading would take a plus sign too.
fn decimal(word: &str) -> Option<u64> {
    word.bytes().all(|b| b.is_ascii_digit()).then(|| word.parse().ok()).flatten()
}

fn number(words: &mut std::slice::Iter<&str>, name: &str, least: u64, most: u64) -> Result<u64, String> {
    let word = words.next().ok_or(format!("{name} is missing"))?;
    match decimal(word) {
        Some(n) if (least..=most).contains(&n) => Ok(n),
        _ => Err(format!("{name} must be a number from {least} to {most}, and is {}", shown(word))),
    }
}

fn keyword(words: &mut std::slice::Iter<&str>, want: &str) -> Result<(), String> {
    match words.next() {
        Some(word) if *word == want => Ok(()),
        Some(word) => Err(format!("'{want}' is expected, and there is {}", shown(word))),
        None => Err(format!("'{want}' is missing")),
    }
}

fn nothing_more(words: &mut std::slice::Iter<&str>) -> Result<(), String> {
    match words.next() {
        Some(word) => Err(format!("the line should end, and there is {}", shown(word))),
        None => Ok(()),
    }
}

fn pairs(words: &mut std::slice::Iter<&str>, most: usize, name: &str, top: u32) -> Result<Vec<(u32, u32)>, String> {
    let mut ps: Vec<(u32, u32)> = Vec::new();
    for word in words {
        let (t, a) = word.split_once(':').ok_or(format!("a pair term:{name} is expected, and there is {}", shown(word)))?;
        let (t, a) = match (decimal(t), decimal(a)) {
            (Some(t), Some(a)) if t <= 1023 && (1..=top as u64).contains(&a) => (t as u32, a as u32),
            _ => return Err(format!("a pair is a term 0 to 1023 and a {name} 1 to {top}, and there is {}", shown(word))),
        };
        if ps.last().is_some_and(|p| p.0 >= t) {
            return Err(format!("terms must rise, and {t} follows {}", ps.last().unwrap().0));
        }
        ps.push((t, a));
    }
    if ps.is_empty() || ps.len() > most {
        return Err(format!("1 to {most} pairs are expected, and there are {}", ps.len()));
    }
    Ok(ps)
}

fn serial(words: &mut std::slice::Iter<&str>) -> Result<u32, String> {
    keyword(words, "serial")?;
    Ok(number(words, "the serial", 0, 1_048_575)? as u32)
}

fn urgency(words: &mut std::slice::Iter<&str>) -> Result<u32, String> {
    keyword(words, "urgency")?;
    let word = words.next().ok_or("the urgency is missing")?;
    match URGENCIES.iter().position(|u| u == word) {
        Some(u) => Ok(u as u32),
        None => Err(format!("the urgency must be routine, important or vital, and is {}", shown(word))),
    }
}

/// The form of a message, which says an urgency or doesn't.
fn message_form(words: &mut std::slice::Iter<&str>) -> Result<Form, String> {
    if words.as_slice().first() == Some(&"urgency") {
        urgency(words).map(Form::Graded)
    } else {
        Ok(Form::Plain)
    }
}

fn byte(word: &str) -> Result<u8, String> {
    if word.len() == 2 && word.bytes().all(|b| b.is_ascii_hexdigit()) {
        Ok(u8::from_str_radix(word, 16).unwrap())
    } else {
        Err(format!("a byte is two hexadecimal digits, and there is {}", shown(word)))
    }
}

fn frame(words: &[&str]) -> Result<Vec<u8>, String> {
    let mut w = words.iter();
    let kind = *w.next().unwrap();
    if kind == "bytes" {
        return w.map(|b| byte(b)).collect();
    }
    if !["message", "long", "tick", "register", "drop", "cancel"].contains(&kind) {
        return Err(format!("{} is no kind of frame: message, long, tick, register, drop, cancel or bytes", shown(kind)));
    }
    let time = number(&mut w, "the time", 0, u32::MAX as u64)? as u32;
    let f = match kind {
        "message" | "long" => {
            let serial = serial(&mut w)?;
            let form = if kind == "long" { Form::Long(urgency(&mut w)?) } else { message_form(&mut w)? };
            Frame::Message { time, serial, form, pairs: pairs(&mut w, form.most(), "count", 255)? }
        }
        "tick" => Frame::Tick { time },
        "register" => {
            keyword(&mut w, "query")?;
            let query = number(&mut w, "the query", 0, 31)? as usize;
            keyword(&mut w, "k")?;
            let k = number(&mut w, "k", 1, 16)? as usize;
            Frame::Register { time, number: query, k, terms: pairs(&mut w, 8, "weight", 15)? }
        }
        "cancel" => Frame::Cancel { time, serial: serial(&mut w)? },
        _ => {
            keyword(&mut w, "query")?;
            Frame::Drop { time, number: number(&mut w, "the query", 0, 31)? as usize }
        }
    };
    nothing_more(&mut w)?;
    Ok(f.bytes())
}

/// N and T.
fn engine(words: &[&str]) -> Result<(u32, u32), String> {
    let mut w = words.iter();
    if *w.next().unwrap() != "engine" {
        return Err(format!("the first line is 'engine N T', and there is {}", shown(words[0])));
    }
    let capacity = number(&mut w, "N", 1, 256)? as u32;
    let life = number(&mut w, "T", 0, 65535)? as u32;
    nothing_more(&mut w)?;
    Ok((capacity, life))
}

impl Passage {
    /// The passage that bytes are as text.
    pub fn parse_bytes(bytes: &[u8]) -> Result<Passage, Wrong> {
        match std::str::from_utf8(bytes) {
            Ok(text) => Passage::parse(text),
            Err(e) => {
                let line = bytes[..e.valid_up_to()].iter().filter(|&&b| b == b'\n').count() + 1;
                Err(Wrong { line, what: "the text isn't UTF-8".into() })
            }
        }
    }

    pub fn parse(text: &str) -> Result<Passage, Wrong> {
        let mut passage = None;
        for (i, whole) in text.lines().enumerate() {
            let wrong = |what| Wrong { line: i + 1, what };
            let words: Vec<&str> = whole.split('#').next().unwrap().split_whitespace().collect();
            if words.is_empty() {
                continue;
            }
            match &mut passage {
                None => {
                    let (capacity, life) = engine(&words).map_err(wrong)?;
                    passage = Some(Passage { capacity, life, frames: Vec::new() });
                }
                Some(p) => {
                    let bytes = frame(&words).map_err(wrong)?;
                    if bytes.len() > 255 {
                        return Err(wrong(format!("a session's frame has at most 255 bytes, and there are {}", bytes.len())));
                    }
                    p.frames.push(bytes);
                }
            }
        }
        passage.ok_or(Wrong { line: 1, what: "the line 'engine N T' is missing".into() })
    }

    pub fn show(&self) -> String {
        let mut out = format!("engine {} {}\n", self.capacity, self.life);
        for bytes in &self.frames {
            out += &match Frame::read(bytes) {
                Ok(f) => line(&f),
                Err(_) => bytes.iter().fold("bytes".into(), |s: String, b| s + &format!(" {b:02x}")),
            };
            out.push('\n');
        }
        out
    }

    /// The session program's input.
    pub fn input(&self) -> Vec<u8> {
        let mut out = vec![(self.capacity - 1) as u8, (self.life >> 8) as u8, self.life as u8];
        for f in &self.frames {
            out.push(f.len() as u8);
            out.extend_from_slice(f);
        }
        out
    }

    /// The passage that a session's input is; a cut last frame has the bytes that are there. None where the header is cut.
    pub fn from_input(input: &[u8]) -> Option<Passage> {
        let (header, mut rest) = input.split_at_checked(3)?;
        let mut frames = Vec::new();
        while let Some((&len, more)) = rest.split_first() {
            let n = (len as usize).min(more.len());
            frames.push(more[..n].to_vec());
            rest = &more[n..];
        }
        Some(Passage { capacity: header[0] as u32 + 1, life: (header[1] as u32) << 8 | header[2] as u32, frames })
    }
}

fn line(f: &Frame) -> String {
    let pairs = |ps: &[(u32, u32)]| ps.iter().fold(String::new(), |s, p| s + &format!(" {}:{}", p.0, p.1));
    match f {
        Frame::Message { time, serial, form, pairs: ps } => {
            let kind = if matches!(form, Form::Long(_)) { "long" } else { "message" };
            let urgency = match form {
                Form::Plain => String::new(),
                Form::Graded(u) | Form::Long(u) => format!(" urgency {}", URGENCIES[*u as usize]),
            };
            format!("{kind} {time} serial {serial}{urgency}{}", pairs(ps))
        }
        Frame::Tick { time } => format!("tick {time}"),
        Frame::Register { time, number, k, terms } => format!("register {time} query {number} k {k}{}", pairs(terms)),
        Frame::Drop { time, number } => format!("drop {time} query {number}"),
        Frame::Cancel { time, serial } => format!("cancel {time} serial {serial}"),
    }
}
