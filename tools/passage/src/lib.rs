//! Frames of the docking display's message ranker, as bytes and as text, written from the document alone.

pub mod text;

/// The forms of a message. An urgency is 0 routine, 1 important, 2 vital.
#[derive(Debug, Clone, Copy, PartialEq, Eq)]
pub enum Form {
    /// Kind 1, which says no urgency.
    Plain,
    /// Kind 6, which says one.
    Graded(u32),
    /// Kind 7, the same with room for more pairs.
    Long(u32),
}

impl Form {
    fn kind(self) -> u32 {
        match self {
            Form::Plain => 1,
            Form::Graded(_) => 6,
            Form::Long(_) => 7,
        }
    }

    /// Kind 1 means routine.
    pub fn urgency(self) -> u32 {
        match self {
            Form::Plain => 0,
            Form::Graded(urgency) | Form::Long(urgency) => urgency,
        }
    }

    /// How many pairs a message of this form has at most.
    pub fn most(self) -> usize {
        1 << self.widths().1
    }

    /// The bits of the urgency and of the number of pairs.
    fn widths(self) -> (usize, usize) {
        match self {
            Form::Plain => (0, 4),
            Form::Graded(_) => (2, 4),
            Form::Long(_) => (2, 5),
        }
    }
}

#[derive(Debug, Clone, PartialEq, Eq)]
pub enum Frame {
    Message { time: u32, serial: u32, form: Form, pairs: Vec<(u32, u32)> },
    Tick { time: u32 },
    Register { time: u32, number: usize, k: usize, terms: Vec<(u32, u32)> },
    Drop { time: u32, number: usize },
    Cancel { time: u32, serial: u32 },
}

struct Bits<'a> {
    bytes: &'a [u8],
    at: usize,
}

impl Bits<'_> {
    fn left(&self) -> usize {
        self.bytes.len() * 8 - self.at
    }

    fn take(&mut self, width: usize) -> u32 {
        let mut v = 0u64;
        for _ in 0..width {
            v = v * 2 + (self.bytes[self.at / 8] >> (7 - self.at % 8) & 1) as u64;
            self.at += 1;
        }
        v as u32
    }
}

fn push(bits: &mut Vec<bool>, width: usize, value: u64) {
    assert!(value >> width == 0, "{value} takes more than {width} bits");
    for i in (0..width).rev() {
        bits.push(value >> i & 1 == 1);
    }
}

fn packed(bits: &[bool]) -> Vec<u8> {
    bits.chunks(8).map(|c| (0..8).fold(0, |b, i| b * 2 + c.get(i).copied().unwrap_or(false) as u8)).collect()
}

impl Frame {
    pub fn time(&self) -> u32 {
        match self {
            Frame::Message { time, .. }
            | Frame::Tick { time }
            | Frame::Register { time, .. }
            | Frame::Drop { time, .. }
            | Frame::Cancel { time, .. } => *time,
        }
    }

    pub fn bytes(&self) -> Vec<u8> {
        packed(&self.bits())
    }

    /// Its fields, bit by bit, without the fill.
    pub fn bits(&self) -> Vec<bool> {
        let mut b = Vec::new();
        let head = |b: &mut Vec<bool>, kind: u64, time: u32| {
            push(b, 4, kind);
            push(b, 32, time as u64);
        };
        match self {
            Frame::Message { time, serial, form, pairs } => {
                let (grade, count) = form.widths();
                head(&mut b, form.kind() as u64, *time);
                push(&mut b, 20, *serial as u64);
                push(&mut b, grade, form.urgency() as u64);
                push(&mut b, count, pairs.len() as u64 - 1);
                for &(t, c) in pairs {
                    push(&mut b, 10, t as u64);
                    push(&mut b, 8, c as u64);
                }
            }
            Frame::Tick { time } => head(&mut b, 2, *time),
            Frame::Register { time, number, k, terms } => {
                head(&mut b, 3, *time);
                push(&mut b, 5, *number as u64);
                push(&mut b, 4, *k as u64 - 1);
                push(&mut b, 3, terms.len() as u64 - 1);
                for &(t, w) in terms {
                    push(&mut b, 10, t as u64);
                    push(&mut b, 4, w as u64);
                }
            }
            Frame::Drop { time, number } => {
                head(&mut b, 4, *time);
                push(&mut b, 5, *number as u64);
            }
            Frame::Cancel { time, serial } => {
                head(&mut b, 5, *time);
                push(&mut b, 20, *serial as u64);
            }
        }
        b
    }

    /// The frame that bytes are, or the first of 1 to 4, 14, 5 and 6 that applies.
    pub fn read(bytes: &[u8]) -> Result<Frame, u32> {
        if bytes.len() < 5 {
            return Err(1);
        }
        let mut b = Bits { bytes, at: 0 };
        let (kind, time) = (b.take(4), b.take(32));
        // the pairs that end a frame: taken with the fill after them, and then judged
        let taken = |b: &mut Bits, n: usize, width: usize| -> Result<Vec<(u32, u32)>, u32> {
            let need = n * (10 + width);
            if b.left() < need || b.left() - need >= 8 {
                return Err(3);
            }
            let ps: Vec<_> = (0..n).map(|_| (b.take(10), b.take(width))).collect();
            let fill = b.left();
            if b.take(fill) != 0 {
                return Err(4);
            }
            Ok(ps)
        };
        let judged = |ps: Vec<(u32, u32)>| -> Result<Vec<(u32, u32)>, u32> {
            if ps.iter().any(|p| p.1 == 0) {
                return Err(5);
            }
            if ps.windows(2).any(|w| w[0].0 >= w[1].0) {
                return Err(6);
            }
            Ok(ps)
        };
        match kind {
            1 | 6 | 7 => {
                let form = |urgency| match kind {
                    1 => Form::Plain,
                    6 => Form::Graded(urgency),
                    _ => Form::Long(urgency),
                };
                let (grade, count) = form(0).widths();
                if b.left() < 20 + grade + count {
                    return Err(3);
                }
                let (serial, urgency, m) = (b.take(20), b.take(grade), b.take(count) as usize + 1);
                let ps = taken(&mut b, m, 8)?;
                if urgency == 3 {
                    return Err(14);
                }
                Ok(Frame::Message { time, serial, form: form(urgency), pairs: judged(ps)? })
            }
            2 => taken(&mut b, 0, 0).map(|_| Frame::Tick { time }),
            3 => {
                if b.left() < 12 {
                    return Err(3);
                }
                let (number, k, n) = (b.take(5) as usize, b.take(4) as usize + 1, b.take(3) as usize + 1);
                Ok(Frame::Register { time, number, k, terms: judged(taken(&mut b, n, 4)?)? })
            }
            4 => {
                if b.left() < 5 {
                    return Err(3);
                }
                let number = b.take(5) as usize;
                taken(&mut b, 0, 0).map(|_| Frame::Drop { time, number })
            }
            5 => {
                if b.left() < 20 {
                    return Err(3);
                }
                let serial = b.take(20);
                taken(&mut b, 0, 0).map(|_| Frame::Cancel { time, serial })
            }
            _ => Err(2),
        }
    }
}
