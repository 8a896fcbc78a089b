//! An engine and a log of the same frames, for passages by hand.

use crate::compare;
use crate::engine::{self, Lent, Line, LINE, STATE};
use crate::paper::{routine, Form, Frame, Log};

pub type Pairs<'a> = &'a [(u32, u32)];

pub struct Board {
    pub state: Lent,
    pub log: Log,
}

/// T and a time of arrival, up to the last at which a message can still be seen to go.
pub fn corners() -> impl Iterator<Item = (u32, u32)> {
    [1, 2, 100, 65535].into_iter().flat_map(|life| [0, 20, u32::MAX - life - 1].map(|arrival| (life, arrival)))
}

/// The bytes that ask for a search.
pub fn ask(k: usize, terms: Pairs) -> Vec<u8> {
    Frame::Register { time: 0, number: 0, k, terms: terms.to_vec() }.bytes()
}

impl Board {
    pub fn new(capacity: u32, life: u32) -> Self {
        let mut state = Lent::new(&vec![0x5a; STATE]);
        assert_eq!(engine::start(&mut state, capacity, life), 0);
        Board { state, log: Log::new(capacity as usize, life) }
    }

    /// N 256 and T 1,000, with a message a second from serial 1 on.
    pub fn of(messages: &[Pairs]) -> Self {
        let mut b = Board::new(256, 1000);
        messages.iter().for_each(|pairs| b.message(routine(pairs.len()), pairs));
        b
    }

    /// C10's first five frames, after which messages 2, 3 and 4 are in force.
    pub fn c10() -> Self {
        let mut b = Board::new(3, 100);
        b.take(Frame::Register { time: 0, number: 0, k: 2, terms: vec![(5, 1), (9, 2)] });
        for (time, serial, pairs) in [(10, 1, &[(5, 3), (9, 4)][..]), (20, 2, &[(5, 1)]), (30, 3, &[(9, 1), (40, 1)]), (40, 4, &[(5, 1), (6, 2)])] {
            b.take(Frame::Message { time, serial, form: Form::Plain, pairs: pairs.to_vec() });
        }
        b
    }

    pub fn take(&mut self, f: Frame) {
        assert_eq!(engine::frame(&mut self.state, &f.bytes()).number, 0, "{f:?}");
        let f = self.log.judge(&f.bytes()).expect("a frame that is accepted");
        self.log.accept(&f);
    }

    /// The next message, a second later; its serial is its turn, from 1 on.
    pub fn message(&mut self, form: Form, pairs: Pairs) {
        let (time, serial) = (self.log.clock + 1, self.log.messages.len() as u32 + 1);
        self.take(Frame::Message { time, serial, form, pairs: pairs.to_vec() });
    }

    pub fn cancel(&mut self, serial: u32) {
        self.take(Frame::Cancel { time: self.log.clock, serial });
    }

    pub fn register(&mut self, number: usize, terms: Pairs) {
        self.list(number, 1, terms);
    }

    /// A query that lists k messages.
    pub fn list(&mut self, number: usize, k: usize, terms: Pairs) {
        self.take(Frame::Register { time: self.log.clock, number, k, terms: terms.to_vec() });
    }

    pub fn drop(&mut self, number: usize) {
        self.take(Frame::Drop { time: self.log.clock, number });
    }

    /// Postings read and list of a search, to be compared.
    pub fn search(&self, k: usize, terms: Pairs) -> (u32, Vec<(u32, u32)>) {
        let found = compare::search(&self.state, &self.log, &ask(k, terms), k % 32).expect("a search that is accepted");
        (found.read, found.list)
    }

    /// Quotient and remainder of a closeness, or the number that refuses it.
    pub fn closeness(&self, serial: u32, number: u32) -> Result<(u32, u32), u32> {
        compare::closeness(&self.state, &self.log, serial, number)
    }

    /// The lines of a screen, in output that they just fill.
    pub fn screen(&self, lines: u32) -> Vec<Line> {
        compare::screen(&self.state, &self.log, lines, LINE * lines as usize).expect("a screen that is accepted")
    }

    /// A reading with state memory and answers of many lengths, called with each: 12 where one doesn't fit, and else this number.
    pub fn assert_lengths(&self, needed: usize, otherwise: u32, call: impl Fn(&Lent, &mut Lent) -> u32) {
        for len in [0, 4, needed, STATE - 4, STATE - 1, STATE, STATE + 1, STATE + 4, 2 * STATE] {
            let mut bytes = self.state.bytes().to_vec();
            bytes.resize(len, 0);
            let want = if len == STATE { otherwise } else { 12 };
            assert_eq!(call(&Lent::new(&bytes), &mut Lent::new(&vec![0x33; needed])), want, "{len} bytes of state");
        }
        for len in (0..needed + 2).chain([4096]) {
            let mut answer = Lent::new(&vec![0x33; len]);
            let want = if len < needed { 12 } else { otherwise };
            assert_eq!(call(&self.state, &mut answer), want, "{len} bytes of answer");
            assert!(answer.bytes().iter().skip(needed).all(|&b| b == 0x33), "bytes past the answer changed");
        }
    }
}
