//! The proved engine, as a C host calls it: of the archive that the bench is linked with, or of an earlier one.

use crate::plain::Method;
use fennelrake_tests::engine::{word, CLOSENESS_ANSWER, FRAME_ANSWER, LINE, LIST_ANSWER, SEARCH_ANSWER, STATE};
use std::ffi::{c_char, c_int, c_void, CStr, CString};
use std::marker::PhantomData;
use std::sync::OnceLock;

type Start = unsafe extern "C" fn(state: *mut u8, state_len: usize, capacity: u32, life: u32) -> u32;
type Take = unsafe extern "C" fn(state: *mut u8, state_len: usize, bytes: *const u8, bytes_len: usize, answer: *mut u8, answer_len: usize) -> u32;
type List = unsafe extern "C" fn(state: *const u8, state_len: usize, number: u32, answer: *mut u8, answer_len: usize) -> u32;

extern "C" {
    fn fennelrake_start(state: *mut u8, state_len: usize, capacity: u32, life: u32) -> u32;
    fn fennelrake_frame(state: *mut u8, state_len: usize, bytes: *const u8, bytes_len: usize, answer: *mut u8, answer_len: usize) -> u32;
    fn fennelrake_list(state: *const u8, state_len: usize, number: u32, answer: *mut u8, answer_len: usize) -> u32;
    fn fennelrake_search(state: *const u8, state_len: usize, frame: *const u8, frame_len: usize, answer: *mut u8, answer_len: usize) -> u32;
    fn fennelrake_closeness(state: *const u8, state_len: usize, serial: u32, number: u32, answer: *mut u8, answer_len: usize) -> u32;
    fn fennelrake_screen(state: *const u8, state_len: usize, lines: u32, out: *mut u8, out_len: usize) -> u64;
    fn dlopen(path: *const c_char, flags: c_int) -> *mut c_void;
    fn dlsym(library: *mut c_void, name: *const c_char) -> *mut c_void;
}

pub struct Calls {
    /// The length of the state memory.
    state: usize,
    start: Start,
    frame: Take,
    list: List,
}

/// Where the engine's calls are found.
pub trait Archive {
    fn calls() -> &'static Calls;
}

pub struct Linked;

impl Archive for Linked {
    fn calls() -> &'static Calls {
        &Calls { state: STATE, start: fennelrake_start, frame: fennelrake_frame, list: fennelrake_list }
    }
}

/// An earlier archive, made into a shared library.
pub struct Earlier;

static EARLIER: OnceLock<Calls> = OnceLock::new();

/// The document's bound on state and buffers.
const ROOM: usize = 65536;

/// The only length of state memory that a start takes.
fn state_length(start: Start) -> Option<usize> {
    let mut room = vec![0; ROOM];
    // SAFETY: the pointer is of a slice of at least the length
    (0..=ROOM).find(|&len| unsafe { start(room.as_mut_ptr(), len, 1, 1) } == 0)
}

impl Earlier {
    pub fn load(path: &str) {
        const RTLD_NOW_LOCAL: c_int = 2;
        let path_in_c = CString::new(path).expect("a path");
        // SAFETY: the path ends with a zero byte; the library runs no code of its own when it is loaded
        let library = unsafe { dlopen(path_in_c.as_ptr(), RTLD_NOW_LOCAL) };
        assert!(!library.is_null(), "{path}: no shared library");
        let find = |name: &CStr| {
            // SAFETY: the library was loaded, and the name ends with a zero byte
            let call = unsafe { dlsym(library, name.as_ptr()) };
            assert!(!call.is_null(), "{path}: no {name:?}");
            call
        };
        // SAFETY: the header gives the functions of these names these types
        let (start, frame, list) = unsafe {
            (
                std::mem::transmute::<*mut c_void, Start>(find(c"fennelrake_start")),
                std::mem::transmute::<*mut c_void, Take>(find(c"fennelrake_frame")),
                std::mem::transmute::<*mut c_void, List>(find(c"fennelrake_list")),
            )
        };
        let state = state_length(start).unwrap_or_else(|| panic!("{path}: its start takes no state memory"));
        assert!(EARLIER.set(Calls { state, start, frame, list }).is_ok(), "loaded twice");
    }
}

impl Archive for Earlier {
    fn calls() -> &'static Calls {
        EARLIER.get().expect("a loaded library")
    }
}

pub struct Engine<A> {
    state: Vec<u8>,
    archive: PhantomData<A>,
}

pub type Proved = Engine<Linked>;

/// What an earlier archive may not have.
impl Proved {
    /// The answer of a search.
    pub fn search(&self, bytes: &[u8]) -> [u8; SEARCH_ANSWER] {
        let mut answer = [0; SEARCH_ANSWER];
        // SAFETY: each pointer and length are of one slice, and the slices don't overlap
        let number = unsafe { fennelrake_search(self.state.as_ptr(), STATE, bytes.as_ptr(), bytes.len(), answer.as_mut_ptr(), SEARCH_ANSWER) };
        assert_eq!(number, 0);
        answer
    }

    /// The answer of a closeness.
    pub fn closeness(&self, serial: u32, number: u32) -> [u8; CLOSENESS_ANSWER] {
        let mut answer = [0; CLOSENESS_ANSWER];
        // SAFETY: as above
        let refusal = unsafe { fennelrake_closeness(self.state.as_ptr(), STATE, serial, number, answer.as_mut_ptr(), CLOSENESS_ANSWER) };
        assert_eq!(refusal, 0);
        answer
    }

    /// How many lines a screen places.
    pub fn screen(&self, lines: u32, out: &mut [u8]) -> usize {
        let out = &mut out[..LINE * lines as usize];
        // SAFETY: as above
        let placed = unsafe { fennelrake_screen(self.state.as_ptr(), STATE, lines, out.as_mut_ptr(), out.len()) };
        assert_eq!(placed >> 32, 0);
        placed as usize
    }
}

impl<A: Archive> Engine<A> {
    pub fn state(&self) -> &[u8] {
        &self.state
    }

    /// The number by which a list is answered.
    pub fn list_into(&self, number: u32, answer: &mut [u8; LIST_ANSWER]) -> u32 {
        // SAFETY: as above
        unsafe { (A::calls().list)(self.state.as_ptr(), self.state.len(), number, answer.as_mut_ptr(), LIST_ANSWER) }
    }
}

impl<A: Archive> Method for Engine<A> {
    fn start(capacity: usize, life: u32) -> Self {
        let mut state = vec![0; A::calls().state];
        // SAFETY: the pointer and length are of one slice
        assert_eq!(unsafe { (A::calls().start)(state.as_mut_ptr(), state.len(), capacity as u32, life) }, 0);
        Engine { state, archive: PhantomData }
    }

    fn frame(&mut self, bytes: &[u8]) -> Result<usize, u32> {
        let (mut answer, state) = ([0; FRAME_ANSWER], &mut self.state[..]);
        // SAFETY: each pointer and length are of one slice, and the slices don't overlap
        let number = unsafe { (A::calls().frame)(state.as_mut_ptr(), state.len(), bytes.as_ptr(), bytes.len(), answer.as_mut_ptr(), FRAME_ANSWER) };
        match number {
            0 => Ok(word(&answer, 0).count_ones() as usize),
            refusal => Err(refusal),
        }
    }

    fn list(&self, q: usize) -> Vec<(u32, u32)> {
        let mut answer = [0; LIST_ANSWER];
        assert_eq!(self.list_into(q as u32, &mut answer), 0);
        (0..word(&answer, 0) as usize).map(|i| (word(&answer, 1 + i), word(&answer, 17 + i))).collect()
    }
}
