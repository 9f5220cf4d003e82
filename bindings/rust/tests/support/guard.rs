//! Memory between two pages that may not be touched: a byte read or written outside what was lent stops the process.

use fantailclock::Result;
use std::os::raw::{c_int, c_void};

extern "C" {
    fn getpagesize() -> c_int;
    fn mmap(at: *mut c_void, len: usize, allowed: c_int, flags: c_int, file: c_int, offset: i64) -> *mut c_void;
    fn mprotect(at: *mut c_void, len: usize, allowed: c_int) -> c_int;
}

const NOTHING: c_int = 0;
const READING: c_int = 1;
const READING_AND_WRITING: c_int = 3;
const PRIVATE_ANONYMOUS: c_int = 0x22;

/// Against which of the two guard pages memory is lent.
#[derive(Clone, Copy, Debug)]
pub enum Place {
    Front,
    Back,
}

pub const PLACES: [Place; 2] = [Place::Front, Place::Back];

/// A page between two guard pages. It is never given back: a test has two of them.
pub struct Guarded {
    page: *mut u8,
    len: usize,
    allowed: c_int,
}

impl Guarded {
    pub fn new() -> Guarded {
        // SAFETY: fresh memory of three pages; only the middle one is opened.
        unsafe {
            let len = getpagesize() as usize;
            let at = mmap(std::ptr::null_mut(), 3 * len, NOTHING, PRIVATE_ANONYMOUS, -1, 0);
            assert_ne!(at as isize, -1, "mmap");
            Guarded { page: at.cast::<u8>().add(len), len, allowed: NOTHING }
        }
    }

    fn allow(&mut self, allowed: c_int) {
        if self.allowed != allowed {
            // SAFETY: the page is this struct's own.
            assert_eq!(unsafe { mprotect(self.page.cast(), self.len, allowed) }, 0, "mprotect");
            self.allowed = allowed;
        }
    }

    /// The whole page between the guards, open for writing.
    pub fn page(&mut self) -> &mut [u8] {
        self.allow(READING_AND_WRITING);
        // SAFETY: the page is open, and borrowed with the struct.
        unsafe { std::slice::from_raw_parts_mut(self.page, self.len) }
    }

    /// Where memory of this length begins in the page.
    pub fn place(&self, place: Place, len: usize) -> usize {
        assert!(len <= self.len, "memory of {len} bytes does not fit a page");
        match place {
            Place::Front => 0,
            Place::Back => self.len - len,
        }
    }

    pub fn lend(&mut self, place: Place, len: usize) -> &mut [u8] {
        let from = self.place(place, len);
        &mut self.page()[from..from + len]
    }

    /// The bytes in the page, which is then closed for writing.
    pub fn lend_read_only(&mut self, place: Place, bytes: &[u8]) -> &[u8] {
        self.page().fill(0x5A);
        self.lend(place, bytes.len()).copy_from_slice(bytes);
        self.allow(READING);
        let from = self.place(place, bytes.len());
        // SAFETY: the page may be read, and is borrowed with the struct.
        unsafe { std::slice::from_raw_parts(self.page.add(from), bytes.len()) }
    }
}

/// A call of an entry point: input, output memory, and the count that it answers.
pub type Call<'a> = &'a dyn Fn(&[u8], &mut [u8]) -> Result<usize>;

/// A call with what it is lent and what must come of it.
pub struct Case<'a> {
    pub entry: &'static str,
    pub about: String,
    pub input: &'a [u8],
    pub room: usize,
    /// The bytes at the front of the memory afterwards, which the call counts, or the refusal.
    pub expected: Result<Vec<u8>>,
    pub call: Call<'a>,
}

/// Makes calls with all memory against guard pages.
pub struct Harness {
    input: Guarded,
    output: Guarded,
    pub calls: u64,
    pub entries: Vec<&'static str>,
}

impl Harness {
    pub fn new() -> Harness {
        Harness { input: Guarded::new(), output: Guarded::new(), calls: 0, entries: Vec::new() }
    }

    /// The call with input and output memory at either end of their pages; the answer, every byte of the lent memory and
    /// every byte beside it must be as expected.
    pub fn check(&mut self, case: &Case) {
        for from in PLACES {
            for to in PLACES {
                self.check_at(case, from, to);
            }
        }
    }

    /// The same at one end of each page, the next call at another.
    pub fn check_once(&mut self, case: &Case) {
        let place = |bit: u32| PLACES[(self.calls >> bit & 1) as usize];
        self.check_at(case, place(0), place(1));
    }

    fn check_at(&mut self, case: &Case, from: Place, to: Place) {
        self.calls += 1;
        if !self.entries.contains(&case.entry) {
            self.entries.push(case.entry);
        }
        let pattern = (0xC3 ^ self.calls) as u8;
        let mut expected = vec![pattern; self.output.len];
        if let Ok(bytes) = &case.expected {
            let at = self.output.place(to, case.room);
            expected[at..at + bytes.len()].copy_from_slice(bytes);
        }
        self.output.page().fill(pattern);
        let input = self.input.lend_read_only(from, case.input);
        let answer = (case.call)(input, self.output.lend(to, case.room));
        let what = || format!("{}, {}, input at {from:?}, memory of {} at {to:?}", case.entry, case.about, case.room);
        assert_eq!(answer, case.expected.as_ref().map(Vec::len).map_err(|refusal| *refusal), "{}", what());
        assert!(self.output.page() == expected, "{}: memory is not as expected", what());
    }
}
