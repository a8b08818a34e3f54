//! The proved library's C boundary, with the signatures of the reference.

use std::ffi::{c_char, c_void, CStr, CString};

use crate::reference::{Plan, Verdict};

/// The version of the boundary that is declared here.
pub const VERSION: u32 = 8;
/// The first version whose calls have these types.
const SINCE: u32 = 8;

#[repr(C)]
#[derive(Clone, Copy)]
struct RawAnswer {
    refusal: u32,
    value: u32,
}

#[repr(C)]
#[derive(Clone, Copy)]
struct RawVerdict {
    refusal: u32,
    verdict: u32,
    value: u32,
    error: u32,
    shortfall: i64,
}

type Version = unsafe extern "C" fn() -> u32;
type Read = unsafe extern "C" fn(*const u8, usize, usize, *mut u8, usize) -> RawAnswer;
type Evaluate =
    unsafe extern "C" fn(*const u8, usize, usize, usize, usize, *const u16, usize, *mut u64, usize) -> RawAnswer;
type FirstSlot = unsafe extern "C" fn(u64) -> u32;
type Write = unsafe extern "C" fn(*const u8, usize, usize, usize, usize, *mut u8, usize) -> RawAnswer;
type Judge = unsafe extern "C" fn(*const u8, usize, usize, usize, usize, *const i32, usize, i32) -> RawVerdict;

extern "C" {
    fn sepia_version() -> u32;
    fn sepia_read(text: *const u8, text_len: usize, m: usize, out: *mut u8, out_len: usize) -> RawAnswer;
    fn sepia_evaluate(
        table: *const u8,
        table_len: usize,
        t: usize,
        m: usize,
        l: usize,
        run: *const u16,
        run_len: usize,
        out: *mut u64,
        out_words: usize,
    ) -> RawAnswer;
    fn sepia_first_slot(word: u64) -> u32;
    fn sepia_rows(
        table: *const u8,
        table_len: usize,
        t: usize,
        m: usize,
        l: usize,
        out: *mut u8,
        out_len: usize,
    ) -> RawAnswer;
    fn sepia_mps(
        table: *const u8,
        table_len: usize,
        t: usize,
        m: usize,
        l: usize,
        out: *mut u8,
        out_len: usize,
    ) -> RawAnswer;
    fn sepia_judge(
        table: *const u8,
        table_len: usize,
        t: usize,
        m: usize,
        l: usize,
        figures: *const i32,
        figures_len: usize,
        e: i32,
    ) -> RawVerdict;
}

extern "C" {
    fn dlopen(path: *const c_char, flags: i32) -> *mut c_void;
    fn dlsym(object: *mut c_void, name: *const c_char) -> *mut c_void;
}

/// Linux's flag for all symbols at once.
const RTLD_NOW: i32 = 2;

/// A library's calls.
pub struct Library {
    version: Version,
    read: Read,
    evaluate: Evaluate,
    first_slot: FirstSlot,
    rows: Write,
    mps: Write,
    judge: Judge,
}

/// The one that is linked.
pub const LINKED: Library = Library {
    version: sepia_version,
    read: sepia_read,
    evaluate: sepia_evaluate,
    first_slot: sepia_first_slot,
    rows: sepia_rows,
    mps: sepia_mps,
    judge: sepia_judge,
};

fn answer(raw: RawAnswer) -> Result<usize, u32> {
    match raw.refusal {
        0 => Ok(raw.value as usize),
        refusal => Err(refusal),
    }
}

/// The function of this name in a shared object.
///
/// # Safety
/// It has the type `F`, which is that of a function pointer.
unsafe fn symbol<F: Copy>(object: *mut c_void, name: &CStr) -> F {
    let found = dlsym(object, name.as_ptr());
    assert!(!found.is_null(), "{name:?} is not there");
    std::mem::transmute_copy(&found)
}

impl Library {
    /// That of a shared object, which stays open.
    pub fn open(path: &str) -> Library {
        let name = CString::new(path).expect("a path");
        // SAFETY: `name` ends in a zero, and from that version on each function has the type of its declaration above.
        unsafe {
            let object = dlopen(name.as_ptr(), RTLD_NOW);
            assert!(!object.is_null(), "{path} cannot be opened");
            let library = Library {
                version: symbol(object, c"sepia_version"),
                read: symbol(object, c"sepia_read"),
                evaluate: symbol(object, c"sepia_evaluate"),
                first_slot: symbol(object, c"sepia_first_slot"),
                rows: symbol(object, c"sepia_rows"),
                mps: symbol(object, c"sepia_mps"),
                judge: symbol(object, c"sepia_judge"),
            };
            assert!((SINCE..=VERSION).contains(&library.version()), "{path} has version {}", library.version());
            library
        }
    }

    pub fn version(&self) -> u32 {
        // SAFETY: nothing is lent.
        unsafe { (self.version)() }
    }

    pub fn read(&self, text: &[u8], m: usize, out: &mut [u8]) -> Result<usize, u32> {
        // SAFETY: each pointer comes with its slice's length, and only `out` is written.
        answer(unsafe { (self.read)(text.as_ptr(), text.len(), m, out.as_mut_ptr(), out.len()) })
    }

    pub fn evaluate(&self, table: &[u8], Plan { t, m, l }: Plan, run: &[u16], out: &mut [u64]) -> Result<usize, u32> {
        // SAFETY: as in `read`.
        answer(unsafe {
            (self.evaluate)(table.as_ptr(), table.len(), t, m, l, run.as_ptr(), run.len(), out.as_mut_ptr(), out.len())
        })
    }

    pub fn first_slot(&self, word: u64) -> Option<usize> {
        // SAFETY: nothing is lent.
        match unsafe { (self.first_slot)(word) } {
            0 => None,
            slot => Some(slot as usize),
        }
    }

    pub fn rows(&self, table: &[u8], Plan { t, m, l }: Plan, out: &mut [u8]) -> Result<usize, u32> {
        // SAFETY: as in `read`.
        answer(unsafe { (self.rows)(table.as_ptr(), table.len(), t, m, l, out.as_mut_ptr(), out.len()) })
    }

    pub fn mps_page(&self, table: &[u8], Plan { t, m, l }: Plan, out: &mut [u8]) -> Result<usize, u32> {
        // SAFETY: as in `read`.
        answer(unsafe { (self.mps)(table.as_ptr(), table.len(), t, m, l, out.as_mut_ptr(), out.len()) })
    }

    pub fn judge(&self, table: &[u8], Plan { t, m, l }: Plan, figures: &[i32], e: i32) -> Result<Verdict, u32> {
        // SAFETY: as in `read`; nothing is written.
        let raw = unsafe { (self.judge)(table.as_ptr(), table.len(), t, m, l, figures.as_ptr(), figures.len(), e) };
        let value = raw.value as usize;
        match (raw.refusal, raw.verdict, raw.error, raw.shortfall) {
            (0, 0, 0, 0) => Ok(Verdict::Outside(value)),
            (0, 1, 0, 0) => Ok(Verdict::NotBinary(value)),
            (0, 2, 0, shortfall) => Ok(Verdict::Broken(value, shortfall)),
            (0, 3, error, 0) => Ok(Verdict::Passed(value, error)),
            (0, ..) => Err(0), // no verdict of the paper: nothing that the reference answers
            (refusal, 0, 0, 0) if value == 0 => Err(refusal),
            (..) => Err(0),
        }
    }
}
