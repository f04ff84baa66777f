//! What the fuzzers share: libFuzzer's entry points, chance, the tally of answers.

use second::wrong::{reading_from_environment, Reading};
use std::collections::BTreeMap;
use std::sync::{Mutex, OnceLock};

extern "C" {
    fn LLVMFuzzerMutate(bytes: *mut u8, length: usize, most: usize) -> usize;
    fn atexit(call: extern "C" fn()) -> i32;
}

/// Makes libFuzzer's two entry points of a check and a mutator.
#[macro_export]
macro_rules! fuzz_target {
    ($check:path, $mutate:path) => {
        /// # Safety
        /// libFuzzer lends `length` bytes.
        #[no_mangle]
        pub unsafe extern "C" fn LLVMFuzzerTestOneInput(bytes: *const u8, length: usize) -> i32 {
            $check($crate::common::lent(bytes, length));
            $crate::places::note();
            0
        }

        /// # Safety
        /// libFuzzer lends `most` bytes, of which `length` are the input.
        #[no_mangle]
        pub unsafe extern "C" fn LLVMFuzzerCustomMutator(
            bytes: *mut u8,
            length: usize,
            most: usize,
            seed: u32,
        ) -> usize {
            let mut chance = $crate::common::Chance::new(seed);
            let mut input = $crate::common::lent(bytes, length).to_vec();
            $mutate(&mut input, most, &mut chance);
            input.truncate(most);
            std::ptr::copy_nonoverlapping(input.as_ptr(), bytes, input.len());
            input.len()
        }
    };
}

/// # Safety
/// The bytes are readable; none need be where the length is 0.
pub unsafe fn lent<'a>(bytes: *const u8, length: usize) -> &'a [u8] {
    match length {
        0 => &[],
        _ => std::slice::from_raw_parts(bytes, length),
    }
}

/// libFuzzer's own mutation, on a part of an input.
pub fn mutate_bytes(bytes: &mut Vec<u8>, most: usize) {
    let length = bytes.len();
    let most = most.max(length).max(1);
    bytes.resize(most, 0);
    let now = unsafe { LLVMFuzzerMutate(bytes.as_mut_ptr(), length, most) };
    bytes.truncate(now);
}

/// Numbers by chance from libFuzzer's seed, so that a run can be had again.
pub struct Chance(u64);

impl Chance {
    pub fn new(seed: u32) -> Chance {
        Chance(u64::from(seed).wrapping_mul(0x9e37_79b9_7f4a_7c15) | 1)
    }

    pub fn below(&mut self, end: usize) -> usize {
        self.0 ^= self.0 << 13;
        self.0 ^= self.0 >> 7;
        self.0 ^= self.0 << 17;
        (self.0 >> 11) as usize % end.max(1)
    }

    pub fn one_in(&mut self, count: usize) -> bool {
        self.below(count) == 0
    }

    pub fn pick<T: Copy>(&mut self, from: &[T]) -> T {
        from[self.below(from.len())]
    }

    /// Mostly among few, so that carriers meet: the first three, and the first and last of each quarter,
    /// where the words of a set of sheets begin and end. Sometimes any, or just past the end.
    pub fn number(&mut self, end: u32) -> u32 {
        let quarter = self.below(4) as u32 * (end / 4);
        match self.below(16) {
            0 => self.below(end as usize) as u32,
            1 => end,
            2..=4 => quarter,
            5..=7 => end - 1 - quarter,
            _ => self.below(3) as u32,
        }
    }
}

/// SECOND_WRONG gives the second program a wrong reading, so that the fuzzer can be seen to find it.
pub fn reading() -> Reading {
    static READING: OnceLock<Reading> = OnceLock::new();
    *READING.get_or_init(|| reading_from_environment().expect("SECOND_WRONG"))
}

/// A difference is a finding: libFuzzer keeps the input.
pub fn differs(what: &str, gate: &[u8], second: &[u8]) -> ! {
    eprintln!("DIFFERENT: {what}");
    eprintln!("the gate:           {}", gate.escape_ascii());
    eprintln!("the second program: {}", second.escape_ascii());
    std::process::abort();
}

static TALLY: Mutex<BTreeMap<String, u64>> = Mutex::new(BTreeMap::new());

/// Counts an answer; the counts are printed when the fuzzer ends.
pub fn tally(answer: &str) {
    let mut counts = TALLY.lock().expect("one thread");
    if counts.is_empty() {
        unsafe { atexit(print_tally) };
    }
    match counts.get_mut(answer) {
        Some(count) => *count += 1,
        None => {
            counts.insert(answer.to_string(), 1);
        }
    }
}

extern "C" fn print_tally() {
    crate::places::print();
    for (answer, count) in TALLY.lock().expect("one thread").iter() {
        eprintln!("answer: {count} {answer}");
    }
}

/// FUZZ_CASE: instead of a run, the input is printed as a case for `compare replay`.
pub fn case_wanted() -> bool {
    std::env::var_os("FUZZ_CASE").is_some()
}

pub fn hexadecimal(bytes: &[u8]) -> String {
    bytes.iter().map(|byte| format!("{byte:02x}")).collect()
}
