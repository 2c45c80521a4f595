//! The static libraries, and what they call.

use crate::session;

/// A filter that serves: it does what `bench_next` tells, as often as the last number says, and reports each time by `bench_done`.
pub type Serve = unsafe extern "C" fn(u32, u32, *mut u64, usize, *mut u64, usize, u32) -> bool;

macro_rules! served {
    ($($name:ident),*) => {
        unsafe extern "C" {
            $(fn $name(
                q: u32,
                r: u32,
                words: *mut u64,
                words_len: usize,
                list: *mut u64,
                list_len: usize,
                steps: u32,
            ) -> bool;)*
        }
    };
}

served!(bench_serve, bench_serve3);

/// The filter as it is built by default.
pub const USUAL: Serve = bench_serve;

/// The filter as it is built for x86-64-v3.
pub const NEWER: Serve = bench_serve3;

/// Serves from an empty filter over the words, with memory for lists; whether the plan was one.
pub fn serve(it: Serve, q: u32, r: u32, words: &mut [u64], list: &mut [u64], steps: u32) -> bool {
    // SAFETY: a slice goes as its address and its length, and the library keeps neither after the call.
    unsafe {
        it(
            q,
            r,
            words.as_mut_ptr(),
            words.len(),
            list.as_mut_ptr(),
            list.len(),
            steps,
        )
    }
}

#[unsafe(no_mangle)]
extern "C" fn bench_next(list: *mut u64, len: usize, many: &mut u64) -> u32 {
    // SAFETY: the library lends the list for the time of this call.
    session::next(unsafe { std::slice::from_raw_parts_mut(list, len) }, many)
}

#[unsafe(no_mangle)]
extern "C" fn bench_done(count: u64, words: *const u64, len: usize) {
    // SAFETY: the library lends the words for the time of this call.
    session::done(count, unsafe { std::slice::from_raw_parts(words, len) });
}
