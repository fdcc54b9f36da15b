//! The proved library through its C interface: the only unsafe code here.

use crate::library::Library;

extern "C" {
    fn peltquarry_judge(words: *const u32, n: usize, verdicts: *mut u32, m: usize) -> u32;
    fn peltquarry_reading(value: f32, limit: f32, words: *mut u32, n: usize) -> u32;
    fn peltquarry_fresh(docket: *mut u32, n: usize) -> u32;
    fn peltquarry_offer(docket: *mut u32, n: usize, words: *const u32, m: usize) -> u32;
    fn peltquarry_signals(
        setup: *const u32,
        n: usize,
        later: *const u32,
        m: usize,
        signals: *mut u32,
        k: usize,
    ) -> u32;
    fn peltquarry_batch(words: *const u32, n: usize, answer: *mut u32, m: usize) -> u32;
    fn peltquarry_join(
        first: *const u32,
        n: usize,
        second: *const u32,
        m: usize,
        joined: *mut u32,
        k: usize,
        size: *mut usize,
    ) -> u32;
    fn peltquarry_list(
        bytes: *const u8,
        n: usize,
        text: *mut u8,
        m: usize,
        size: *mut usize,
    ) -> u32;
}

/// The library that `build.rs` links.
pub struct Proved;

// In every call below each pointer comes from a slice or a reference that lives
// through the call, each length is that slice's own, and what is written to was
// borrowed mutably.
impl Library for Proved {
    fn judge(&self, words: &[u32], verdicts: &mut [u32]) -> u32 {
        unsafe {
            peltquarry_judge(
                words.as_ptr(),
                words.len(),
                verdicts.as_mut_ptr(),
                verdicts.len(),
            )
        }
    }

    fn reading(&self, value: f32, limit: f32, words: &mut [u32]) -> u32 {
        unsafe { peltquarry_reading(value, limit, words.as_mut_ptr(), words.len()) }
    }

    fn fresh(&self, docket: &mut [u32]) -> u32 {
        unsafe { peltquarry_fresh(docket.as_mut_ptr(), docket.len()) }
    }

    fn offer(&self, docket: &mut [u32], words: &[u32]) -> u32 {
        unsafe {
            peltquarry_offer(
                docket.as_mut_ptr(),
                docket.len(),
                words.as_ptr(),
                words.len(),
            )
        }
    }

    fn signals(&self, setup: &[u32], later: &[u32], signals: &mut [u32]) -> u32 {
        unsafe {
            peltquarry_signals(
                setup.as_ptr(),
                setup.len(),
                later.as_ptr(),
                later.len(),
                signals.as_mut_ptr(),
                signals.len(),
            )
        }
    }

    fn batch(&self, words: &[u32], answer: &mut [u32]) -> u32 {
        unsafe {
            peltquarry_batch(
                words.as_ptr(),
                words.len(),
                answer.as_mut_ptr(),
                answer.len(),
            )
        }
    }

    fn join(&self, first: &[u32], second: &[u32], joined: &mut [u32], size: &mut usize) -> u32 {
        unsafe {
            peltquarry_join(
                first.as_ptr(),
                first.len(),
                second.as_ptr(),
                second.len(),
                joined.as_mut_ptr(),
                joined.len(),
                size,
            )
        }
    }

    fn list(&self, bytes: &[u8], text: &mut [u8], size: &mut usize) -> u32 {
        unsafe {
            peltquarry_list(
                bytes.as_ptr(),
                bytes.len(),
                text.as_mut_ptr(),
                text.len(),
                size,
            )
        }
    }
}
