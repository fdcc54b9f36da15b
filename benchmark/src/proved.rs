//! The proved library, as `include/peltquarry.h` declares it.

mod c {
    extern "C" {
        pub fn peltquarry_judge(words: *const u32, n: usize, verdicts: *mut u32, m: usize) -> u32;
        pub fn peltquarry_fresh(docket: *mut u32, n: usize) -> u32;
        pub fn peltquarry_offer(docket: *mut u32, n: usize, words: *const u32, m: usize) -> u32;
        pub fn peltquarry_signals(
            setup: *const u32,
            n: usize,
            later: *const u32,
            m: usize,
            out: *mut u32,
            k: usize,
        ) -> u32;
        pub fn peltquarry_batch(words: *const u32, n: usize, out: *mut u32, m: usize) -> u32;
        pub fn peltquarry_join(
            first: *const u32,
            n: usize,
            second: *const u32,
            m: usize,
            joined: *mut u32,
            k: usize,
            size: *mut usize,
        ) -> u32;
    }
}

pub fn judge(words: &[u32], verdicts: &mut [u32]) -> u32 {
    unsafe {
        c::peltquarry_judge(
            words.as_ptr(),
            words.len(),
            verdicts.as_mut_ptr(),
            verdicts.len(),
        )
    }
}

pub fn fresh(docket: &mut [u32]) -> u32 {
    unsafe { c::peltquarry_fresh(docket.as_mut_ptr(), docket.len()) }
}

pub fn offer(docket: &mut [u32], words: &[u32]) -> u32 {
    unsafe {
        c::peltquarry_offer(
            docket.as_mut_ptr(),
            docket.len(),
            words.as_ptr(),
            words.len(),
        )
    }
}

pub fn signals(setup: &[u32], later: &[u32], out: &mut [u32]) -> u32 {
    unsafe {
        c::peltquarry_signals(
            setup.as_ptr(),
            setup.len(),
            later.as_ptr(),
            later.len(),
            out.as_mut_ptr(),
            out.len(),
        )
    }
}

pub fn judge_batch(words: &[u32], out: &mut [u32]) -> u32 {
    unsafe { c::peltquarry_batch(words.as_ptr(), words.len(), out.as_mut_ptr(), out.len()) }
}

pub fn join(first: &[u32], second: &[u32], joined: &mut [u32], size: &mut usize) -> u32 {
    unsafe {
        c::peltquarry_join(
            first.as_ptr(),
            first.len(),
            second.as_ptr(),
            second.len(),
            joined.as_mut_ptr(),
            joined.len(),
            size,
        )
    }
}
