//! The C functions of the proved library, and the only unsafe code of this package.
//!
//! What all calls below rely on: a slice goes over as its pointer and its length, so the library may read `len` elements of a shared slice and read
//! and write `len` elements of a unique one, for the duration of the call. The library is proved to stay within these elements, keeps no pointer
//! after it returns, has no state of its own, accepts every content, and writes only whole integers, for which every bit pattern is valid. Empty
//! slices are never read. Unique slices overlap nothing, which `&mut` guarantees. The two structs match `include/yeldaski.h` field by field.

#[repr(C)]
pub struct Outcome {
    pub refusal: u8,
    pub cost: u64,
    pub count: usize,
}

#[repr(C)]
pub struct Reply {
    pub refusal: u8,
    pub held: u8,
    pub cost: u64,
    pub count: usize,
}

#[rustfmt::skip]
mod c {
    use super::{Outcome, Reply};

    extern "C" {
        pub fn yeldaski_read_plan(file: *const u8, file_len: usize, readings: *mut i16, readings_len: usize) -> Outcome;
        pub fn yeldaski_write_plan(
            file: *const u8, file_len: usize, readings: *const i16, readings_len: usize, out: *mut u8, out_len: usize,
        ) -> Outcome;
        pub fn yeldaski_search(
            file: *const u8, file_len: usize, readings: *const i16, readings_len: usize,
            workspace: *mut u64, workspace_len: usize, runs: *mut i32, runs_len: usize,
        ) -> Outcome;
        pub fn yeldaski_point(
            file: *const u8, file_len: usize, readings: *const i16, readings_len: usize, state: u8, level: i16,
            workspace: *mut u64, workspace_len: usize,
        ) -> Outcome;
        pub fn yeldaski_windows(
            file: *const u8, file_len: usize, record: *const i16, record_len: usize, w: usize,
            workspace: *mut u64, workspace_len: usize, costs: *mut u64, costs_len: usize,
        ) -> Outcome;
        pub fn yeldaski_table(
            file: *const u8, file_len: usize, readings: *const i16, readings_len: usize, most: usize,
            workspace: *mut u64, workspace_len: usize, costs: *mut u64, costs_len: usize,
        ) -> Outcome;
        pub fn yeldaski_read_answer(file: *const u8, file_len: usize, runs: *mut i32, runs_len: usize) -> Reply;
        pub fn yeldaski_write_answer(cost: u64, runs: *const i32, runs_len: usize, out: *mut u8, out_len: usize) -> Outcome;
        pub fn yeldaski_write_refusal(number: u8, out: *mut u8, out_len: usize) -> Outcome;
        pub fn yeldaski_segment(
            file: *const u8, file_len: usize, readings: *mut i16, readings_len: usize,
            workspace: *mut u64, workspace_len: usize, runs: *mut i32, runs_len: usize, out: *mut u8, out_len: usize,
        ) -> Outcome;
    }
}

pub fn read_plan(file: &[u8], readings: &mut [i16]) -> Outcome {
    // Sound: `file` is only read, `readings` is ours alone.
    unsafe { c::yeldaski_read_plan(file.as_ptr(), file.len(), readings.as_mut_ptr(), readings.len()) }
}

pub fn write_plan(file: &[u8], readings: &[i16], out: &mut [u8]) -> Outcome {
    // Sound: `file` and `readings` are only read, `out` is ours alone.
    unsafe { c::yeldaski_write_plan(file.as_ptr(), file.len(), readings.as_ptr(), readings.len(), out.as_mut_ptr(), out.len()) }
}

pub fn search(file: &[u8], readings: &[i16], workspace: &mut [u64], runs: &mut [i32]) -> Outcome {
    // Sound: `file` and `readings` are only read, `workspace` and `runs` are ours alone.
    unsafe {
        c::yeldaski_search(
            file.as_ptr(),
            file.len(),
            readings.as_ptr(),
            readings.len(),
            workspace.as_mut_ptr(),
            workspace.len(),
            runs.as_mut_ptr(),
            runs.len(),
        )
    }
}

pub fn point(file: &[u8], readings: &[i16], state: u8, level: i16, workspace: &mut [u64]) -> Outcome {
    // Sound: `file` and `readings` are only read, `workspace` is ours alone; every state and level is accepted or refused.
    unsafe {
        c::yeldaski_point(
            file.as_ptr(),
            file.len(),
            readings.as_ptr(),
            readings.len(),
            state,
            level,
            workspace.as_mut_ptr(),
            workspace.len(),
        )
    }
}

pub fn windows(file: &[u8], record: &[i16], w: usize, workspace: &mut [u64], costs: &mut [u64]) -> Outcome {
    // Sound: `file` and `record` are only read, `workspace` and `costs` are ours alone; every w is accepted or refused.
    unsafe {
        c::yeldaski_windows(
            file.as_ptr(),
            file.len(),
            record.as_ptr(),
            record.len(),
            w,
            workspace.as_mut_ptr(),
            workspace.len(),
            costs.as_mut_ptr(),
            costs.len(),
        )
    }
}

pub fn table(file: &[u8], readings: &[i16], most: usize, workspace: &mut [u64], costs: &mut [u64]) -> Outcome {
    // Sound: `file` and `readings` are only read, `workspace` and `costs` are ours alone; every `most` is accepted or refused.
    unsafe {
        c::yeldaski_table(
            file.as_ptr(),
            file.len(),
            readings.as_ptr(),
            readings.len(),
            most,
            workspace.as_mut_ptr(),
            workspace.len(),
            costs.as_mut_ptr(),
            costs.len(),
        )
    }
}

pub fn read_answer(file: &[u8], runs: &mut [i32]) -> Reply {
    // Sound: `file` is only read, `runs` is ours alone.
    unsafe { c::yeldaski_read_answer(file.as_ptr(), file.len(), runs.as_mut_ptr(), runs.len()) }
}

pub fn write_answer(cost: u64, runs: &[i32], out: &mut [u8]) -> Outcome {
    // Sound: `runs` is only read, `out` is ours alone.
    unsafe { c::yeldaski_write_answer(cost, runs.as_ptr(), runs.len(), out.as_mut_ptr(), out.len()) }
}

pub fn write_refusal(number: u8, out: &mut [u8]) -> Outcome {
    // Sound: `out` is ours alone; every number is accepted or refused.
    unsafe { c::yeldaski_write_refusal(number, out.as_mut_ptr(), out.len()) }
}

pub fn segment(file: &[u8], readings: &mut [i16], workspace: &mut [u64], runs: &mut [i32], out: &mut [u8]) -> Outcome {
    // Sound: `file` is only read; the four other slices are ours alone.
    unsafe {
        c::yeldaski_segment(
            file.as_ptr(),
            file.len(),
            readings.as_mut_ptr(),
            readings.len(),
            workspace.as_mut_ptr(),
            workspace.len(),
            runs.as_mut_ptr(),
            runs.len(),
            out.as_mut_ptr(),
            out.len(),
        )
    }
}
