//! The library's two functions for kerbs behind safe ones. `include/turning.h` says what each call answers.

use crate::{Intake, Report};

mod linked {
    extern "C" {
        pub fn turning_kerb_ticks(
            geometry: *const u8,
            geometry_len: usize,
            xs: *mut i32,
            xs_len: usize,
            ys: *mut i32,
            ys_len: usize,
            answer: *mut i64,
            answer_len: usize,
        ) -> u32;
        pub fn turning_kerb_touch(
            job: *const u8,
            job_len: usize,
            vertices: usize,
            xs: *const i32,
            xs_len: usize,
            ys: *const i32,
            ys_len: usize,
            answer: *mut i64,
            answer_len: usize,
        ) -> u32;
    }
}

/// The number answered; `answer` needs an entry, and each run one for every vertex, else 21 is answered and nothing
/// written.
pub fn take_in_into(geometry: &[u8], xs: &mut [i32], ys: &mut [i32], answer: &mut [i64]) -> u32 {
    // SAFETY: all runs are borrowed for the call, with their own lengths, and those written cannot overlap any other.
    unsafe {
        linked::turning_kerb_ticks(
            geometry.as_ptr(),
            geometry.len(),
            xs.as_mut_ptr(),
            xs.len(),
            ys.as_mut_ptr(),
            ys.len(),
            answer.as_mut_ptr(),
            answer.len(),
        )
    }
}

/// The number answered; `answer` needs 3 entries, and each run one for every vertex, else 21 is answered and nothing
/// written.
pub fn report_into(job: &[u8], vertices: usize, xs: &[i32], ys: &[i32], answer: &mut [i64]) -> u32 {
    // SAFETY: all runs are borrowed for the call, with their own lengths, and the one written cannot overlap any other.
    unsafe {
        linked::turning_kerb_touch(
            job.as_ptr(),
            job.len(),
            vertices,
            xs.as_ptr(),
            xs.len(),
            ys.as_ptr(),
            ys.len(),
            answer.as_mut_ptr(),
            answer.len(),
        )
    }
}

/// One geometry, from its bytes to the ticks of its vertices at the start of two lent runs.
pub fn take_in(geometry: &[u8], xs: &mut [i32], ys: &mut [i32]) -> Intake {
    let mut answer = [0];
    let answered = take_in_into(geometry, xs, ys, &mut answer);
    match answered & 255 {
        0 => Intake::Taken { vertices: answer[0] as usize },
        number @ 12..=13 => Intake::Refused { number, at: answered as usize >> 8 },
        _ => Intake::Untaken { number: answered },
    }
}

/// The report of a job's rig beside the kerb whose vertices stand at the start of the two runs.
pub fn report(job: &[u8], vertices: usize, xs: &[i32], ys: &[i32]) -> Report {
    let mut answer = [0; 3];
    let answered = report_into(job, vertices, xs, ys, &mut answer);
    match (answered & 255, answer) {
        (0, [0, _, _]) => Report::Clear,
        (0, [_, step, point]) => Report::Touched { step: step as u32, point: point as u32 },
        (number @ 1..=10, _) => Report::Refused { number, at: answered as usize >> 8 },
        (number @ 22..=23, _) => Report::Stopped { number, unit: answered >> 8 & 255, step: answered >> 16 },
        _ => Report::Unreported { number: answered },
    }
}
