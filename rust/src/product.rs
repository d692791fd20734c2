//! The proved static library behind safe functions. `include/turning.h` says what each call answers.

pub mod kerbs;

use crate::runs::Runs;
use crate::{Listing, Swept};

mod linked {
    extern "C" {
        pub fn turning_sweep(job: *const u8, job_len: usize, answer: *mut i64, answer_len: usize) -> u32;
        pub fn turning_run(
            job: *const u8,
            job_len: usize,
            xs: *mut i32,
            xs_len: usize,
            ys: *mut i32,
            ys_len: usize,
            gxs: *mut i32,
            gxs_len: usize,
            gys: *mut i32,
            gys_len: usize,
            left: *mut i32,
            left_len: usize,
            right: *mut i32,
            right_len: usize,
            marks: *mut u32,
            marks_len: usize,
            answer: *mut i64,
            answer_len: usize,
        ) -> u32;
        pub fn turning_settings(
            job: *const u8,
            job_len: usize,
            lowest: u32,
            pitch: u32,
            number: u32,
            xs: *mut i32,
            xs_len: usize,
            ys: *mut i32,
            ys_len: usize,
            gxs: *mut i32,
            gxs_len: usize,
            gys: *mut i32,
            gys_len: usize,
            left: *mut i32,
            left_len: usize,
            right: *mut i32,
            right_len: usize,
            marks: *mut u32,
            marks_len: usize,
            answer: *mut i64,
            answer_len: usize,
        ) -> u32;
        pub fn turning_path_turn(gx: i64, gy: i64, s: u32, r: i32, answer: *mut i64, answer_len: usize) -> u32;
        pub fn turning_unit_turn(
            dx: i64,
            dy: i64,
            fx: i64,
            fy: i64,
            wheelbase: u32,
            answer: *mut i64,
            answer_len: usize,
        ) -> u32;
    }
}

/// The number answered; `answer` needs 8 entries, else 21 is answered and nothing written.
pub fn sweep_into(job: &[u8], answer: &mut [i64]) -> u32 {
    // SAFETY: both runs are borrowed for the call, with their own lengths, and cannot overlap.
    unsafe { linked::turning_sweep(job.as_ptr(), job.len(), answer.as_mut_ptr(), answer.len()) }
}

/// The number answered; `answer` needs 8 entries, and each run one for every station of the job, else 21
/// is answered and nothing written.
pub fn run_into(job: &[u8], runs: &mut Runs, answer: &mut [i64]) -> u32 {
    // SAFETY: all runs are borrowed for the call, with their own lengths, and cannot overlap.
    unsafe {
        linked::turning_run(
            job.as_ptr(),
            job.len(),
            runs.xs.as_mut_ptr(),
            runs.xs.len(),
            runs.ys.as_mut_ptr(),
            runs.ys.len(),
            runs.gxs.as_mut_ptr(),
            runs.gxs.len(),
            runs.gys.as_mut_ptr(),
            runs.gys.len(),
            runs.left.as_mut_ptr(),
            runs.left.len(),
            runs.right.as_mut_ptr(),
            runs.right.len(),
            runs.marks.as_mut_ptr(),
            runs.marks.len(),
            answer.as_mut_ptr(),
            answer.len(),
        )
    }
}

/// The number answered; `answer` needs 7 entries, and each run one for every station of the job, else 21
/// is answered and nothing written. With 0 and with 30 the runs hold the last setting's walk.
pub fn settings_into(job: &[u8], lowest: u32, pitch: u32, number: u32, runs: &mut Runs, answer: &mut [i64]) -> u32 {
    // SAFETY: all runs are borrowed for the call, with their own lengths, and cannot overlap.
    unsafe {
        linked::turning_settings(
            job.as_ptr(),
            job.len(),
            lowest,
            pitch,
            number,
            runs.xs.as_mut_ptr(),
            runs.xs.len(),
            runs.ys.as_mut_ptr(),
            runs.ys.len(),
            runs.gxs.as_mut_ptr(),
            runs.gxs.len(),
            runs.gys.as_mut_ptr(),
            runs.gys.len(),
            runs.left.as_mut_ptr(),
            runs.left.len(),
            runs.right.as_mut_ptr(),
            runs.right.len(),
            runs.marks.as_mut_ptr(),
            runs.marks.len(),
            answer.as_mut_ptr(),
            answer.len(),
        )
    }
}

/// The number answered; `answer` needs 4 entries, else 21 is answered and nothing written.
pub fn path_turn_into(gx: i64, gy: i64, s: u32, r: i32, answer: &mut [i64]) -> u32 {
    // SAFETY: the run is borrowed for the call, with its own length.
    unsafe { linked::turning_path_turn(gx, gy, s, r, answer.as_mut_ptr(), answer.len()) }
}

/// The number answered; `answer` needs 2 entries, else 21 is answered and nothing written.
pub fn unit_turn_into(dx: i64, dy: i64, fx: i64, fy: i64, wheelbase: u32, answer: &mut [i64]) -> u32 {
    // SAFETY: the run is borrowed for the call, with its own length.
    unsafe { linked::turning_unit_turn(dx, dy, fx, fy, wheelbase, answer.as_mut_ptr(), answer.len()) }
}

/// What the number that `sweep_into` and `run_into` answer tells, as the macros of `include/turning.h` take it apart.
#[derive(Clone, Copy, Debug, PartialEq, Eq)]
pub enum Told {
    /// The answer run is written.
    Finished,
    /// 1 to 10 with the byte where the field starts; 21, which names none, with 0.
    Refused { number: u32, at: usize },
    /// 22 or 23 with the unit and the step, both counted from 1.
    Stopped { number: u32, unit: u32, step: u32 },
}

impl Told {
    pub fn of(answered: u32) -> Told {
        match answered & 255 {
            0 => Told::Finished,
            number @ 22..=23 => Told::Stopped { number, unit: answered >> 8 & 255, step: answered >> 16 },
            number => Told::Refused { number, at: answered as usize >> 8 },
        }
    }

    /// With the eight entries that a finished walk has written.
    fn with(self, answer: [i64; 8]) -> Swept {
        match self {
            Told::Finished => {
                let [steps, complete, station, width, left, right, x, y] = answer;
                let place = (station as u32, width, left, right);
                Swept::Finished { steps: steps as u32, widest: (complete == 1).then_some(place), front: (x, y) }
            }
            Told::Refused { number, at } => Swept::Refused { number, at },
            Told::Stopped { number, unit, step } => Swept::Stopped { number, unit, step },
        }
    }
}

/// One job from its bytes to its answer.
pub fn sweep(job: &[u8]) -> Swept {
    let mut answer = [0; 8];
    Told::of(sweep_into(job, &mut answer)).with(answer)
}

/// The same on lent runs, which hold afterwards what the stations hold.
pub fn run(job: &[u8], runs: &mut Runs) -> Swept {
    let mut answer = [0; 8];
    Told::of(run_into(job, runs, &mut answer)).with(answer)
}

/// The best three of 1 to 32 last wheelbases, `lowest` and each next one `pitch` longer, on lent runs, which
/// hold the last setting's walk afterwards where it lists some or none fits (30).
pub fn settings(job: &[u8], lowest: u32, pitch: u32, number: u32, runs: &mut Runs) -> Listing {
    let mut answer = [0; 7];
    let answered = settings_into(job, lowest, pitch, number, runs, &mut answer);
    match answered & 255 {
        0 => {
            let best = answer[1..].chunks(2).take(answer[0] as usize);
            Listing::Listed(best.map(|pair| (pair[0] as u32, pair[1])).collect())
        }
        number @ 1..=10 => Listing::Refused { number, at: answered as usize >> 8 },
        _ => Listing::Unlisted { number: answered },
    }
}

/// The path turn: heading x, y and move x, y, or 6, 7 or 8.
pub fn path_turn(gx: i64, gy: i64, s: u32, r: i32) -> Result<[i64; 4], u32> {
    let mut answer = [0; 4];
    match path_turn_into(gx, gy, s, r, &mut answer) {
        0 => Ok(answer),
        number => Err(number),
    }
}

/// The single unit's turn: the new vector, or 27 or 22.
pub fn unit_turn(dx: i64, dy: i64, fx: i64, fy: i64, wheelbase: u32) -> Result<[i64; 2], u32> {
    let mut answer = [0; 2];
    match unit_turn_into(dx, dy, fx, fy, wheelbase, &mut answer) {
        0 => Ok(answer),
        number => Err(number),
    }
}
