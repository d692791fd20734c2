//! The reference's list of settings by itself: a worked job, and seeded jobs whose records are written anew.

use turning::jobs::{encode, Chance};
use turning::lists::{some_list, List};
use turning::runs::Runs;
use turning::settings::{settings, walks};
use turning::{bytes_of_hex, reference};

/// The paper's job: one unit of 50,000 on a straight of 65,000, where station 3, at 15,000, is the first that the
/// front corners cross, so that a wheelbase over 50,000 leaves no station complete.
fn worked_job() -> Vec<u8> {
    bytes_of_hex("01d086030000904ee05de05d00000080897a882701e8fb0300").expect("hexadecimal")
}

/// The text of a list on the runs of the longest path.
fn text(job: &[u8], lowest: u32, pitch: u32, number: u32) -> String {
    settings(job, lowest, pitch, number, &mut Runs::zeros(2_001)).to_string()
}

#[test]
fn the_worked_job_lists_what_is_worked_out_by_hand() {
    let job = worked_job();
    assert_eq!(text(&job, 50_000, 1, 32), "setting 50000 24000\n");
    assert_eq!(text(&job, 49_999, 1, 32), "setting 49999 24000\nsetting 50000 24000\n");
    assert_eq!(text(&job, 5_000, 15_000, 14), "setting 5000 24000\nsetting 20000 24000\nsetting 35000 24000\n");
    assert_eq!(text(&job, 50_001, 1, 32), "refused 30\n");
    assert_eq!(text(&job, 50_000, u32::MAX, 1), "setting 50000 24000\n");
    assert_eq!(text(&job, 199_969, 1, 32), "refused 30\n", "the last is 200,000");
}

/// The same rig as a long job, with a tail of 5,000 behind the axle: no wheelbase over 45,000 leaves a station complete.
fn worked_long_job() -> Vec<u8> {
    bytes_of_hex("0bd086030000904e8827e05d00e05de05d00000080897a882701e8fb0300").expect("hexadecimal")
}

#[test]
fn the_long_worked_job_lists_what_is_worked_out_by_hand() {
    let job = worked_long_job();
    assert_eq!(text(&job, 44_999, 1, 32), "setting 44999 24000\nsetting 45000 24000\n");
    assert_eq!(text(&job, 5_000, 20_000, 10), "setting 5000 24000\nsetting 25000 24000\nsetting 45000 24000\n");
    assert_eq!(text(&job, 45_001, 1, 32), "refused 30\n");
    let wide = with_last_wheelbase(&job, 200_000);
    assert_eq!(text(&wide, 45_000, 1, 1), "setting 45000 24000\n", "its own wheelbase is not walked");
    assert_eq!(text(&with_last_wheelbase(&job, 200_001), 45_000, 1, 1), "refused 4 at 1\n");
}

#[test]
fn the_worked_job_is_refused_in_order() {
    let job = worked_job();
    let faults = [(5_000, 0, 1), (5_000, 1, 0), (5_000, 1, 33), (4_999, 1, 32), (199_970, 1, 32), (5_000, u32::MAX, 2)];
    for (lowest, pitch, number) in faults {
        assert_eq!(text(&job, lowest, pitch, number), "refused 29\n");
        let mut few = Runs::zeros(13);
        assert_eq!(settings(&job, lowest, pitch, number, &mut few).to_string(), "refused 21\n");
        assert_eq!(few, Runs::zeros(13));
        // Its own wheelbase is never walked, and yet it is tested first.
        let faulty = with_last_wheelbase(&job, 4_999);
        assert_eq!(settings(&faulty, lowest, pitch, number, &mut few).to_string(), "refused 4 at 1\n");
    }
    assert_eq!(text(&with_last_wheelbase(&job, 4_999), 50_000, 1, 1), "refused 4 at 1\n");
}

/// The record of an accepted job with its last wheelbase written anew: it stands after three fields a unit ahead, in a
/// long job after six.
fn with_last_wheelbase(job: &[u8], wheelbase: u32) -> Vec<u8> {
    let fields: Vec<&[u8]> = job.split_inclusive(|byte| byte & 0x80 == 0).collect();
    let first = usize::from(job[0]);
    let last = if first > 10 { 1 + 6 * (first - 11) } else { 1 + 3 * (first - 1) };
    let mut anew = fields[..last].concat();
    anew.extend(encode(u64::from(wheelbase)));
    anew.extend(fields[last + 1..].concat());
    anew
}

#[test]
fn each_setting_is_the_job_with_its_record_written_anew() {
    let mut chance = Chance::new(30);
    let mut compared = 0;
    for _ in 0..400 {
        let List { job, lowest, pitch, number } = some_list(&mut chance);
        let lent = Runs::by_chance(&mut chance, [2_002; 7]);
        let mut runs = lent.clone();
        let made = walks(&job, lowest, pitch, number, &mut runs).unwrap_or_default();
        let mut expected_runs = lent;
        for (wheelbase, swept) in made {
            let anew = with_last_wheelbase(&job, wheelbase);
            assert_eq!(reference::run(&anew, &mut expected_runs), swept, "{wheelbase} of {job:?}");
            compared += 1;
        }
        assert_eq!(runs, expected_runs, "{lowest} {pitch} {number} of {job:?}");
    }
    assert!(compared > 1_000, "only {compared} settings were walked");
}
