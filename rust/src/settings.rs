//! The list of the best settings in plain Rust, as its request tells it: every setting is walked, those that fit
//! are sorted, and the first three are taken.

use crate::record::{read_job, wheelbase_allowed, Job};
use crate::reference::{lay, leave, walked};
use crate::runs::Runs;
pub use crate::Listing;
use crate::Swept;

/// The last wheelbases to be walked, or none where pitch, number or one of them is outside the limits.
fn wheelbases(lowest: u32, pitch: u32, number: u32) -> Option<Vec<u32>> {
    if pitch == 0 || !(1..=32).contains(&number) {
        return None;
    }
    let setting = |i: u32| i64::from(lowest) + i64::from(i) * i64::from(pitch);
    (0..number).map(|i| wheelbase_allowed(setting(i)).then_some(setting(i) as u32)).collect()
}

/// The job with another last wheelbase and nothing else changed.
fn at_setting(job: &Job, wheelbase: u32) -> Job {
    let mut changed = job.clone();
    let last = changed.vehicle.units.len() - 1;
    changed.vehicle.units[last].wheelbase = i64::from(wheelbase);
    changed
}

/// Each setting with what its walk comes to, from the lowest on, or the refusal that comes before any walk.
/// Refused, the runs stay; otherwise they hold the last setting's walk as far as it went.
pub fn walks(
    bytes: &[u8],
    lowest: u32,
    pitch: u32,
    number: u32,
    runs: &mut Runs,
) -> Result<Vec<(u32, Swept)>, Listing> {
    let job = read_job(bytes).map_err(|refusal| Listing::Refused { number: refusal.number, at: refusal.at })?;
    let path = lay(&job);
    if runs.shortest() < path.len() {
        return Err(Listing::Unlisted { number: 21 });
    }
    let wheelbases = wheelbases(lowest, pitch, number).ok_or(Listing::Unlisted { number: 29 })?;
    let mut made = Vec::new();
    for wheelbase in wheelbases {
        let (swept, cells) = walked(&at_setting(&job, wheelbase), &path);
        leave(&path, &cells, runs);
        made.push((wheelbase, swept));
    }
    Ok(made)
}

/// Width and wheelbase of every setting that reaches the last station with a complete one, best first.
pub fn fitting(walks: &[(u32, Swept)]) -> Vec<(i64, u32)> {
    let width_of = |&(wheelbase, swept): &(u32, Swept)| match swept {
        Swept::Finished { widest: Some((_, width, _, _)), .. } => Some((width, wheelbase)),
        _ => None,
    };
    let mut fit: Vec<(i64, u32)> = walks.iter().filter_map(width_of).collect();
    fit.sort();
    fit
}

/// The best three of the walks made, or fewer, or 30 where there is none.
pub fn best(walks: &[(u32, Swept)]) -> Listing {
    let listed: Vec<(u32, i64)> =
        fitting(walks).into_iter().take(3).map(|(width, wheelbase)| (wheelbase, width)).collect();
    if listed.is_empty() {
        return Listing::Unlisted { number: 30 };
    }
    Listing::Listed(listed)
}

/// One list, from the job's bytes and the settings asked for to its answer, on lent runs.
pub fn settings(bytes: &[u8], lowest: u32, pitch: u32, number: u32, runs: &mut Runs) -> Listing {
    match walks(bytes, lowest, pitch, number, runs) {
        Ok(made) => best(&made),
        Err(refusal) => refusal,
    }
}
