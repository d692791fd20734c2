//! Seeded lists of settings for comparisons: jobs of all kinds, and ones that only some settings walk to the end.

use crate::jobs::{encode, some_job, sound_job, Chance};
use crate::reference::stations;

/// What one list is asked for with.
#[derive(Clone, Debug)]
pub struct List {
    pub job: Vec<u8>,
    pub lowest: u32,
    pub pitch: u32,
    pub number: u32,
}

/// The number that a signed field holds.
fn folded(n: i64) -> i64 {
    if n < 0 {
        -2 * n - 1
    } else {
        2 * n
    }
}

fn record(fields: &[i64]) -> Vec<u8> {
    fields.iter().flat_map(|field| encode(*field as u64)).collect()
}

/// The fields of a vehicle of these units, in a short job or, with bodies, in a long one.
fn vehicle(chance: &mut Chance, units: &[[i64; 3]]) -> Vec<i64> {
    let long = chance.one_in(2);
    let mut fields = vec![if long { 10 } else { 0 } + units.len() as i64];
    for unit in units {
        fields.extend(unit);
        if long {
            fields.extend([chance.between(0, 30_000), chance.between(0, 30_000), chance.between(1_000, 20_000)]);
        }
    }
    let overhang = chance.between(0, 30_000);
    fields.extend([if long { 0 } else { overhang }, chance.between(1_000, 20_000), chance.between(1_000, 20_000)]);
    fields
}

/// A trailer on a tractor of four metres, led by a straight into a tight bend and out again.
fn bend_job(chance: &mut Chance, hitch: i64, fold: i64) -> Vec<u8> {
    let mut fields = vehicle(chance, &[[40_000, folded(hitch), 0], [60_000, 0, folded(fold)]]);
    fields.extend([0, 0, 0, 2_000_000, chance.between(2_500, 5_000), 3]);
    fields.extend([chance.between(30_000, 220_000), 0]);
    fields.extend([chance.between(78_030, 84_030), folded(chance.pick(&[-20_000, 20_000]))]);
    fields.extend([chance.between(30_000, 50_000), 0]);
    record(&fields)
}

/// With its hitch far behind the axle, middling trailers fold too far where short and long ones pass.
fn middle_stops(chance: &mut Chance) -> Vec<u8> {
    let (hitch, fold) = (chance.between(-37_968, -36_768), chance.between(-912, -875));
    bend_job(chance, hitch, fold)
}

/// With its hitch far ahead of the axle, only middling trailers pass.
pub(crate) fn ends_stop(chance: &mut Chance) -> Vec<u8> {
    let (hitch, fold) = (chance.between(30_000, 40_000), chance.between(-700, 500));
    bend_job(chance, hitch, fold)
}

/// One unit on a straight, where all widths are equal; now and then a wrong step or a byte left over.
pub(crate) fn straight_job(chance: &mut Chance) -> Vec<u8> {
    let mut fields = vehicle(chance, &[[50_000, 0, 0]]);
    let step = chance.between(2_500, 9_000);
    let step = if chance.one_in(10) { chance.pick(&[99, 20_001]) } else { step };
    fields.extend([0, 0, 0, 2_000_000, step, 1, chance.between(5_000, 200_000), 0]);
    if chance.one_in(10) {
        fields.push(0);
    }
    record(&fields)
}

/// Settings within the limits, often at their ends; `most` is at least 1.
fn sound_settings(chance: &mut Chance, most: i64) -> (u32, u32, u32) {
    let any = chance.between(1, most);
    let number = chance.pick(&[1, 2.min(most), 3.min(most), 4.min(most), most, any, any, any]);
    let widest_pitch = if number == 1 { i64::from(u32::MAX) } else { 195_000 / (number - 1) };
    let pitches = [1, chance.between(1, 3), chance.between(1, 600), chance.between(1, widest_pitch), widest_pitch];
    let pitch = chance.pick(&pitches).min(widest_pitch);
    let highest = 200_000 - pitch * (number - 1);
    let low = highest.min(chance.pick(&[8_000, 20_000, 60_000, 200_000]));
    let lowest = chance.between(5_000, low);
    let lowest = chance.pick(&[lowest, lowest, lowest, lowest, 5_000, highest]);
    (lowest as u32, pitch as u32, number as u32)
}

/// Settings from end to end of the limits, so that short and long trailers stand in one list.
fn spread_settings(chance: &mut Chance) -> (u32, u32, u32) {
    let number = chance.between(6, 32);
    let pitch = chance.between(150_000, 195_000) / (number - 1);
    let lowest = chance.between(5_000, 200_000 - pitch * (number - 1));
    (lowest as u32, pitch as u32, number as u32)
}

/// Settings that 29 is answered for, one reason or more at a time.
fn faulty_settings(chance: &mut Chance) -> (u32, u32, u32) {
    let (lowest, pitch, number) = sound_settings(chance, 32);
    match chance.below(7) {
        0 => (lowest, 0, number),
        1 => (lowest, pitch, 0),
        2 => (lowest, pitch, chance.pick(&[33, 34, 64, 256, 1 << 31, u32::MAX])),
        3 => (chance.pick(&[0, 1, 4_998, 4_999]), pitch, number),
        4 => (200_001 - pitch * (number - 1), pitch, number),
        // In 32 bits these settings would come round to within the limits again.
        5 => (100_000, 0u32.wrapping_sub(chance.between(1, 3_000) as u32), number.max(2)),
        _ => (chance.word() as u32, chance.word() as u32, chance.between(0, 40) as u32),
    }
}

/// One list; long paths get few settings, so that no list takes long.
pub fn some_list(chance: &mut Chance) -> List {
    let which = chance.below(20);
    let job = match which {
        0..=5 => some_job(chance),
        6..=11 => {
            let shorter = chance.between(1, 60);
            let steps = if chance.one_in(16) { 2_001 } else { shorter };
            sound_job(chance, steps)
        }
        12..=14 => straight_job(chance),
        15..=16 => ends_stop(chance),
        _ => middle_stops(chance),
    };
    let most = if stations(&job) > 100 { 4 } else { 32 };
    let (lowest, pitch, number) = match chance.below(6) {
        0 => faulty_settings(chance),
        1..=3 if which >= 15 => spread_settings(chance),
        _ => sound_settings(chance, most),
    };
    List { job, lowest, pitch, number }
}
