//! Touches worked out by hand, through the reference and, where it is linked, the product.

use turning::jobs::encode;
use turning::touch::{self, touch, tracks};
use turning::Report::{self, Clear, Refused, Stopped, Touched, Unreported};

type Tell = fn(&[u8], usize, &[i32], &[i32]) -> Report;

fn implementations() -> Vec<Tell> {
    vec![
        touch::report,
        #[cfg(feature = "product")]
        turning::product::kerbs::report,
    ]
}

fn record(fields: &[u64]) -> Vec<u8> {
    fields.iter().flat_map(|field| encode(*field)).collect()
}

/// A long job due north from (0, 0): 13 steps of 5,000, whose points start, left and right of these, at
/// (13,000, 10,000), (12,000, 0), (11,000, -50,000) and (13,000, -55,000).
fn north() -> Vec<u8> {
    north_from(0, 0)
}

/// The same from another start.
fn north_from(x: i64, y: i64) -> Vec<u8> {
    let folded = |n: i64| if n < 0 { -2 * n - 1 } else { 2 * n } as u64;
    let unit = [11, 50_000, 0, 0, 10_000, 5_000, 13_000, 0, 12_000, 11_000];
    record(&[&unit[..], &[folded(x), folded(y), 0, 2_000_000, 5_000, 1, 65_000, 0]].concat())
}

/// A short job along (3, 4) from (0, 0): 13 steps of 5,000; points 1 and 3 follow each other from (14,000, 2,000)
/// and (8,000, -6,000).
fn slanted() -> Vec<u8> {
    let unit = [1, 50_000, 0, 0, 10_000, 10_000, 9_000];
    record(&[&unit[..], &[0, 0, 1_200_000, 1_600_000, 5_000, 1, 65_000, 0]].concat())
}

/// Lengths of straights due north, walked by a wheelbase of 5,000 in steps of at most 5,001.
fn stopping(lengths: &[u64]) -> Vec<u8> {
    let mut fields = vec![1, 5_000, 0, 0, 0, 1_000, 1_000, 0, 0, 0, 2_000_000, 5_001, lengths.len() as u64];
    fields.extend(lengths.iter().flat_map(|length| [*length, 0]));
    record(&fields)
}

/// A single step of one tick along a heading, by which the nearest vector moves as the front point does, so that the
/// rear axle and what stands beside it stay.
fn creeping() -> Vec<u8> {
    let unit = [1, 86_900, 0, 0, 10_000, 12_000, 9_000];
    record(&[&unit[..], &[0, 0, 2 * 278_634, 2 * 960_397, 100, 1, 1, 0]].concat())
}

/// Where point 5 of that rig stays.
const STAYS: (i64, i64) = (-15_569, -85_966);

fn check(job: &[u8], kerb: &[(i32, i32)], expected: Report) {
    let (xs, ys): (Vec<i32>, Vec<i32>) = kerb.iter().copied().unzip();
    for report in implementations() {
        assert_eq!(report(job, kerb.len(), &xs, &ys), expected, "{kerb:?}");
    }
}

/// The same from both ends of the kerb.
fn check_both_ways(job: &[u8], kerb: &[(i32, i32)], expected: Report) {
    check(job, kerb, expected);
    let back: Vec<(i32, i32)> = kerb.iter().rev().copied().collect();
    check(job, &back, expected);
}

#[test]
fn a_single_vertex_is_touched_where_a_move_passes_or_ends() {
    let at = |x: i32, y: i32, expected: Report| {
        check(&north(), &[(x, y)], expected);
        check(&north(), &[(x, y), (x, y)], expected);
        check(&north(), &[(x, y); 500], expected);
    };
    at(13_000, 10_000, Touched { step: 1, point: 1 });
    at(13_000, 14_999, Touched { step: 1, point: 1 });
    at(13_000, 15_000, Touched { step: 1, point: 1 });
    at(13_000, 15_001, Touched { step: 2, point: 1 });
    at(13_000, 75_000, Touched { step: 13, point: 1 });
    at(13_000, 75_001, Clear);
    // Behind the front corner's start only the tail comes by.
    at(13_000, 9_999, Touched { step: 13, point: 7 });
    at(-13_000, 30_000, Touched { step: 4, point: 0 });
    at(-13_000, -55_000, Touched { step: 1, point: 6 });
    at(-13_000, -55_001, Clear);
    at(13_001, 20_000, Clear);
    at(12_999, 20_000, Clear);
    at(12_000, 0, Touched { step: 1, point: 3 });
    at(12_000, -1, Clear);
    at(-11_000, -50_000, Touched { step: 1, point: 4 });
    at(11_000, 12_345, Touched { step: 13, point: 5 });
}

#[test]
fn crossings_and_tangents_are_told() {
    let lies = |kerb: &[(i32, i32)], expected: Report| check_both_ways(&north(), kerb, expected);
    lies(&[(-20_000, 30_000), (20_000, 30_000)], Touched { step: 4, point: 0 });
    lies(&[(0, 30_000), (20_000, 30_000)], Touched { step: 4, point: 1 });
    lies(&[(-20_000, -52_000), (20_000, -52_000)], Touched { step: 1, point: 6 });
    lies(&[(-150_000_000, 76_000), (150_000_000, 74_999)], Clear);
    lies(&[(-150_000_000, 75_001), (150_000_000, 74_998)], Touched { step: 13, point: 0 });
    // An end of the kerb on a move, and a tick beside it.
    lies(&[(13_000, 12_345), (20_000, 12_345)], Touched { step: 1, point: 1 });
    lies(&[(13_001, 12_345), (20_000, 12_345)], Clear);
    // A bend of the kerb on a move, and a tick beside it.
    lies(&[(20_000, 20_000), (13_000, 30_000), (20_000, 40_000)], Touched { step: 4, point: 1 });
    lies(&[(20_000, 20_000), (13_001, 30_000), (20_000, 40_000)], Clear);
    // Through a place where two moves meet.
    lies(&[(12_500, 14_500), (13_500, 15_500)], Touched { step: 1, point: 1 });
    // Only the tail comes by here, in its last step.
    lies(&[(13_500, 9_500), (12_500, 9_501)], Touched { step: 13, point: 7 });
}

#[test]
fn kerbs_in_line_with_a_track_are_told() {
    let lies = |kerb: &[(i32, i32)], expected: Report| check_both_ways(&north(), kerb, expected);
    lies(&[(13_000, 76_000), (13_000, 90_000)], Clear);
    lies(&[(13_000, 75_000), (13_000, 90_000)], Touched { step: 13, point: 1 });
    lies(&[(13_000, -60_000), (13_000, -55_001)], Clear);
    lies(&[(13_000, -60_000), (13_000, -55_000)], Touched { step: 1, point: 7 });
    lies(&[(13_000, -60_000), (13_000, 90_000)], Touched { step: 1, point: 1 });
    lies(&[(13_000, 21_000), (13_000, 22_000)], Touched { step: 3, point: 1 });
    lies(&[(12_500, -90_000), (12_500, 90_000)], Clear);
}

#[test]
fn the_step_counts_before_the_point() {
    // The tail's right corner crosses it in step 3, the front's left one in step 10.
    let far = [(12_500, -40_000), (12_500, 80_000), (-20_000, 80_000), (-20_000, 60_000)];
    let kerb = [&[(13_500, -40_000)][..], &far, &[(-12_500, 60_000)]].concat();
    check_both_ways(&north(), &kerb, Touched { step: 3, point: 7 });
    check_both_ways(&north(), &kerb[1..], Touched { step: 10, point: 0 });
    check_both_ways(&north(), &kerb[1..5], Clear);
}

#[test]
fn whole_numbers_leave_nothing_to_chance() {
    let lies = |kerb: &[(i32, i32)], expected: Report| check_both_ways(&slanted(), kerb, expected);
    lies(&[(15_500, 4_000)], Touched { step: 1, point: 1 });
    lies(&[(14_003, 2_004)], Touched { step: 1, point: 1 });
    lies(&[(13_997, 1_996)], Touched { step: 2, point: 3 });
    // A fifth of a tick beside the track, as near as whole numbers come.
    lies(&[(14_002, 2_003)], Clear);
    lies(&[(14_002, 2_003), (44_002, 42_003)], Clear);
    lies(&[(14_002, 2_003), (44_003, 42_004)], Touched { step: 11, point: 1 });
    lies(&[(14_002, 2_003), (14_003, 2_004)], Touched { step: 1, point: 1 });
}

#[test]
fn the_longest_kerb_far_off_is_told_to_the_tick() {
    // Point 1 ends at (99,013,000, -99,013,000), on the kerb from corner to corner, ahead of all other points.
    let job = |more: i64| north_from(99_000_000, -99_088_000 + more);
    let corner = (-150_000_000, 150_000_000);
    let straight = [corner, (150_000_000, -150_000_000)];
    check_both_ways(&job(-1), &straight, Clear);
    check_both_ways(&job(0), &straight, Touched { step: 13, point: 1 });
    // This one passes there 0.83 ticks farther north, that one as much farther south.
    let north = [corner, (150_000_000, -149_999_999)];
    check_both_ways(&job(0), &north, Clear);
    check_both_ways(&job(1), &north, Touched { step: 13, point: 1 });
    let south = [corner, (149_999_999, -150_000_000)];
    check_both_ways(&job(-1), &south, Clear);
    check_both_ways(&job(0), &south, Touched { step: 13, point: 1 });
    // The other diagonal is far from it.
    check_both_ways(&job(0), &[(-150_000_000, -150_000_000), (150_000_000, 150_000_000)], Clear);
}

#[test]
fn a_point_that_stays_put_can_touch() {
    let job = creeping();
    let tracks = tracks(&job);
    assert_eq!((tracks[0][5], tracks[1][5]), (STAYS, STAYS));
    check(&job, &[(STAYS.0 as i32, STAYS.1 as i32)], Touched { step: 1, point: 5 });
}

#[test]
fn the_kerbs_runs_are_tested_after_the_job() {
    let (inside, outside) = ([150_000_000; 600], [-150_000_001; 600]);
    for report in implementations() {
        let number = |number: u32| Unreported { number };
        for vertices in [0, 501, 600, 601, 1 << 32, (1 << 32) + 1, usize::MAX] {
            assert_eq!(report(&north(), vertices, &outside, &outside), number(21));
            assert_eq!(report(&stopping(&[5_001]), vertices, &inside, &inside), number(21));
        }
        for (xs, ys) in [(499, 500), (500, 499), (0, 500), (500, 0), (0, 0)] {
            assert_eq!(report(&north(), 500, &outside[..xs], &outside[..ys]), number(21));
        }
        assert_eq!(report(&north(), 500, &inside[..500], &inside[..500]), Clear);
        for wrong in [150_000_001, -150_000_001, i32::MAX, i32::MIN] {
            let mut run = inside;
            run[499] = wrong;
            for job in [north(), stopping(&[5_001])] {
                assert_eq!(report(&job, 500, &run, &inside), number(26));
                assert_eq!(report(&job, 500, &inside, &run), number(26));
            }
            assert_eq!(report(&north(), 499, &run, &run), Clear, "not in use");
        }
        let left_over = [north(), vec![0]].concat();
        assert_eq!(report(&left_over, 0, &outside, &outside), Refused { number: 10, at: north().len() });
        assert_eq!(report(&[], 1, &outside, &[]), Refused { number: 1, at: 0 });
    }
}

#[test]
fn a_refused_step_ends_the_report() {
    let refused = |step: u32| Stopped { number: 22, unit: 1, step };
    // At the placement the front point stands at (0, 0); 1 stands right of it and touches what it stands on by moving.
    check(&stopping(&[5_000]), &[(1_000, 0)], Touched { step: 1, point: 1 });
    check(&stopping(&[5_001]), &[(1_000, 0)], refused(1));
    check(&stopping(&[4_000, 5_001]), &[(1_000, 4_000)], Touched { step: 1, point: 1 });
    check(&stopping(&[4_000, 5_001]), &[(1_000, 4_001)], refused(2));
    check(&stopping(&[4_000, 5_001]), &[(9_999, 9_999)], refused(2));
    check(&stopping(&[4_000, 5_000]), &[(1_000, 4_001)], Touched { step: 2, point: 1 });
    check(&stopping(&[4_000, 5_000]), &[(9_999, 9_999)], Clear);
}

/// Whether two closed segments meet, by another way than the reference's: where they are not parallel, the place along
/// each at which their lines meet lies from 0 to 1; otherwise they lie in one line and overlap there.
fn meet([p, q]: [(i64, i64); 2], [a, b]: [(i64, i64); 2]) -> bool {
    let minus = |u: (i64, i64), v: (i64, i64)| (u.0 - v.0, u.1 - v.1);
    let cross = |u: (i64, i64), v: (i64, i64)| u.0 * v.1 - u.1 * v.0;
    let (one, other, apart) = (minus(q, p), minus(b, a), minus(a, p));
    let divisor = cross(one, other);
    if divisor != 0 {
        let within = |part: i64| (0..=divisor.abs()).contains(&(part * divisor.signum()));
        return within(cross(apart, other)) && within(cross(apart, one));
    }
    let in_line = cross(one, apart) == 0 && cross(other, apart) == 0;
    in_line && p.max(q) >= a.min(b) && a.max(b) >= p.min(q)
}

#[test]
fn all_segments_of_a_small_grid_touch_as_worked_out_otherwise() {
    let grid: Vec<(i64, i64)> = (0..25).map(|i| (i % 5, i / 5)).collect();
    let segments: Vec<[(i64, i64); 2]> = grid.iter().flat_map(|p| grid.iter().map(|q| [*p, *q])).collect();
    let mut touching = 0;
    for one in &segments {
        for other in &segments {
            assert_eq!(touch(*one, *other), meet(*one, *other), "{one:?} {other:?}");
            touching += usize::from(touch(*one, *other));
        }
    }
    assert!(touching > 100_000 && touching < 290_625, "{touching} of 390,625");
}
