//! Short and long jobs worked out by hand, through the reference and, where it is linked, the product.

use turning::jobs::encode;
use turning::runs::Runs;
use turning::{reference, Swept};

type Sweep = fn(&[u8]) -> Swept;
type Run = fn(&[u8], &mut Runs) -> Swept;

fn implementations() -> Vec<(Sweep, Run)> {
    vec![
        (reference::sweep, reference::run),
        #[cfg(feature = "product")]
        (turning::product::sweep, turning::product::run),
    ]
}

/// The record of a vehicle on a straight due north of this length, in steps of 5,000.
fn straight(vehicle: &[u64], length: u64) -> Vec<u8> {
    let path = [0, 0, 0, 2_000_000, 5_000, 1, length, 0];
    vehicle.iter().chain(&path).flat_map(|field| encode(*field)).collect()
}

fn check(vehicle: &[u64], length: u64, expected: &str) {
    for (sweep, _) in implementations() {
        assert_eq!(sweep(&straight(vehicle, length)).to_string().replace('\n', "/"), expected, "{vehicle:?} {length}");
    }
}

/// One unit of 50,000 with its body, and half widths of 12,000 beside it.
fn long_unit(front_overhang: u64, rear_overhang: u64, half_width: u64) -> [u64; 10] {
    [11, 50_000, 0, 0, front_overhang, rear_overhang, half_width, 0, 12_000, 12_000]
}

#[test]
fn the_worked_straight_prints_the_same_in_both_forms() {
    let expected = "steps 13/widest 3 24000 -12000 12000/front 0 65000/";
    check(&[1, 50_000, 0, 0, 10_000, 12_000, 12_000], 65_000, expected);
    check(&long_unit(10_000, 0, 12_000), 65_000, expected);
}

#[test]
fn every_corner_of_a_body_counts() {
    check(&long_unit(10_000, 0, 15_000), 65_000, "steps 13/widest 3 30000 -15000 15000/front 0 65000/");
    check(&long_unit(10_000, 0, 1_000), 65_000, "steps 13/widest 3 24000 -12000 12000/front 0 65000/");
    // The tail has to come as far as station 3, which the rear axle reaches 5,000 ticks before it.
    check(&long_unit(10_000, 5_000, 12_000), 65_000, "steps 13/widest none/front 0 65000/");
    check(&long_unit(10_000, 5_000, 12_000), 70_000, "steps 14/widest 3 24000 -12000 12000/front 0 70000/");
    // The front corners start at station 3, so that station 4 is the first that they cross.
    check(&long_unit(15_000, 0, 12_000), 65_000, "steps 13/widest none/front 0 65000/");
    check(&long_unit(15_000, 0, 12_000), 70_000, "steps 14/widest 4 24000 -12000 12000/front 0 70000/");
}

/// Mark and reach, the same to both sides, of every station from the first to the last of a range, and nothing after.
fn check_stations(vehicle: &[u64], length: u64, expected: &[(usize, usize, u32, i32)]) {
    for (_, run) in implementations() {
        let mut runs = Runs { marks: vec![u32::MAX; 30], ..Runs::zeros(30) };
        assert!(matches!(run(&straight(vehicle, length), &mut runs), Swept::Finished { .. }));
        let mut next = 0;
        for (first, last, mark, reach) in expected {
            assert_eq!(*first, next);
            for k in *first..=*last {
                assert_eq!((runs.marks[k], runs.left[k], runs.right[k]), (*mark, -reach, *reach), "station {k}");
            }
            next = last + 1;
        }
        assert_eq!(next, length as usize / 5_000 + 1);
        assert!(runs.marks[next..].iter().all(|mark| *mark == u32::MAX));
    }
}

#[test]
fn a_short_jobs_bodies_are_as_wide_as_its_rear() {
    // The hitch stands 5,000 ahead of the axle: the points start at 10,000, 0, -55,000, -50,000, -45,000 and -55,000.
    let two = [2, 50_000, 10_000, 0, 10_000, 0, 0, 10_000, 2_000, 9_000];
    let stations = [
        (0, 0, 0xff0, 9_000),
        (1, 2, 0xffc, 9_000),
        (3, 4, 0xfff, 9_000),
        (5, 5, 0x3cf, 9_000),
        (6, 6, 0x30f, 9_000),
        (7, 15, 0x00f, 2_000),
    ];
    check_stations(&two, 75_000, &stations);
    check(&two, 75_000, "steps 15/widest 3 18000 -9000 9000/front 0 75000/");
}

#[test]
fn a_long_jobs_bodies_are_as_it_says() {
    // The points start at 10,000, 0, -110,000, -55,000, -46,000 and -118,000.
    let mut two = vec![12, 50_000, 0, 0, 10_000, 5_000, 13_000, 60_000, 0, 0, 4_000, 8_000, 14_000];
    two.extend([0, 12_000, 11_000]);
    let stations = [
        (0, 0, 0xff0, 14_000),
        (1, 2, 0xffc, 14_000),
        (3, 3, 0xfff, 14_000),
        (4, 5, 0x3ff, 14_000),
        (6, 16, 0x3cf, 14_000),
        (17, 17, 0x30f, 14_000),
        (18, 27, 0x00f, 13_000),
    ];
    check_stations(&two, 135_000, &stations);
    check(&two, 135_000, "steps 27/widest 3 28000 -14000 14000/front 0 135000/");
}

#[test]
fn first_numbers_announce_a_form_or_are_refused() {
    let short = [50_000, 0, 0, 10_000, 12_000, 12_000];
    for first in [0, 5, 10, 15, 127, 128, 4_294_967_295] {
        check(&[&[first][..], &short].concat(), 65_000, "refused 3 at 0/");
    }
    // Its measures are then the body's, so that start x stands for the overhang and start y for the front half width.
    check(&[&[11][..], &short].concat(), 65_000, "refused 5 at 13/");
}

#[test]
fn bodies_are_tested_field_by_field() {
    let end = "steps 13/widest none/front 0 65000/";
    check(&long_unit(50_000, 50_000, 20_000), 65_000, end);
    check(&long_unit(50_000, 0, 1_000), 65_000, end);
    check(&long_unit(50_001, 50_001, 999), 65_000, "refused 5 at 6/");
    check(&long_unit(50_000, 50_001, 999), 65_000, "refused 5 at 9/");
    check(&long_unit(50_000, 50_000, 999), 65_000, "refused 5 at 12/");
    check(&long_unit(50_000, 50_000, 20_001), 65_000, "refused 5 at 12/");
    // The old overhang, then the old half widths; all of them after the bodies.
    check(&[11, 50_000, 0, 0, 0, 0, 1_000, 1, 999, 999], 65_000, "refused 5 at 10/");
    check(&[11, 50_000, 0, 0, 0, 0, 1_000, 0, 999, 999], 65_000, "refused 5 at 11/");
    check(&[11, 50_000, 0, 0, 0, 0, 1_000, 0, 1_000, 999], 65_000, "refused 5 at 13/");
}

#[test]
fn a_units_body_is_tested_before_the_next_unit() {
    let two = |fold: u64, first: u64, wheelbase: u64, second: u64| {
        vec![12, 50_000, 0, fold, 0, 0, first, wheelbase, 0, 0, 0, 0, second, 1, 12_000, 12_000]
    };
    check(&two(1, 999, 4_999, 999), 65_000, "refused 4 at 5/");
    check(&two(0, 999, 4_999, 999), 65_000, "refused 5 at 8/");
    check(&two(0, 1_000, 4_999, 999), 65_000, "refused 4 at 10/");
    check(&two(0, 1_000, 5_000, 999), 65_000, "refused 5 at 16/");
    check(&two(0, 1_000, 5_000, 1_000), 65_000, "refused 5 at 18/");
}
