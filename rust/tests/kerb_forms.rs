//! Kerbs worked out by hand, through the reference and, where it is linked, the product.

use turning::geometries::{line, point};
use turning::{bytes_of_hex, kerbs, Intake};

type TakeIn = fn(&[u8], &mut [i32], &mut [i32]) -> Intake;

fn implementations() -> Vec<TakeIn> {
    vec![
        kerbs::take_in,
        #[cfg(feature = "product")]
        turning::product::kerbs::take_in,
    ]
}

/// Tells what stays unwritten.
const KEPT: i32 = 77;

/// The vertices in ticks at the start of two runs of 600, and nothing after them.
fn check_taken(geometry: &[u8], expected: &[(i32, i32)]) {
    for take_in in implementations() {
        let (mut xs, mut ys) = ([KEPT; 600], [KEPT; 600]);
        assert_eq!(take_in(geometry, &mut xs, &mut ys), Intake::Taken { vertices: expected.len() });
        let told: Vec<(i32, i32)> = xs.into_iter().zip(ys).collect();
        assert_eq!(told[..expected.len()], *expected);
        assert!(told[expected.len()..].iter().all(|entry| *entry == (KEPT, KEPT)));
    }
}

/// A refusal that leaves both runs, which have so many entries.
fn check_not_taken(geometry: &[u8], lengths: (usize, usize), expected: Intake) {
    for take_in in implementations() {
        let (mut xs, mut ys) = (vec![KEPT; lengths.0], vec![KEPT; lengths.1]);
        assert_eq!(take_in(geometry, &mut xs, &mut ys), expected, "{geometry:?}");
        assert!(xs.iter().chain(&ys).all(|entry| *entry == KEPT));
    }
}

fn check_refused(geometry: &[u8], number: u32, at: usize) {
    check_not_taken(geometry, (0, 0), Intake::Refused { number, at });
    check_not_taken(geometry, (600, 600), Intake::Refused { number, at });
}

fn hex(text: &str) -> Vec<u8> {
    bytes_of_hex(&text.replace(' ', "")).expect("hexadecimal")
}

#[test]
fn the_point_one_two_is_taken_in() {
    let geometry = hex("01 01000000 000000000000F03F 0000000000000040");
    check_taken(&geometry, &[(10_000, 20_000)]);
    assert_eq!(point(1.0, 2.0), geometry);
}

#[test]
fn a_line_is_taken_in() {
    let geometry = hex("01 02000000 02000000 000000000000F03F 0000000000000040 000000000000E0BF 0000000000004940");
    check_taken(&geometry, &[(10_000, 20_000), (-5_000, 500_000)]);
    assert_eq!(line(&[(1.0, 2.0), (-0.5, 50.0)]), geometry);
    let most: Vec<(f64, f64)> = (0..500).map(|i| (f64::from(i), -f64::from(i))).collect();
    let ticks: Vec<(i32, i32)> = (0..500).map(|i| (10_000 * i, -10_000 * i)).collect();
    check_taken(&line(&most), &ticks);
}

#[test]
fn ticks_are_rounded_as_worked_out() {
    // The product of the first is the float just below 1.5, that of the second 3.5 itself.
    check_taken(&point(0.00015, 0.00035), &[(1, 4)]);
    check_taken(&point(-0.00015, -0.00035), &[(-1, -4)]);
    // Products of 1,250.5 and -0.5 to the bit, and of the float next below 0.5, which with half a tick added makes 1.
    check_taken(&point(0.12505, -0.00005), &[(1_251, -1)]);
    let below = f64::from_bits(0.00005f64.to_bits() - 1);
    assert_eq!((below * 10_000.0).to_bits(), 0.5f64.to_bits() - 1);
    check_taken(&point(below, -below), &[(0, 0)]);
    check_taken(&point(15_000.0, -15_000.0), &[(150_000_000, -150_000_000)]);
    check_taken(&point(-0.0, f64::from_bits(1)), &[(0, 0)]);
    check_taken(&point(-f64::MIN_POSITIVE, -1e-300), &[(0, 0)]);
    check_taken(&point(14_999.999_95, 14_999.999_949), &[(150_000_000, 149_999_999)]);
}

/// The bits of a coordinate's product by 10,000, rounded to 53 digits, halves to even, worked out in whole numbers.
fn product_in_whole_numbers(metres: f64) -> f64 {
    let (exponent, fraction) = (metres.to_bits() >> 52 & 0x7ff, metres.to_bits() & ((1 << 52) - 1));
    assert!((1..2_000).contains(&exponent), "a normal float");
    let exact = u128::from(fraction | 1 << 52) * 10_000;
    let spare = 128 - 53 - exact.leading_zeros();
    let (kept, rest, half) = (exact >> spare, exact & ((1 << spare) - 1), 1u128 << (spare - 1));
    let up = rest > half || rest == half && kept & 1 == 1;
    // Its digits and a power of two, both exact.
    let size = (kept + u128::from(up)) as f64 * 2f64.powi(exponent as i32 - 1_075 + spare as i32);
    size.copysign(metres)
}

#[test]
fn the_product_is_rounded_once() {
    for n in 0..200_000 {
        let halves = (f64::from(n) + 0.5) / 10_000.0;
        for metres in [halves, -halves, f64::from(n + 1) / 7e3, 15_000.0 / f64::from(n + 1)] {
            assert_eq!(metres * 10_000.0, product_in_whole_numbers(metres), "{metres}");
            assert_eq!(kerbs::ticks(metres), (metres * 10_000.0).round() as i32, "{metres}");
        }
    }
}

#[test]
fn wrong_headers_are_refused_where_they_stand() {
    check_refused(&[], 12, 0);
    for mark in [0, 2, 3, 0x81, 255] {
        check_refused(&[mark], 12, 0);
        check_refused(&[&[mark][..], &point(1.0, 2.0)[1..]].concat(), 12, 0);
    }
    for kind in [0, 3, 4, 7, 1_001, 2_001, 3_001, 0x0100_0000, 0x2000_0001, 0x8000_0001, u32::MAX] {
        check_refused(&[&[1][..], &kind.to_le_bytes(), &point(1.0, 2.0)[5..]].concat(), 12, 1);
    }
    for count in [0u32, 1, 501, 502, 65_538, 0x0200_0000, u32::MAX] {
        check_refused(&[&hex("01 02000000")[..], &count.to_le_bytes(), &[0; 8_017]].concat(), 12, 5);
    }
    // The empty ones: a point of two quiet NaNs, and a line without vertices.
    check_refused(&hex("01 01000000 000000000000F87F 000000000000F87F"), 13, 5);
    check_refused(&hex("01 02000000 00000000"), 12, 5);
}

/// The first byte of the field that a cut here goes through.
fn field_cut(header: usize, length: usize) -> usize {
    match length {
        0 => 0,
        1..=4 => 1,
        5..=8 if header == 9 => 5,
        _ => header + (length - header) / 8 * 8,
    }
}

#[test]
fn missing_and_left_over_bytes_are_refused() {
    for (geometry, header) in [(point(1.0, 2.0), 5), (line(&[(1.0, 2.0); 3]), 9)] {
        for length in 0..geometry.len() {
            check_refused(&geometry[..length], 12, field_cut(header, length));
        }
        for more in 1..20 {
            check_refused(&[&geometry[..], &vec![1; more]].concat(), 12, geometry.len());
        }
    }
    let longest = line(&[(1.0, 2.0); 500]);
    check_refused(&[&longest[..], &[0]].concat(), 12, 8_009);
    check_refused(&longest[..8_008], 12, 8_001);
}

#[test]
fn wrong_coordinates_are_refused_where_they_stand() {
    let above = f64::from_bits(15_000f64.to_bits() + 1);
    for wrong in [above, -above, f64::INFINITY, f64::NEG_INFINITY, f64::NAN, -f64::NAN, f64::MAX, 15_001.0] {
        check_refused(&point(wrong, wrong), 13, 5);
        check_refused(&point(0.0, wrong), 13, 13);
        check_refused(&line(&[(0.0, 0.0), (wrong, wrong)]), 13, 25);
        check_refused(&line(&[(0.0, wrong), (wrong, wrong)]), 13, 17);
        let mut last = vec![(0.0, 0.0); 500];
        last[499].1 = wrong;
        check_refused(&line(&last), 13, 8_001);
        // In order: a wrong coordinate, then the bytes missing or left over.
        check_refused(&point(0.0, wrong)[..20], 12, 13);
        check_refused(&line(&[(0.0, 0.0), (wrong, 0.0)])[..33], 13, 25);
        check_refused(&[&point(0.0, wrong)[..], &[0]].concat(), 13, 13);
    }
}

#[test]
fn short_runs_are_told_last() {
    let short = Intake::Untaken { number: 21 };
    for lengths in [(0, 1), (1, 0), (0, 0), (0, 600)] {
        check_not_taken(&point(1.0, 2.0), lengths, short);
    }
    for lengths in [(2, 3), (3, 2), (0, 600), (600, 0)] {
        check_not_taken(&line(&[(1.0, 2.0); 3]), lengths, short);
    }
    check_not_taken(&line(&[(1.0, 2.0); 500]), (499, 500), short);
}
