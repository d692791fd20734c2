//! Product against reference: seeded geometries of kerbs, their answers and what they leave in lent runs.
//! `TURNING_KERBS` says how many kerbs (20,000 where it is not set), `TURNING_SEED` which (1).

use std::collections::BTreeMap;
use turning::geometries::some_geometry;
use turning::jobs::Chance;
use turning::kerbs::{read_geometry, take_in, ticks, Vertex};
use turning::{hex_of_bytes, product, Intake};

/// A value that no answer holds, to see what is written.
const UNWRITTEN: i64 = 0x5eed_0000_0000_0001;

type Kinds = BTreeMap<String, u64>;

fn setting(name: &str, usual: u64) -> u64 {
    std::env::var(name).map_or(usual, |text| text.parse().unwrap_or_else(|_| panic!("{name} is a number")))
}

/// The number that an outcome must be told by, and the entry, which a refusal leaves.
fn told(intake: Intake) -> (u32, i64) {
    match intake {
        Intake::Taken { vertices } => (0, vertices as i64),
        Intake::Refused { number, at } => (number + 256 * at as u32, UNWRITTEN),
        Intake::Untaken { number } => (number, UNWRITTEN),
    }
}

/// Number, answer run and both lent runs to the last entry, and the answer taken apart.
fn check_kerb(geometry: &[u8], lent: &[Vec<i32>; 2], extra: usize) -> Intake {
    let ([mut xs, mut ys], [mut kept_xs, mut kept_ys]) = (lent.clone(), lent.clone());
    let [mut expected_xs, mut expected_ys] = lent.clone();
    let expected = take_in(geometry, &mut expected_xs, &mut expected_ys);
    let mut answer = vec![UNWRITTEN; 1 + extra];
    let answered = product::kerbs::take_in_into(geometry, &mut xs, &mut ys, &mut answer);
    assert_eq!((answered, answer[0]), told(expected), "{}", hex_of_bytes(geometry));
    assert!(answer[1..].iter().all(|entry| *entry == UNWRITTEN), "{}", hex_of_bytes(geometry));
    assert_eq!((&xs, &ys), (&expected_xs, &expected_ys), "{}", hex_of_bytes(geometry));
    assert_eq!(product::kerbs::take_in(geometry, &mut kept_xs, &mut kept_ys), expected, "{}", hex_of_bytes(geometry));
    assert_eq!((kept_xs, kept_ys), (expected_xs, expected_ys), "{}", hex_of_bytes(geometry));
    expected
}

fn run_by_chance(chance: &mut Chance, length: usize) -> Vec<i32> {
    (0..length).map(|_| chance.word() as i32).collect()
}

/// Runs for so many vertices: some with entries to spare, or one or both, which are named, too short.
fn lent_runs(chance: &mut Chance, vertices: usize) -> ([Vec<i32>; 2], &'static str) {
    let mut lengths = [0; 2].map(|_: usize| vertices + chance.below(4) as usize);
    let short = if chance.one_in(5) { chance.pick(&["xs", "ys", "both"]) } else { "none" };
    let mut cut = || chance.pick(&[vertices - 1, vertices - 1, vertices / 2, 0]);
    match short {
        "xs" => lengths[0] = cut(),
        "ys" => lengths[1] = cut(),
        "both" => lengths = [cut(), cut()],
        _ => (),
    }
    (lengths.map(|length| run_by_chance(chance, length)), short)
}

/// Which field starts at this byte, and how wide it is.
fn field_at(geometry: &[u8], at: usize) -> (&'static str, usize) {
    let is_line = geometry.get(1) == Some(&2);
    match (at, is_line) {
        (0, _) => ("mark", 1),
        (1, _) => ("type", 4),
        (5, true) => ("count", 4),
        (_, true) => ([("line's x", 8), ("line's y", 8)])[(at - 9) / 8 % 2],
        (_, false) => ([("point's x", 8), ("point's y", 8)])[(at - 5) / 8 % 2],
    }
}

/// How long the geometry would be by its type and count, if these are sound.
fn whole_length(geometry: &[u8]) -> usize {
    match geometry.get(5..9) {
        Some(count) if geometry[1] == 2 => 9 + 16 * usize::from(u16::from_le_bytes([count[0], count[1]])),
        _ => 21,
    }
}

fn kind_of(geometry: &[u8], short: &str, intake: Intake) -> String {
    match intake {
        Intake::Taken { vertices: 1 } => "a point".to_string(),
        Intake::Taken { vertices: 2 } => "a line of 2".to_string(),
        Intake::Taken { vertices: 500 } => "a line of 500".to_string(),
        Intake::Taken { .. } => "a line of others".to_string(),
        Intake::Refused { number: 12, at } if at >= 9 && at == whole_length(geometry) => {
            format!("12, left over after a {}", if geometry[1] == 2 { "line" } else { "point" })
        }
        Intake::Refused { number: 12, at } => {
            let (field, width) = field_at(geometry, at);
            format!("12, {field} {}", if at + width > geometry.len() { "missing" } else { "wrong" })
        }
        Intake::Refused { at, .. } => {
            let bytes = geometry[at..at + 8].try_into().expect("eight bytes");
            let metres = f64::from_le_bytes(bytes);
            let why = [(metres.is_nan(), "no number"), (metres.is_infinite(), "infinite"), (true, "too large")];
            let (_, why) = why.iter().find(|(holds, _)| *holds).expect("the last holds");
            format!("13, {} {why}", field_at(geometry, at).0)
        }
        Intake::Untaken { number } => {
            format!("{number}, {short} too short for a {}", ["line", "point"][usize::from(geometry[1] == 1)])
        }
    }
}

/// The nearest tick to the exact product, which is not what is asked for: the digits of the float ten thousand times
/// over, cut where the whole ticks end.
fn ticks_without_rounding_first(metres: f64) -> i32 {
    if metres.abs() < 1e-9 {
        return 0;
    }
    let (exponent, fraction) = (metres.to_bits() >> 52 & 0x7ff, metres.to_bits() & ((1 << 52) - 1));
    let digits = u128::from(fraction | 1 << 52) * 10_000;
    let twice = digits >> (1_074 - exponent);
    twice.div_ceil(2) as i32 * metres.signum() as i32
}

/// What the coordinates taken in are cases of, by name.
fn traits_of(vertices: &[Vertex]) -> Vec<&'static str> {
    let mut names = Vec::new();
    for metres in vertices.iter().flat_map(|vertex| [vertex.x, vertex.y]) {
        let product = metres * 10_000.0;
        let below_half = f64::from_bits(product.to_bits() + 1).fract().abs() == 0.5;
        let above_half = f64::from_bits(product.to_bits().saturating_sub(1)).fract().abs() == 0.5;
        let cases = [
            ("half a tick", product.fract() == 0.5),
            ("half a tick, negative", product.fract() == -0.5),
            ("just below half a tick", below_half),
            ("just above half a tick", above_half),
            ("a whole tick", product != 0.0 && product.fract() == 0.0),
            ("15,000 or as much negative", metres.abs() == 15_000.0),
            ("just below 15,000", metres.to_bits() << 1 == (15_000f64.to_bits() - 1) << 1),
            ("zero", metres.to_bits() == 0),
            ("negative zero", metres.to_bits() == 1 << 63),
            ("subnormal", metres.is_subnormal()),
            ("another tick than without rounding the product", ticks(metres) != ticks_without_rounding_first(metres)),
            ("another tick than halves to even", f64::from(ticks(metres)) != product.round_ties_even()),
        ];
        names.extend(cases.iter().filter(|(_, holds)| *holds).map(|(name, _)| *name));
    }
    names
}

#[test]
fn kerbs_are_taken_in_as_by_the_reference() {
    let count = setting("TURNING_KERBS", 20_000);
    let mut chance = Chance::new(setting("TURNING_SEED", 1) + 4);
    let mut kinds = Kinds::new();
    for round in 0..count {
        let geometry = some_geometry(&mut chance);
        let read = read_geometry(&geometry);
        let (lent, short) = lent_runs(&mut chance, read.as_ref().map_or(2, Vec::len));
        let intake = check_kerb(&geometry, &lent, round as usize % 4);
        *kinds.entry(kind_of(&geometry, short, intake)).or_default() += 1;
        let traits = match intake {
            Intake::Taken { .. } => traits_of(&read.expect("it is taken in")),
            Intake::Refused { number: 12, .. } if short != "none" => vec!["12 goes before 21"],
            Intake::Refused { number: 13, .. } if short != "none" => vec!["13 goes before 21"],
            _ => vec![],
        };
        traits.iter().for_each(|name| *kinds.entry(name.to_string()).or_default() += 1);
    }
    for (kind, times) in &kinds {
        println!("{kind:52} {times:7}");
    }
    println!("{count} kerbs, no difference");
    // 12 in twelve ways, 13 for three reasons at four fields, 21 in six ways and four sizes of kerbs, beside them twelve
    // traits of coordinates and two of refusals.
    assert!(count < 20_000 || kinds.len() == 48, "some kind of outcome is missing: {kinds:?}");
}

#[test]
fn an_empty_answer_run_is_refused() {
    let mut chance = Chance::new(21);
    for _ in 0..500 {
        let geometry = some_geometry(&mut chance);
        // Tested before the geometry and the other runs, which stay.
        for entries in [0, 500] {
            let lent = [0; 2].map(|_| run_by_chance(&mut chance, entries));
            let [mut xs, mut ys] = lent.clone();
            assert_eq!(product::kerbs::take_in_into(&geometry, &mut xs, &mut ys, &mut []), 21);
            assert_eq!([xs, ys], lent);
        }
    }
}
