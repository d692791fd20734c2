//! The reference, and the product where it is linked, on the committed job vectors, turns and reports on kerbs.

use std::fs;
use turning::{bytes_of_hex, reference, touch, Report, Swept};

type Tell = fn(&[u8], usize, &[i32], &[i32]) -> Report;
type PathTurn = fn(i64, i64, u32, i32) -> Result<[i64; 4], u32>;
type UnitTurn = fn(i64, i64, i64, i64, u32) -> Result<[i64; 2], u32>;

fn vectors_file(name: &str) -> String {
    let file = format!("{}/../crates/{name}", env!("CARGO_MANIFEST_DIR"));
    fs::read_to_string(file).expect("the vectors are there")
}

/// The committed jobs with the text expected of each.
fn job_vectors() -> Vec<(Vec<u8>, String)> {
    let pair = |line: &str| {
        let (hex, expected) = line.split_once(' ').expect("a line is hex, a space and the text");
        (bytes_of_hex(hex).expect("hexadecimal bytes"), expected.replace('/', "\n"))
    };
    vectors_file("job_trials/data/jobs.txt").lines().map(pair).collect()
}

fn check(name: &str, sweep: fn(&[u8]) -> Swept) {
    let vectors = job_vectors();
    let long = vectors.iter().filter(|(bytes, _)| matches!(bytes.first(), Some(11..=14))).count();
    assert!(long >= 300 && vectors.len() - long >= 300, "both forms are among them");
    for (bytes, expected) in &vectors {
        assert_eq!(sweep(bytes).to_string(), *expected, "{name} on {}", turning::hex_of_bytes(bytes));
    }
    println!("{name}: {} job vectors hold, {long} of them of long jobs", vectors.len());
}

/// The integers before and after the ` = ` of each call of one operation in a table; a size beyond the signed ones stands as its bits.
fn call_vectors(table: &str, operation: &str) -> Vec<(Vec<i64>, Vec<i64>)> {
    let integer = |word: &str| word.parse().or_else(|_| word.parse::<u64>().map(|size| size as i64)).expect("an integer");
    let integers = |text: &str| text.split(' ').map(integer).collect();
    let pair = |line: &str| {
        let (call, expected) = line.strip_prefix(operation)?.split_once(" = ")?;
        Some((integers(call), integers(expected)))
    };
    vectors_file(table).lines().filter_map(pair).collect()
}

/// A turn's answer as the vectors give it: the number, then the entries or zeros.
fn entries<const M: usize>(answer: Result<[i64; M], u32>) -> Vec<i64> {
    let number = answer.err().map_or(0, i64::from);
    let mut told = vec![number];
    told.extend(answer.unwrap_or([0; M]));
    told
}

fn check_turns(path_turn: PathTurn, unit_turn: UnitTurn) {
    let [path_calls, unit_calls] = ["6 ", "7 "].map(|operation| call_vectors("call_trials/data/calls.txt", operation));
    assert!(path_calls.len() >= 50 && unit_calls.len() >= 50);
    for (call, expected) in path_calls {
        let answer = path_turn(call[0], call[1], call[2] as u32, call[3] as i32);
        assert_eq!(entries(answer), expected, "path turn {call:?}");
    }
    for (call, expected) in unit_calls {
        let answer = unit_turn(call[0], call[1], call[2], call[3], call[4] as u32);
        assert_eq!(entries(answer), expected, "unit turn {call:?}");
    }
}

/// A run of a call, which is its length and then its entries, and what is left of the call.
fn run_of<T: TryFrom<i64>>(call: &[i64]) -> (Vec<T>, &[i64]) {
    let (run, rest) = call[1..].split_at(call[0] as usize);
    (run.iter().map(|&entry| T::try_from(entry).ok().expect("an entry of its type")).collect(), rest)
}

/// A report as the vectors give it: the number, the byte, the unit, whether a touch was found, the step and the point.
fn report_entries(report: Report) -> [i64; 6] {
    match report {
        Report::Touched { step, point } => [0, 0, 0, 1, step.into(), point.into()],
        Report::Clear => [0; 6],
        Report::Refused { number, at } => [number.into(), at as i64, 0, 0, 0, 0],
        Report::Unreported { number } => [number.into(), 0, 0, 0, 0, 0],
        Report::Stopped { number, unit, step } => [number.into(), 0, unit.into(), 0, step.into(), 0],
    }
}

/// Reports from a job and a kerb's ticks.
fn check_reports(name: &str, report: Tell) {
    let vectors = call_vectors("kerb_trials/data/kerbs.txt", "3 ");
    assert!(vectors.len() >= 100);
    for (call, expected) in &vectors {
        let (job, rest) = run_of(call);
        let (xs, rest_of_run) = run_of(&rest[1..]);
        let (ys, left) = run_of(rest_of_run);
        assert!(left.is_empty());
        assert_eq!(report_entries(report(&job, rest[0] as usize, &xs, &ys)).as_slice(), expected, "{name} on {call:?}");
    }
    println!("{name}: {} reports hold", vectors.len());
}

#[test]
fn reference_reports_as_the_kerb_vectors() {
    check_reports("reference", touch::report);
}

#[cfg(feature = "product")]
#[test]
fn product_reports_as_the_kerb_vectors() {
    check_reports("product", turning::product::kerbs::report);
}

#[test]
fn reference_prints_the_job_vectors() {
    check("reference", reference::sweep);
}

#[test]
fn reference_turns_as_the_call_vectors() {
    check_turns(reference::path_turn, reference::unit_turn);
}

#[cfg(feature = "product")]
#[test]
fn product_prints_the_job_vectors() {
    check("product", turning::product::sweep);
}

#[cfg(feature = "product")]
#[test]
fn product_turns_as_the_call_vectors() {
    check_turns(turning::product::path_turn, turning::product::unit_turn);
}
