//! Product against reference: seeded reports of rigs beside kerbs.
//! `TURNING_TOUCHES` says how many reports (2,000 where it is not set), `TURNING_SEED` which (1).

use std::collections::BTreeMap;
use std::time::{Duration, Instant};
use turning::jobs::Chance;
use turning::touch::{report, touch, tracks};
use turning::yards::{heaviest_yard, some_yard, Yard};
use turning::{product, reference, Report, Swept};

/// A value that no answer holds, to see what is written.
const UNWRITTEN: i64 = 0x5eed_0000_0000_0001;

type Segment = [(i64, i64); 2];

fn setting(name: &str, usual: u64) -> u64 {
    std::env::var(name).map_or(usual, |text| text.parse().unwrap_or_else(|_| panic!("{name} is a number")))
}

/// The number that an outcome must be told by, and the three entries, which a refusal leaves.
fn told(report: Report) -> (u32, [i64; 3]) {
    match report {
        Report::Touched { step, point } => (0, [1, step.into(), point.into()]),
        Report::Clear => (0, [0; 3]),
        Report::Refused { number, at } => (number + 256 * at as u32, [UNWRITTEN; 3]),
        Report::Unreported { number } => (number, [UNWRITTEN; 3]),
        Report::Stopped { number, unit, step } => (number + 256 * unit + 65_536 * step, [UNWRITTEN; 3]),
    }
}

/// Number and answer run to the last entry, and the answer taken apart. Answers the report and how long it took.
fn check_yard(yard: &Yard, extra: usize) -> (Report, Duration) {
    let Yard { job, vertices, xs, ys } = yard;
    let expected = report(job, *vertices, xs, ys);
    let mut answer = vec![UNWRITTEN; 3 + extra];
    let begun = Instant::now();
    let answered = product::kerbs::report_into(job, *vertices, xs, ys, &mut answer);
    let taken = begun.elapsed();
    let (number, entries) = told(expected);
    assert_eq!((answered, &answer[..3]), (number, &entries[..]), "{yard:?}");
    assert!(answer[3..].iter().all(|entry| *entry == UNWRITTEN), "{yard:?}");
    assert_eq!(product::kerbs::report(job, *vertices, xs, ys), expected, "{yard:?}");
    (expected, taken)
}

/// Why 21 must be answered for this kerb, if it must.
fn run_fault(yard: &Yard) -> Option<&'static str> {
    match yard.vertices {
        0 => Some("no vertex"),
        501.. => Some("over 500 vertices"),
        count if yard.xs.len() < count => Some("xs too short"),
        count if yard.ys.len() < count => Some("ys too short"),
        _ => None,
    }
}

/// Why 26 must be answered for this kerb, whose runs are long enough, if it must.
fn tick_fault(yard: &Yard) -> Option<&'static str> {
    let any = |run: &[i32], beyond: fn(&i32) -> bool| run[..yard.vertices].iter().any(beyond);
    let reasons = [
        ("x too high", any(&yard.xs, |tick| *tick > 150_000_000)),
        ("x too low", any(&yard.xs, |tick| *tick < -150_000_000)),
        ("y too high", any(&yard.ys, |tick| *tick > 150_000_000)),
        ("y too low", any(&yard.ys, |tick| *tick < -150_000_000)),
    ];
    reasons.iter().find(|(_, holds)| *holds).map(|(name, _)| *name)
}

fn kind_of(yard: &Yard, report: Report) -> String {
    match report {
        Report::Touched { point, .. } => format!("touched by point {point:2}"),
        Report::Clear => "clear".to_string(),
        Report::Refused { number, .. } => format!("refused {number:2}"),
        Report::Unreported { number: 21 } => format!("refused 21, {}", run_fault(yard).expect("21 has a reason")),
        Report::Unreported { number } => format!("refused {number}, {}", tick_fault(yard).expect("26 has a reason")),
        Report::Stopped { number, .. } => format!("stopped {number}"),
    }
}

fn segments(yard: &Yard) -> Vec<Segment> {
    let place = |i: usize| (i64::from(yard.xs[i]), i64::from(yard.ys[i]));
    (0..yard.vertices.max(2) - 1).map(|i| [place(i), place((i + 1).min(yard.vertices - 1))]).collect()
}

/// The side of a segment on which a place lies: -1, 0 or 1.
fn side([from, to]: Segment, place: (i64, i64)) -> i64 {
    ((to.0 - from.0) * (place.1 - from.1) - (to.1 - from.1) * (place.0 - from.0)).signum()
}

/// How a move and a segment that touch do so, by name.
fn manner(moved: Segment, segment: Segment) -> &'static str {
    let [a, b] = segment.map(|end| side(moved, end));
    let [p, q] = moved.map(|end| side(segment, end));
    let shared = segment.iter().any(|end| moved.contains(end));
    match (a * b, p * q) {
        _ if moved[0] == moved[1] => "a point that stays put",
        _ if segment[0] == segment[1] && shared => "a kerb's place where a move starts or ends",
        _ if segment[0] == segment[1] => "a kerb's place amid a move",
        (0, 0) if a == b && shared => "in line, an end in common",
        (0, 0) if a == b => "in line, no end in common",
        (_, _) if shared => "an end in common, not in line",
        (0, _) => "an end of the kerb amid a move",
        (_, 0) => "an end of the move amid the kerb",
        _ => "crossing",
    }
}

fn is_stopped(yard: &Yard) -> bool {
    matches!(reference::sweep(&yard.job), Swept::Stopped { .. })
}

/// Whether a tick in use is as far from the middle as it may be.
fn is_far(yard: &Yard) -> bool {
    let (xs, ys) = (&yard.xs[..yard.vertices], &yard.ys[..yard.vertices]);
    xs.iter().chain(ys).any(|tick| tick.abs() == 150_000_000)
}

/// What a touch is a case of, by name.
fn traits_of_touch(yard: &Yard, step: usize, point: usize) -> Vec<&'static str> {
    let (tracks, kerb) = (tracks(&yard.job), segments(yard));
    let moved = |k: usize, p: usize| [tracks[k - 1][p], tracks[k][p]];
    let met = |k: usize, p: usize| kerb.iter().any(|segment| touch(moved(k, p), *segment));
    let touching: Vec<usize> = (0..kerb.len()).filter(|i| touch(moved(step, point), kerb[*i])).collect();
    let points = tracks[0].len();
    let stops = is_stopped(yard);
    let cases = [
        ("touched in step 1", step == 1),
        ("touched in the last step of several", step > 1 && step == tracks.len() - 1 && !stops),
        ("touched in between", step > 1 && step < tracks.len() - 1),
        ("touched by a higher point in the same step", (point + 1..points).any(|p| met(step, p))),
        ("touched by a lower point in a later step", (step + 1..tracks.len()).any(|k| (0..point).any(|p| met(k, p)))),
        ("touched before a step is refused", stops),
        ("touched at the last segment alone of many", touching == [kerb.len() - 1] && kerb.len() > 1),
        ("touched at two segments or more", touching.len() > 1),
        ("touched, 500 vertices", yard.vertices == 500),
        ("touched, a vertex", yard.vertices == 1),
        ("touched, a tick as far as allowed", is_far(yard)),
    ];
    let mut names: Vec<&str> = cases.iter().filter(|(_, holds)| *holds).map(|(name, _)| *name).collect();
    names.extend(touching.first().map(|i| manner(moved(step, point), kerb[*i])));
    names
}

/// Whether a kerb that is not touched lies within three ticks of where a point stands.
fn is_near(yard: &Yard) -> bool {
    let near = |place: &(i64, i64), vertex: (i64, i64)| (place.0 - vertex.0).abs().max((place.1 - vertex.1).abs()) <= 3;
    let ends: Vec<(i64, i64)> = segments(yard).concat();
    tracks(&yard.job).iter().flatten().any(|place| ends.iter().any(|vertex| near(place, *vertex)))
}

/// What an answer other than a touch is a case of, by name.
fn traits_of_others(yard: &Yard, report: Report) -> Vec<&'static str> {
    let clear = report == Report::Clear;
    let of_record = matches!(report, Report::Refused { .. });
    let of_kerb = matches!(report, Report::Unreported { .. });
    let cases = [
        ("clear, but within three ticks", clear && is_near(yard)),
        ("clear, 500 vertices", clear && yard.vertices == 500),
        ("clear, a vertex", clear && yard.vertices == 1),
        ("clear, a tick as far as allowed", clear && is_far(yard)),
        ("the record goes before the kerb", of_record && (run_fault(yard).is_some() || tick_fault(yard).is_some())),
        ("the kerb goes before a refused step", of_kerb && is_stopped(yard)),
    ];
    cases.iter().filter(|(_, holds)| *holds).map(|(name, _)| *name).collect()
}

fn traits_of(yard: &Yard, report: Report) -> Vec<&'static str> {
    match report {
        Report::Touched { step, point } => traits_of_touch(yard, step as usize, point as usize),
        _ => traits_of_others(yard, report),
    }
}

#[test]
fn reports_are_answered_as_by_the_reference() {
    let count = setting("TURNING_TOUCHES", 2_000);
    let mut chance = Chance::new(setting("TURNING_SEED", 1) + 44);
    let mut kinds: BTreeMap<String, u64> = BTreeMap::new();
    let mut slowest = Duration::ZERO;
    for round in 0..count {
        let yard = some_yard(&mut chance);
        let (report, taken) = check_yard(&yard, round as usize % 4);
        slowest = slowest.max(taken);
        *kinds.entry(kind_of(&yard, report)).or_default() += 1;
        traits_of(&yard, report).iter().for_each(|name| *kinds.entry(name.to_string()).or_default() += 1);
    }
    for (kind, times) in &kinds {
        println!("{kind:44} {times:6}");
    }
    println!("{count} reports, no difference, the slowest in {:.1} ms", slowest.as_secs_f64() * 1e3);
    // 20 points that touch, clear, 10 refusals of the record, 21 for four reasons and 26 for four, 22 and 23, beside
    // them nine manners and eleven traits of touches, and six traits of other answers.
    assert!(count < 2_000 || kinds.len() == 67, "some kind of outcome is missing: {kinds:?}");
}

#[test]
fn the_heaviest_report_is_answered_as_by_the_reference() {
    let (report, taken) = check_yard(&heaviest_yard(), 1);
    assert_eq!(report, Report::Clear);
    println!("the heaviest report in {:.1} ms", taken.as_secs_f64() * 1e3);
}

#[test]
fn short_answer_runs_are_refused() {
    let mut chance = Chance::new(21);
    for _ in 0..300 {
        let Yard { job, vertices, xs, ys } = some_yard(&mut chance);
        for length in 0..3 {
            let mut answer = vec![UNWRITTEN; length];
            // Tested before the job and before the kerb.
            for (xs, ys) in [(&xs[..], &ys[..]), (&[], &[])] {
                assert_eq!(product::kerbs::report_into(&job, vertices, xs, ys, &mut answer), 21);
                assert_eq!(answer, vec![UNWRITTEN; length]);
            }
        }
    }
}
