//! Product against reference: seeded jobs of all kinds, what they leave in lent runs, short runs, and the two turns.
//! `TURNING_JOBS` says how many jobs (20,000 where it is not set), `TURNING_SEED` which (1), `TURNING_TURNS` how many
//! turns of a single unit are made (1,000,000), beside those refused.

use std::collections::BTreeMap;
use std::time::{Duration, Instant};
use turning::jobs::{heading, heaviest, heaviest_long, some_job, Chance};
use turning::runs::Runs;
use turning::turns::{corner_turn, some_turn, Turn};
use turning::{hex_of_bytes, product, reference, Swept};

/// A value that no answer holds, to see what is written.
const UNWRITTEN: i64 = 0x5eed_0000_0000_0001;

fn setting(name: &str, usual: u64) -> u64 {
    std::env::var(name).map_or(usual, |text| text.parse().unwrap_or_else(|_| panic!("{name} is a number")))
}

/// Which form of job the first byte announces, if any.
fn form_of(job: &[u8]) -> &'static str {
    match job.first() {
        Some(1..=4) => "short",
        Some(11..=14) => "long",
        _ => "other",
    }
}

/// The overhang or half width that starts at this byte; every field before it ends in a byte without the top bit.
fn measure_at(job: &[u8], at: usize) -> &'static str {
    let before = job[..at].iter().filter(|byte| **byte < 0x80).count() - 1;
    let (units, each) = if job[0] > 10 { (usize::from(job[0] - 10), 6) } else { (usize::from(job[0]), 3) };
    match before.checked_sub(each * units) {
        None => ["body's front overhang", "body's rear overhang", "body's half width"][before % each - 3],
        Some(after) => ["overhang", "front half width", "rear half width"][after],
    }
}

fn kind_of(job: &[u8], swept: &Swept) -> String {
    match swept {
        Swept::Refused { number: 5, at } => format!("refused  5, {}", measure_at(job, *at)),
        Swept::Refused { number, .. } => format!("refused {number:2}"),
        Swept::Stopped { number, unit, .. } => format!("stopped {number} unit {unit}"),
        Swept::Finished { widest: None, .. } => "finished, widest none".to_string(),
        Swept::Finished { .. } => "finished".to_string(),
    }
}

/// The number that an outcome must be told by, and the eight entries, which a refusal leaves.
fn told(swept: &Swept) -> (u32, [i64; 8]) {
    match *swept {
        Swept::Refused { number, at } => (number + 256 * at as u32, [UNWRITTEN; 8]),
        Swept::Stopped { number, unit, step } => (number + 256 * unit + 65_536 * step, [UNWRITTEN; 8]),
        Swept::Finished { steps, widest, front } => {
            let (k, width, left, right) = widest.unwrap_or((0, 0, 0, 0));
            (0, [steps.into(), widest.is_some().into(), k.into(), width, left, right, front.0, front.1])
        }
    }
}

/// Every entry of the answer is as expected, and those past the eighth are as they were.
fn check_answer(job: &[u8], number: u32, answer: &[i64], expected: &Swept) {
    let (expected_number, entries) = told(expected);
    assert_eq!((number, &answer[..8]), (expected_number, &entries[..]), "job {}", hex_of_bytes(job));
    assert!(answer[8..].iter().all(|entry| *entry == UNWRITTEN), "job {}", hex_of_bytes(job));
}

/// The answer, entry by entry and taken apart. Answers how long the product took.
fn check_job(job: &[u8], expected: &Swept, extra: usize) -> Duration {
    let mut answer = vec![UNWRITTEN; 8 + extra];
    let begun = Instant::now();
    let number = product::sweep_into(job, &mut answer);
    let taken = begun.elapsed();
    check_answer(job, number, &answer, expected);
    assert_eq!(product::sweep(job), *expected, "job {}", hex_of_bytes(job));
    taken
}

/// The answer on lent runs, and all seven of them to the last entry. Answers what the job came to.
fn check_run(job: &[u8], lent: &Runs, extra: usize) -> Swept {
    let (mut runs, mut kept, mut expected_runs) = (lent.clone(), lent.clone(), lent.clone());
    let expected = reference::run(job, &mut expected_runs);
    let mut answer = vec![UNWRITTEN; 8 + extra];
    let number = product::run_into(job, &mut runs, &mut answer);
    check_answer(job, number, &answer, &expected);
    assert_eq!(runs, expected_runs, "job {}", hex_of_bytes(job));
    assert_eq!(product::run(job, &mut kept), expected, "job {}", hex_of_bytes(job));
    assert_eq!(kept, expected_runs, "job {}", hex_of_bytes(job));
    expected
}

#[test]
fn jobs_are_answered_as_by_the_reference() {
    let count = setting("TURNING_JOBS", 20_000);
    let mut chance = Chance::new(setting("TURNING_SEED", 1));
    let mut kinds: BTreeMap<String, u64> = BTreeMap::new();
    let mut slowest = check_job(&heaviest(), &reference::sweep(&heaviest()), 5);
    slowest = slowest.max(check_job(&heaviest_long(), &reference::sweep(&heaviest_long()), 5));
    for round in 0..count {
        let job = some_job(&mut chance);
        let expected = reference::sweep(&job);
        slowest = slowest.max(check_job(&job, &expected, round as usize % 4));
        *kinds.entry(format!("{:5} {}", form_of(&job), kind_of(&job, &expected))).or_default() += 1;
    }
    for (kind, times) in &kinds {
        println!("{kind:40} {times:7}");
    }
    println!("{count} jobs, no difference, the slowest in {:.1} ms", slowest.as_secs_f64() * 1e3);
    assert!(slowest < Duration::from_secs(1), "no job takes a second");
    // In each form eight refusals beside 5, 22 at four units, 23 at three, and finished with a widest place or none;
    // 5 at three fields of a short job and at six of a long one; in neither form 1, 2 and 3.
    assert!(count < 20_000 || kinds.len() == 46, "some kind of outcome is missing: {kinds:?}");
}

#[test]
fn lent_runs_are_left_as_by_the_reference() {
    let count = setting("TURNING_JOBS", 20_000);
    let mut chance = Chance::new(setting("TURNING_SEED", 1) + 7);
    let mut kinds: BTreeMap<String, u64> = BTreeMap::new();
    let most = Runs::by_chance(&mut chance, [2_003; 7]);
    check_run(&heaviest(), &most, 1);
    check_run(&heaviest_long(), &most, 1);
    for round in 0..count / 4 {
        let job = some_job(&mut chance);
        *kinds.entry(form_of(&job).to_string()).or_default() += 1;
        let stations = reference::stations(&job);
        let mut lengths = [0; 7].map(|_: usize| stations + chance.below(4) as usize);
        if chance.one_in(4) && stations > 0 {
            let which = chance.below(7) as usize;
            lengths[which] = stations - 1 - chance.below(stations as u64) as usize;
            let lent = Runs::by_chance(&mut chance, lengths);
            assert_eq!(check_run(&job, &lent, 0), Swept::Refused { number: 21, at: 0 });
            *kinds.entry(format!("refused 21, run {which}")).or_default() += 1;
        } else {
            let lent = Runs::by_chance(&mut chance, lengths);
            *kinds.entry(kind_of(&job, &check_run(&job, &lent, round as usize % 4))).or_default() += 1;
        }
    }
    println!("lent runs by outcome: {kinds:?}");
    // Three forms, nine refusals beside 5, 5 at six fields, 22 and 23 at seven units, finished with a widest place or
    // none, and 21 at each of the seven runs.
    assert!(count < 20_000 || kinds.len() == 34, "some kind of outcome is missing: {kinds:?}");
}

#[test]
fn short_answer_runs_are_refused() {
    let mut chance = Chance::new(21);
    for _ in 0..300 {
        let job = some_job(&mut chance);
        for length in 0..8 {
            let mut answer = vec![UNWRITTEN; length];
            assert_eq!(product::sweep_into(&job, &mut answer), 21);
            assert_eq!(answer, vec![UNWRITTEN; length]);
            // Tested before the job and before the other runs, which stay.
            for entries in [0, 2_001] {
                let lent = Runs::by_chance(&mut chance, [entries; 7]);
                let mut runs = lent.clone();
                assert_eq!(product::run_into(&job, &mut runs, &mut answer), 21);
                assert_eq!((answer, runs), (vec![UNWRITTEN; length], lent));
                answer = vec![UNWRITTEN; length];
            }
        }
    }
    for length in 0..4 {
        let mut answer = vec![UNWRITTEN; length];
        assert_eq!(product::path_turn_into(0, 1_000_000, 5_000, 20_000, &mut answer), 21);
        assert_eq!(product::path_turn_into(0, 0, 0, 1, &mut answer), 21);
        assert_eq!(answer, vec![UNWRITTEN; length]);
    }
    for length in 0..2 {
        let mut answer = vec![UNWRITTEN; length];
        assert_eq!(product::unit_turn_into(0, 50_000, 0, 5_000, 50_000, &mut answer), 21);
        assert_eq!(product::unit_turn_into(0, 0, i64::MIN, 0, 0, &mut answer), 21);
        assert_eq!(answer, vec![UNWRITTEN; length]);
    }
}

/// Any number, mostly one that some test turns on.
fn hostile(chance: &mut Chance) -> i64 {
    match chance.below(5) {
        0 => chance.pick(&[i64::MIN, i64::MIN + 1, i64::MAX, i64::MAX - 1, 3_037_000_500, 1 << 32, 1 << 62]),
        1 => chance.word() as i64,
        2 => chance.between(-1_100_000, 1_100_000),
        3 => chance.pick(&[0, 1, -1, 1_000_000, -1_000_000, 1_000_001, 999_999, 1_414, 1_415, 5_000, 200_000]),
        _ => chance.between(-300_000, 300_000),
    }
}

/// Checks that a turn writes its entries, or none, and nothing after them.
fn check_turn<const M: usize>(call: impl Fn(&mut [i64]) -> u32, expected: Result<[i64; M], u32>, extra: usize) {
    let mut answer = vec![UNWRITTEN; M + extra];
    let number = call(&mut answer);
    match expected {
        Ok(entries) => assert_eq!((number, &answer[..M]), (0, &entries[..])),
        Err(refusal) => assert_eq!((number, &answer[..M]), (refusal, &[UNWRITTEN; M][..])),
    }
    assert!(answer[M..].iter().all(|entry| *entry == UNWRITTEN));
}

#[test]
fn path_turns_are_answered_as_by_the_reference() {
    let mut chance = Chance::new(678);
    let mut numbers: BTreeMap<u32, u64> = BTreeMap::new();
    for round in 0..200_000 {
        let (mut gx, mut gy) = heading(&mut chance);
        let mut s = chance.between(1, 20_000) as u32;
        let mut r = (chance.pick(&[-1, 1]) * chance.between(20_000, 1_000_000)) as i32;
        match chance.below(8) {
            0 => gx = hostile(&mut chance),
            1 => (gx, gy) = (hostile(&mut chance), hostile(&mut chance)),
            2 => s = chance.pick(&[0, 1, 20_000, 20_001, 30_000, 1 << 31, u32::MAX]),
            3 => r = chance.pick(&[0, 1, -1, 19_999, -20_000, 1_000_000, -1_000_001, i32::MIN, i32::MAX]),
            4 => (gx, gy) = (gx + chance.between(-2, 2), gy + chance.between(-2, 2)),
            _ => (),
        }
        let expected = reference::path_turn(gx, gy, s, r);
        check_turn(|answer| product::path_turn_into(gx, gy, s, r, answer), expected, round % 3);
        assert_eq!(product::path_turn(gx, gy, s, r), expected);
        *numbers.entry(expected.err().unwrap_or(0)).or_default() += 1;
    }
    println!("path turns by number: {numbers:?}");
    assert_eq!(numbers.keys().copied().collect::<Vec<_>>(), [0, 6, 7, 8]);
}

/// A turn, one in three at a corner; one in eight is then harmed in its vector, its move or its wheelbase.
fn any_turn(chance: &mut Chance) -> Turn {
    let mut turn = if chance.one_in(3) { corner_turn(chance) } else { some_turn(chance) };
    match chance.below(32) {
        0 => turn.d.0 = hostile(chance),
        1 => turn.d = (turn.d.0 + chance.between(-1, 1), turn.d.1 + chance.between(-1, 1)),
        2 => turn.f = (hostile(chance), hostile(chance)),
        3 => turn.wheelbase = chance.pick(&[0, 4_999, 5_000, 200_000, 200_001, u32::MAX, turn.wheelbase + 1]),
        _ => (),
    }
    turn
}

#[test]
fn unit_turns_are_answered_as_by_the_reference() {
    let count = setting("TURNING_TURNS", 1_000_000);
    let mut chance = Chance::new(2227);
    let mut numbers: BTreeMap<u32, u64> = BTreeMap::new();
    while numbers.get(&0).is_none_or(|made| *made < count) {
        let turn = any_turn(&mut chance);
        let ((dx, dy), (fx, fy), wheelbase) = (turn.d, turn.f, turn.wheelbase);
        let extra = chance.below(3) as usize;
        let expected = reference::unit_turn(dx, dy, fx, fy, wheelbase);
        check_turn(|answer| product::unit_turn_into(dx, dy, fx, fy, wheelbase, answer), expected, extra);
        assert_eq!(product::unit_turn(dx, dy, fx, fy, wheelbase), expected, "{turn:?}");
        *numbers.entry(expected.err().unwrap_or(0)).or_default() += 1;
    }
    println!("unit turns by number: {numbers:?}");
    assert!(count < 1_000 || numbers.keys().eq(&[0, 22, 27]), "some number is missing: {numbers:?}");
}
