//! The heaviest job through the product and the reference, one after the other in one run, then the turn of a single
//! unit through both, then the heaviest report of a rig beside a kerb through both, then the product's list of 32 settings
//! beside 32 of its sweeps. `TURNING_REPEATS` says how often (101 where it is not set); the report and the list, which
//! walks 32 times a round, take a fifth of the rounds.

use std::hint::black_box;
use std::time::{Duration, Instant};
use turning::runs::Runs;
use turning::settings::{fitting, walks};
use turning::turns::{some_turn, Turn};
use turning::yards::{distances, heaviest_yard, Yard};
use turning::{jobs, product, reference, settings, touch, Report, Swept};

/// 32 last wheelbases around the heaviest job's own 80,000: the lowest, the pitch and how many.
const SETTINGS: (u32, u32, u32) = (64_500, 1_000, 32);

fn timed(work: impl FnOnce()) -> Duration {
    let begun = Instant::now();
    work();
    begun.elapsed()
}

fn sweep_once(sweep: fn(&[u8]) -> Swept, job: &[u8]) {
    black_box(sweep(black_box(job)));
}

fn sweep_32_times(job: &[u8]) {
    for _ in 0..32 {
        sweep_once(product::sweep, job);
    }
}

/// Makes its runs itself, as each sweep makes its own.
fn list_32_settings(job: &[u8]) {
    let (lowest, pitch, number) = SETTINGS;
    black_box(product::settings(black_box(job), lowest, pitch, number, &mut Runs::zeros(2_001)));
}

fn median(mut times: Vec<Duration>) -> Duration {
    times.sort();
    times[times.len() / 2]
}

/// The medians of both; the one that goes first changes from round to round, so that neither has a warmer machine.
fn medians(rounds: usize, one: impl Fn(), other: impl Fn()) -> (Duration, Duration) {
    let (mut ones, mut others) = (Vec::new(), Vec::new());
    for round in 0..rounds {
        if round % 2 == 0 {
            ones.push(timed(&one));
            others.push(timed(&other));
        } else {
            others.push(timed(&other));
            ones.push(timed(&one));
        }
    }
    (median(ones), median(others))
}

fn repeats() -> usize {
    let asked = std::env::var("TURNING_REPEATS").ok();
    asked.map_or(101, |text| text.parse().expect("TURNING_REPEATS is a number")).max(1)
}

/// Every setting is walked to the end with a complete station, and both list the same.
fn check_settings(job: &[u8]) {
    let (lowest, pitch, number) = SETTINGS;
    let (mut runs, mut expected_runs) = (Runs::zeros(2_001), Runs::zeros(2_001));
    let made = walks(job, lowest, pitch, number, &mut expected_runs).expect("the settings are within the limits");
    assert_eq!(fitting(&made).len(), 32, "all 32 settings are walked to the end");
    let listing = product::settings(job, lowest, pitch, number, &mut runs);
    assert_eq!((listing, runs), (settings::best(&made), expected_runs), "both must list the same");
}

type UnitTurn = fn(i64, i64, i64, i64, u32) -> Result<[i64; 2], u32>;

fn turn_one(unit_turn: UnitTurn, turn: &Turn) -> Result<[i64; 2], u32> {
    unit_turn(turn.d.0, turn.d.1, turn.f.0, turn.f.1, turn.wheelbase)
}

fn turn_all(unit_turn: UnitTurn, turns: &[Turn]) {
    for turn in turns {
        let _ = black_box(turn_one(unit_turn, black_box(turn)));
    }
}

/// 10,000 seeded turns that are made, not refused, and that both answer alike.
fn made_turns() -> Vec<Turn> {
    let mut chance = jobs::Chance::new(2);
    let any = std::iter::repeat_with(|| some_turn(&mut chance));
    let turns: Vec<Turn> = any.filter(|turn| turn_one(reference::unit_turn, turn).is_ok()).take(10_000).collect();
    for turn in &turns {
        assert_eq!(turn_one(product::unit_turn, turn), turn_one(reference::unit_turn, turn), "{turn:?}");
    }
    turns
}

fn compare_turns(rounds: usize) {
    let turns = made_turns();
    let (ours, theirs) =
        medians(rounds, || turn_all(product::unit_turn, &turns), || turn_all(reference::unit_turn, &turns));
    let each = |time: Duration| time.as_secs_f64() * 1e9 / turns.len() as f64;
    println!("the turn of a single unit, over {} of them: medians of {rounds} rounds", turns.len());
    println!("ours       {:9.1} ns", each(ours));
    println!("reference  {:9.1} ns", each(theirs));
}

type Tell = fn(&[u8], usize, &[i32], &[i32]) -> Report;

fn tell(report: Tell, yard: &Yard) -> Report {
    let Yard { job, vertices, xs, ys } = black_box(yard);
    black_box(report(job, *vertices, xs, ys))
}

/// Both find the kerb clear, which is within two metres of the rig in every step and everywhere from end to end.
fn check_report(yard: &Yard) {
    assert_eq!(tell(touch::report, yard), Report::Clear, "the kerb is never touched");
    assert_eq!(tell(product::kerbs::report, yard), Report::Clear, "both must report the same");
    let (by_step, by_vertex) = distances(yard);
    assert_eq!((by_step.len(), by_vertex.len()), (2_000, 500));
    let greatest = |distances: &[f64]| distances.iter().copied().fold(0.0, f64::max);
    let least = by_step.iter().copied().fold(f64::INFINITY, f64::min);
    let (step, vertex) = (greatest(&by_step), greatest(&by_vertex));
    assert!(step <= 20_000.0 && vertex <= 20_000.0, "{step} and {vertex} ticks");
    println!(
        "20 points, 2,000 steps beside a kerb of 500 vertices, none touched; the nearest comes to {:.2} m",
        least / 1e4
    );
    println!(
        "after every step a vertex is within {:.2} m of a point, and every vertex at some step within {:.2} m",
        step / 1e4,
        vertex / 1e4
    );
}

fn compare_reports(rounds: usize) {
    let yard = heaviest_yard();
    check_report(&yard);
    let once = |report: Tell| {
        tell(report, &yard);
    };
    let (ours, theirs) = medians(rounds, || once(product::kerbs::report), || once(touch::report));
    println!("the report from bytes to answer: medians of {rounds} rounds");
    println!("ours       {:9.3} ms", ours.as_secs_f64() * 1e3);
    println!("reference  {:9.3} ms", theirs.as_secs_f64() * 1e3);
    println!("ratio ours / reference {:.3}", ours.as_secs_f64() / theirs.as_secs_f64());
}

fn main() {
    let job = jobs::heaviest();
    let answer = reference::sweep(&job);
    assert!(matches!(answer, Swept::Finished { steps: 2_000, .. }), "the heaviest job is walked to its end");
    assert_eq!(product::sweep(&job), answer, "both must answer the same before they are timed");
    let rounds = repeats();
    let (ours, theirs) = medians(rounds, || sweep_once(product::sweep, &job), || sweep_once(reference::sweep, &job));
    println!("four units, 2,000 steps with bends, from bytes to answer: medians of {rounds} rounds");
    println!("making and clearing the buffers is inside both");
    println!("ours       {:9.3} ms", ours.as_secs_f64() * 1e3);
    println!("reference  {:9.3} ms", theirs.as_secs_f64() * 1e3);
    println!("ratio ours / reference {:.3}", ours.as_secs_f64() / theirs.as_secs_f64());
    compare_turns(rounds);
    let rounds = (rounds / 5).max(1);
    compare_reports(rounds);
    check_settings(&job);
    let (listed, swept) = medians(rounds, || list_32_settings(&job), || sweep_32_times(&job));
    println!("the same job at 32 last wheelbases, 64,500 to 95,500, beside 32 sweeps: medians of {rounds} rounds");
    println!("32 settings{:9.3} ms", listed.as_secs_f64() * 1e3);
    println!("32 sweeps  {:9.3} ms", swept.as_secs_f64() * 1e3);
    println!("ratio 32 settings / 32 sweeps {:.3}", listed.as_secs_f64() / swept.as_secs_f64());
}
