//! Product against reference: seeded lists of settings, their answers and what they leave in lent runs.
//! `TURNING_LISTS` says how many lists (2,000 where it is not set), `TURNING_SEED` which (1).

use std::collections::BTreeMap;
use std::time::{Duration, Instant};
use turning::jobs::{heaviest, heaviest_long, Chance};
use turning::lists::{some_list, List};
use turning::runs::Runs;
use turning::settings::{best, fitting, walks};
use turning::{product, reference, Listing, Swept};

/// A value that no answer holds, to see what is written.
const UNWRITTEN: i64 = 0x5eed_0000_0000_0001;

type Walks = Result<Vec<(u32, Swept)>, Listing>;

fn setting(name: &str, usual: u64) -> u64 {
    std::env::var(name).map_or(usual, |text| text.parse().unwrap_or_else(|_| panic!("{name} is a number")))
}

/// The number that an outcome must be told by, and the seven entries, which a refusal leaves.
fn told(listing: &Listing) -> (u32, [i64; 7]) {
    match listing {
        Listing::Refused { number, at } => (number + 256 * *at as u32, [UNWRITTEN; 7]),
        Listing::Unlisted { number } => (*number, [UNWRITTEN; 7]),
        Listing::Listed(listed) => {
            let mut entries = [0; 7];
            entries[0] = listed.len() as i64;
            for (i, (wheelbase, width)) in listed.iter().enumerate() {
                entries[2 * i + 1] = i64::from(*wheelbase);
                entries[2 * i + 2] = *width;
            }
            (0, entries)
        }
    }
}

/// Number, answer run and all seven lent runs to the last entry, and the answer taken apart.
/// Answers the reference's walks and how long the product took.
fn check_list(list: &List, lent: &Runs, extra: usize) -> (Walks, Duration) {
    let List { job, lowest, pitch, number } = list;
    let (mut runs, mut kept, mut expected_runs) = (lent.clone(), lent.clone(), lent.clone());
    let made = walks(job, *lowest, *pitch, *number, &mut expected_runs);
    let expected = match &made {
        Ok(made) => best(made),
        Err(refusal) => refusal.clone(),
    };
    let mut answer = vec![UNWRITTEN; 7 + extra];
    let begun = Instant::now();
    let answered = product::settings_into(job, *lowest, *pitch, *number, &mut runs, &mut answer);
    let taken = begun.elapsed();
    let (expected_number, entries) = told(&expected);
    assert_eq!((answered, &answer[..7]), (expected_number, &entries[..]), "{list:?}");
    assert!(answer[7..].iter().all(|entry| *entry == UNWRITTEN), "{list:?}");
    assert_eq!(runs, expected_runs, "{list:?}");
    assert_eq!(product::settings(job, *lowest, *pitch, *number, &mut kept), expected, "{list:?}");
    assert_eq!(kept, expected_runs, "{list:?}");
    (made, taken)
}

/// Why 29 must be answered for these settings, if it must.
fn fault_of(list: &List) -> Option<&'static str> {
    let last = u64::from(list.lowest) + u64::from(list.pitch) * u64::from(list.number.max(1) - 1);
    match (list.pitch, list.number, list.lowest) {
        (0, _, _) => Some("pitch 0"),
        (_, 0, _) => Some("no setting"),
        (_, 33.., _) => Some("over 32 settings"),
        (_, _, 0..=4_999) => Some("lowest too short"),
        _ if last > u64::from(u32::MAX) => Some("last beyond 32 bits"),
        _ if last > 200_000 => Some("last too long"),
        _ => None,
    }
}

fn stopped(walk: &(u32, Swept)) -> bool {
    matches!(walk.1, Swept::Stopped { .. })
}

fn fits(walk: &(u32, Swept)) -> bool {
    matches!(walk.1, Swept::Finished { widest: Some(_), .. })
}

fn kind_of(list: &List, short: Option<usize>, made: &Walks) -> String {
    match (made, short) {
        (Ok(made), _) => match (fitting(made).len(), made.iter().filter(|walk| stopped(walk)).count()) {
            (0, 0) => "refused 30, none complete".to_string(),
            (0, stops) if stops == made.len() => "refused 30, all stopped".to_string(),
            (0, _) => "refused 30, some stopped".to_string(),
            (few @ 1..=3, _) => format!("listed {few}, no more fit"),
            _ => "listed 3, more fit".to_string(),
        },
        (Err(Listing::Unlisted { number: 21 }), Some(which)) => format!("refused 21, run {which}"),
        (Err(Listing::Unlisted { number: 29 }), None) => {
            format!("refused 29, {}", fault_of(list).expect("29 has a reason"))
        }
        (Err(Listing::Refused { number, .. }), _) => format!("refused {number:2}"),
        (Err(other), _) => panic!("{other:?} is no answer to {list:?}"),
    }
}

/// What a list of walks is a case of beside its kind, by name.
fn traits_of_walks(list: &List, made: &[(u32, Swept)]) -> Vec<(&'static str, bool)> {
    let fit = fitting(made);
    let listed = &fit[..fit.len().min(3)];
    let (first, last) = (made.iter().position(fits), made.iter().rposition(fits));
    let between = first.zip(last).is_some_and(|(first, last)| made[first..last].iter().any(stopped));
    let stops_by = |by: u32| made.iter().any(|walk| matches!(walk.1, Swept::Stopped { number, .. } if number == by));
    let some = !fit.is_empty();
    let long = matches!(list.job[0], 11..=14);
    vec![
        ("a short job listed", some && !long),
        ("a long job listed", some && long),
        ("none of a short job's to list", !some && !long),
        ("none of a long job's to list", !some && long),
        ("stopped between fitting ones", between),
        ("listed, the first stopped", some && stopped(&made[0])),
        ("listed, the last stopped", some && stopped(&made[made.len() - 1])),
        ("listed, one incomplete", some && made.iter().any(|walk| !fits(walk) && !stopped(walk))),
        ("listed, one stopped by 22", some && stops_by(22)),
        ("listed, one stopped by 23", some && stops_by(23)),
        ("equal widths listed", listed.windows(2).any(|pair| pair[0].0 == pair[1].0)),
        ("equal widths, one listed", fit.len() > 3 && fit[2].0 == fit[3].0),
        ("a longer wheelbase listed before a shorter", listed.windows(2).any(|pair| pair[0].1 > pair[1].1)),
        ("three listed, longest first", listed.len() == 3 && listed.windows(2).all(|pair| pair[0].1 > pair[1].1)),
        ("the last setting is best", fit.len() > 3 && fit[0].1 == made[made.len() - 1].0),
        ("lowest at 5,000", some && list.lowest == 5_000),
        ("last at 200,000", some && made[made.len() - 1].0 == 200_000),
        ("one setting, listed", some && list.number == 1),
        ("one setting, the greatest pitch", list.number == 1 && list.pitch == u32::MAX),
        ("32 settings, listed", some && list.number == 32),
    ]
}

/// Which refusal goes before which other, by name.
fn traits_of_refusals(list: &List, short: Option<usize>, refusal: &Listing) -> Vec<(&'static str, bool)> {
    let of_record = matches!(refusal, Listing::Refused { .. });
    vec![
        ("the record goes before 29", of_record && fault_of(list).is_some()),
        ("21 goes before 29", short.is_some() && fault_of(list).is_some()),
    ]
}

/// Runs for a job of so many stations: some with entries to spare, or one, which is named, too short.
fn lent_runs(chance: &mut Chance, stations: usize) -> (Runs, Option<usize>) {
    let mut lengths = [0; 7].map(|_: usize| stations + chance.below(4) as usize);
    if stations == 0 || !chance.one_in(8) {
        return (Runs::by_chance(chance, lengths), None);
    }
    let which = chance.below(7) as usize;
    lengths[which] = chance.pick(&[stations - 1, stations - 1, stations / 2, 0]);
    (Runs::by_chance(chance, lengths), Some(which))
}

#[test]
fn lists_are_answered_as_by_the_reference() {
    let count = setting("TURNING_LISTS", 2_000);
    let mut chance = Chance::new(setting("TURNING_SEED", 1) + 29);
    let mut kinds: BTreeMap<String, u64> = BTreeMap::new();
    let mut slowest = Duration::ZERO;
    for round in 0..count {
        let list = some_list(&mut chance);
        let (lent, short) = lent_runs(&mut chance, reference::stations(&list.job));
        let (made, taken) = check_list(&list, &lent, round as usize % 4);
        slowest = slowest.max(taken);
        *kinds.entry(kind_of(&list, short, &made)).or_default() += 1;
        let traits = match &made {
            Ok(made) => traits_of_walks(&list, made),
            Err(refusal) => traits_of_refusals(&list, short, refusal),
        };
        for (name, _) in traits.iter().filter(|(_, holds)| *holds) {
            *kinds.entry(name.to_string()).or_default() += 1;
        }
    }
    for (kind, times) in &kinds {
        println!("{kind:44} {times:6}");
    }
    println!("{count} lists, no difference, the slowest in {:.1} ms", slowest.as_secs_f64() * 1e3);
    // 10 refusals of the record, 21 at seven runs, 29 for six reasons, 30 in three ways and lists in four,
    // beside them 20 traits of walks and two of refusals.
    assert!(count < 2_000 || kinds.len() == 52, "some kind of outcome is missing: {kinds:?}");
}

#[test]
fn the_heaviest_lists_are_answered_as_by_the_reference() {
    for (form, job) in [("short", heaviest()), ("long", heaviest_long())] {
        let list = List { job, lowest: 64_500, pitch: 1_000, number: 32 };
        let lent = Runs::by_chance(&mut Chance::new(32), [2_003; 7]);
        let (made, taken) = check_list(&list, &lent, 1);
        assert_eq!(fitting(&made.expect("within the limits")).len(), 32, "all finish");
        println!("32 settings of the heaviest {form} job in {:.1} ms", taken.as_secs_f64() * 1e3);
    }
}

#[test]
fn short_answer_runs_are_refused() {
    let mut chance = Chance::new(7);
    for _ in 0..200 {
        let List { job, lowest, pitch, number } = some_list(&mut chance);
        for length in 0..7 {
            let mut answer = vec![UNWRITTEN; length];
            // Tested before the job, the other runs and the settings.
            for entries in [0, 2_001] {
                let lent = Runs::by_chance(&mut chance, [entries; 7]);
                let mut runs = lent.clone();
                assert_eq!(product::settings_into(&job, lowest, pitch, number, &mut runs, &mut answer), 21);
                assert_eq!((&answer, &runs), (&vec![UNWRITTEN; length], &lent));
            }
        }
    }
}
