//! Seeded yards for comparisons: jobs of all kinds, each beside a kerb laid near the tracks of its rig's points.

use crate::jobs::{encode, heading, some_job, sound_job, Chance, HEAVY_UNITS};
use crate::kerbs::MOST_VERTICES;
use crate::lists::{ends_stop, straight_job};
use crate::reference::run;
use crate::runs::Runs;
use crate::touch::{tracks, FARTHEST};

type Place = (i64, i64);

/// What one report is asked for with.
#[derive(Clone, Debug)]
pub struct Yard {
    pub job: Vec<u8>,
    pub vertices: usize,
    pub xs: Vec<i32>,
    pub ys: Vec<i32>,
}

fn plus(place: Place, by: Place) -> Place {
    (place.0 + by.0, place.1 + by.1)
}

fn some_offset(chance: &mut Chance, most: i64) -> Place {
    (chance.between(-most, most), chance.between(-most, most))
}

/// A step or two of one tick each on a slanted heading, where nearest vectors can leave a point in its place.
fn creeping_job(chance: &mut Chance) -> Vec<u8> {
    let (gx, gy) = heading(chance);
    let folded = |n: i64| if n < 0 { -2 * n - 1 } else { 2 * n } as u64;
    let count = chance.between(1, 2) as u64;
    let mut fields = vec![1, chance.between(5_000, 200_000) as u64, 0, 0, 10_000, 12_000, 9_000];
    fields.extend([0, 0, folded(gx), folded(gy), 100, count]);
    fields.extend((0..count).flat_map(|_| [1, 0]));
    fields.into_iter().flat_map(encode).collect()
}

/// A point that stays in its place in the first step.
fn stays(tracks: &[Vec<Place>]) -> Option<usize> {
    (0..tracks.first()?.len()).find(|p| tracks[0][*p] == tracks[1][*p])
}

/// One whose first step leaves a point in its place; the last one tried where none of many does.
fn staying_job(chance: &mut Chance) -> Vec<u8> {
    let mut job = creeping_job(chance);
    for _ in 0..400 {
        if stays(&tracks(&job)).is_some() {
            break;
        }
        job = creeping_job(chance);
    }
    job
}

/// A whole place amid a move, or its end where there is none.
fn amid(chance: &mut Chance, old: Place, new: Place) -> Place {
    let (dx, dy) = (new.0 - old.0, new.1 - old.1);
    let (mut parts, mut rest) = (dx.abs(), dy.abs());
    while rest > 0 {
        (parts, rest) = (rest, parts % rest);
    }
    if parts < 2 {
        return new;
    }
    let part = chance.between(1, parts - 1);
    plus(old, (dx / parts * part, dy / parts * part))
}

/// A kerb at the move of one point: at its ends, amid it, in line with it, across it, or a few ticks beside it.
fn kerb_at_move(chance: &mut Chance, old: Place, new: Place) -> Vec<Place> {
    let moved = (new.0 - old.0, new.1 - old.1);
    let along = |t: i64| (old.0 + moved.0 * t, old.1 + moved.1 * t);
    let size = chance.pick(&[3, 300, 3_000, 100_000]);
    let (away, aside) = (some_offset(chance, size), some_offset(chance, 1));
    let across = |place: Place| vec![plus(place, away), (place.0 - away.0, place.1 - away.1)];
    match chance.below(13) {
        0 => vec![new],
        1 => vec![plus(new, aside)],
        2 => vec![amid(chance, old, new)],
        3 => vec![new, plus(new, away)],
        4 => vec![plus(new, aside), plus(plus(new, aside), away)],
        5 => {
            let place = amid(chance, old, new);
            vec![place, plus(place, away)]
        }
        6 => vec![amid(chance, old, new), amid(chance, old, new)],
        7 => vec![along(chance.between(-3, 3)), along(chance.between(-3, 3))],
        8 => across(((old.0 + new.0) / 2, (old.1 + new.1) / 2)),
        9 => across(new),
        10 => vec![plus(new, away), plus(new, aside), plus(new, aside), plus(new, some_offset(chance, size))],
        // Where the next step may lead.
        11 => vec![plus(along(2), aside)],
        // Far off, though it may be led on to the rig.
        _ => vec![plus(new, (chance.pick(&[-1, 1]) * chance.between(200_000, 900_000), 100 * away.1))],
    }
}

/// A kerb along the track of one point, at some offset from it, with a vertex every so many stations.
fn kerb_along(chance: &mut Chance, tracks: &[Vec<Place>], p: usize) -> Vec<Place> {
    let most = chance.pick(&[0, 1, 3_000, 60_000]);
    let offset = some_offset(chance, most);
    let every = 1 + tracks.len() / MOST_VERTICES + chance.below(3) as usize;
    tracks.iter().step_by(every).map(|places| plus(places[p], offset)).collect()
}

/// The kerb led on from its last vertex; every so often to as many vertices as there may be.
fn led_on(chance: &mut Chance, mut kerb: Vec<Place>) -> Vec<Place> {
    let more = if chance.one_in(12) { MOST_VERTICES } else { chance.pick(&[0, 0, 0, 1, 5, 30]) };
    let (step, bend) = (some_offset(chance, 6_000), chance.pick(&[1, 20, 2_000]));
    let count = MOST_VERTICES.min(kerb.len() + more);
    while kerb.len() < count {
        let last = kerb[kerb.len() - 1];
        kerb.push(plus(plus(last, step), some_offset(chance, bend)));
    }
    kerb
}

/// A step made and a point, the last ones of both now and then; one that stays put where there is such a one.
fn some_move(chance: &mut Chance, tracks: &[Vec<Place>]) -> (usize, usize) {
    let (last, points) = (tracks.len() as i64 - 1, tracks[0].len() as i64);
    let first_step = chance.pick(&[1, 1, 1, last]);
    let first_point = chance.pick(&[0, 0, points - 2]);
    let k = chance.between(first_step, last) as usize;
    let p = chance.between(first_point, points - 1) as usize;
    stays(tracks).map_or((k, p), |p| (1, p))
}

fn some_kerb(chance: &mut Chance, tracks: &[Vec<Place>]) -> Vec<Place> {
    if tracks.is_empty() {
        let count = chance.between(1, 6);
        return (0..count).map(|_| some_offset(chance, 300_000)).collect();
    }
    let (k, p) = some_move(chance, tracks);
    if chance.one_in(6) {
        return kerb_along(chance, tracks, p);
    }
    let kerb = kerb_at_move(chance, tracks[k - 1][p], tracks[k][p]);
    led_on(chance, kerb)
}

/// The number of vertices, an entry or the length of a run is made wrong, or an entry the farthest allowed.
fn harm(chance: &mut Chance, yard: &mut Yard) {
    let far = chance.pick(&[FARTHEST, -FARTHEST, FARTHEST + 1, -FARTHEST - 1, i32::MAX, i32::MIN]);
    let which = chance.below(yard.vertices as u64) as usize;
    let shorter = chance.pick(&[yard.vertices - 1, yard.vertices / 2, 0]);
    match chance.below(10) {
        0 => yard.vertices = 0,
        1 => {
            yard.vertices = chance.pick(&[501, 502, 1 << 31, (1 << 32) + 1, usize::MAX]);
            yard.xs.resize(502, 0);
            yard.ys.resize(502, 0);
        }
        2 => yard.xs.truncate(shorter),
        3 => yard.ys.truncate(shorter),
        4..=6 => yard.xs[which] = far,
        _ => yard.ys[which] = far,
    }
}

fn yard_of(chance: &mut Chance, job: Vec<u8>) -> Yard {
    let kerb = some_kerb(chance, &tracks(&job));
    let mut yard = Yard { job, vertices: kerb.len(), xs: Vec::new(), ys: Vec::new() };
    yard.xs = kerb.iter().map(|place| place.0 as i32).collect();
    yard.ys = kerb.iter().map(|place| place.1 as i32).collect();
    // What stands after the vertices is nobody's.
    let (more_xs, more_ys) = (chance.below(3), chance.below(3));
    yard.xs.extend((0..more_xs).map(|_| chance.word() as i32));
    yard.ys.extend((0..more_ys).map(|_| chance.word() as i32));
    yard
}

/// One report's job and kerb.
pub fn some_yard(chance: &mut Chance) -> Yard {
    let job = match chance.below(20) {
        0..=4 => some_job(chance),
        5 => staying_job(chance),
        6 | 7 => straight_job(chance),
        8 | 9 => ends_stop(chance),
        10 if chance.one_in(2) => sound_job(chance, 2_001),
        _ => {
            let steps = chance.between(1, 60);
            sound_job(chance, steps)
        }
    };
    let mut yard = yard_of(chance, job);
    let harms = chance.pick(&[0, 0, 0, 0, 0, 0, 1, 1, 2]);
    for _ in 0..harms {
        if yard.vertices > 0 && yard.xs.len().min(yard.ys.len()) >= yard.vertices {
            harm(chance, &mut yard);
        }
    }
    yard
}

/// Four units with the greatest bodies, 2,000 steps on straights and gentle bends to both sides.
fn gentle_job() -> Vec<u8> {
    let mut fields = vec![14];
    for unit in HEAVY_UNITS {
        fields.extend(unit);
        fields.extend([50_000, 50_000, 20_000]);
    }
    fields.extend([0, 12_000, 12_500, 0, 0, 0, 2 * 1_000_000, 1_500, 8]);
    fields.extend([0, 2 * 400_000, 0, 2 * 400_000 - 1].repeat(2).into_iter().flat_map(|radius| [250 * 1_500, radius]));
    fields.into_iter().flat_map(encode).collect()
}

/// The heaviest report: 20 points, 2,000 steps and a kerb of 500 vertices from the first station to the last, a metre to
/// the right of all that the points reach, so that it is near the rig in every step and never touched.
pub fn heaviest_yard() -> Yard {
    let job = gentle_job();
    let mut runs = Runs::zeros(2_001);
    run(&job, &mut runs);
    let beside = |i: usize| {
        let k = i * 2_000 / (MOST_VERTICES - 1);
        let reach = i64::from(runs.right[k].max(20_000)) + 10_000;
        let aside = |part: i32| (i64::from(part) * reach / 1_000_000) as i32;
        (runs.xs[k] + aside(runs.gys[k]), runs.ys[k] - aside(runs.gxs[k]))
    };
    let (xs, ys) = (0..MOST_VERTICES).map(beside).unzip();
    Yard { job, vertices: MOST_VERTICES, xs, ys }
}

/// After each step the least distance in ticks between a point of the rig and a vertex of the kerb, and for each vertex
/// the least of all steps.
pub fn distances(yard: &Yard) -> (Vec<f64>, Vec<f64>) {
    let mut by_vertex = vec![f64::INFINITY; yard.vertices];
    let mut by_step = Vec::new();
    for places in &tracks(&yard.job)[1..] {
        let mut least = f64::INFINITY;
        for (i, at_vertex) in by_vertex.iter_mut().enumerate() {
            let distance = |place: &Place| {
                ((place.0 - i64::from(yard.xs[i])) as f64).hypot((place.1 - i64::from(yard.ys[i])) as f64)
            };
            let nearest = places.iter().map(distance).fold(f64::INFINITY, f64::min);
            least = least.min(nearest);
            *at_vertex = at_vertex.min(nearest);
        }
        by_step.push(least);
    }
    (by_step, by_vertex)
}
