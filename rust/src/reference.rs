//! The method in plain Rust, as the paper tells it: path, units, points, stations and the widest place.

use crate::plane::{nearest, Vector};
use crate::record::{has_length, radius_allowed, read_job, square_of, wheelbase_allowed};
use crate::record::{Body, Job, Unit, Vehicle, NOMINAL};
use crate::runs::Runs;
pub use crate::Swept;

#[derive(Clone, Copy)]
pub(crate) struct Station {
    position: Vector,
    heading: Vector,
}

/// The new heading and the move of a step of length s on radius r.
fn path_step(g: Vector, s: i64, r: i64) -> (Vector, Vector) {
    let turned = if r == 0 {
        g
    } else {
        let normal = g.right_normal() * r.signum();
        let wanted = g * (4 * r * r - s * s) + normal * (4 * r.abs() * s);
        wanted.nearest(4 * r * r + s * s).settle(NOMINAL)
    };
    (turned, ((g + turned) * s).nearest(2 * NOMINAL))
}

pub(crate) fn lay(job: &Job) -> Vec<Station> {
    let position = Vector { x: job.start.0, y: job.start.1 };
    let heading = Vector { x: job.heading.0, y: job.heading.1 };
    let mut last = Station { position, heading };
    let mut path = vec![last];
    for element in &job.elements {
        let mut left = element.length;
        while left > 0 {
            let s = left.min(job.step);
            let (heading, moved) = path_step(last.heading, s, element.radius);
            last = Station { position: last.position + moved, heading };
            path.push(last);
            left -= s;
        }
    }
    path
}

/// The mirror image of d in the line along 2d + f, settled.
fn turned(d: Vector, f: Vector, wheelbase: i64) -> Vector {
    let m = d * 2 + f;
    let square = m.dot(m);
    (m * (2 * m.dot(d)) - d * square).nearest(square).settle(wheelbase)
}

/// The hitch of a unit whose front point stands at `front`.
fn hitch(unit: Unit, front: Vector, d: Vector) -> Vector {
    front - d + (d * unit.hitch).nearest(unit.wheelbase)
}

/// The vectors after the first front point's move, or the refusal's number and unit.
fn turn_units(vehicle: &Vehicle, d: &[Vector], from: Vector, to: Vector) -> Result<Vec<Vector>, (u32, u32)> {
    let (mut from, mut to) = (from, to);
    let mut new: Vec<Vector> = Vec::with_capacity(d.len());
    for (u, unit) in vehicle.units.iter().enumerate() {
        let f = to - from;
        if f.dot(f) > unit.wheelbase * unit.wheelbase {
            return Err((22, u as u32 + 1));
        }
        new.push(turned(d[u], f, unit.wheelbase));
        if u > 0 {
            let limit = unit.fold * vehicle.units[u - 1].wheelbase * unit.wheelbase;
            if 1_000 * new[u - 1].dot(new[u]) < limit {
                return Err((23, u as u32 + 1));
            }
        }
        from = hitch(*unit, from, d[u]);
        to = hitch(*unit, to, new[u]);
    }
    Ok(new)
}

/// The body whose corners count: a short job's units have overhangs 0 and the rear half width.
fn body_of(vehicle: &Vehicle, u: usize) -> Body {
    if vehicle.long {
        vehicle.units[u].body
    } else {
        Body { front_overhang: 0, rear_overhang: 0, half_width: vehicle.rear_half_width }
    }
}

/// Overhang and half width of points 0 and 1: the first body's, or the old ones of a short job.
fn first_front(vehicle: &Vehicle) -> (i64, i64) {
    if vehicle.long {
        let body = vehicle.units[0].body;
        (body.front_overhang, body.half_width)
    } else {
        (vehicle.overhang, vehicle.front_half_width)
    }
}

/// The front point of each unit, the first one's standing at `front`.
fn fronts(vehicle: &Vehicle, d: &[Vector], front: Vector) -> Vec<Vector> {
    let mut fronts = vec![front];
    for u in 1..vehicle.units.len() {
        fronts.push(hitch(vehicle.units[u - 1], fronts[u - 1], d[u - 1]));
    }
    fronts
}

/// The rig's points by number, a left and a right one at a time.
fn points(vehicle: &Vehicle, d: &[Vector], front: Vector) -> Vec<Vector> {
    let fronts = fronts(vehicle, d, front);
    let pair = |base: Vector, u: usize, along: i64, side: i64| {
        [-side, side].map(|side| base + (d[u] * along + d[u].right_normal() * side).nearest(vehicle.units[u].wheelbase))
    };
    let last = vehicle.units.len() - 1;
    let (ahead, wide) = first_front(vehicle);
    let mut all = Vec::with_capacity(4 * vehicle.units.len() + 4);
    all.extend(pair(front, 0, ahead, wide));
    all.extend(pair(front, 0, 0, vehicle.front_half_width));
    all.extend(pair(fronts[last] - d[last], last, 0, vehicle.rear_half_width));
    for (u, front) in fronts.iter().enumerate() {
        let body = body_of(vehicle, u);
        if u > 0 {
            all.extend(pair(*front, u, body.front_overhang, body.half_width));
        }
        all.extend(pair(*front - d[u], u, -body.rear_overhang, body.half_width));
    }
    all
}

/// What a station has kept of the points that crossed it.
#[derive(Clone, Copy)]
pub(crate) struct Cell {
    left: i64,
    right: i64,
    mark: u32,
}

const CLEARED: Cell = Cell { left: 2_000_000_000, right: -2_000_000_000, mark: 0 };

impl Cell {
    fn enter(&mut self, reach: i64) {
        self.left = self.left.min(reach);
        self.right = self.right.max(reach);
    }
}

/// Enters the moves of all points at every station that they cross.
fn cross(path: &[Station], cells: &mut [Cell], old: &[Vector], new: &[Vector]) {
    for (station, cell) in path.iter().zip(cells) {
        for (p, (old, new)) in old.iter().zip(new).enumerate() {
            let before = *old - station.position;
            let after = *new - station.position;
            if before.dot(station.heading) < 0 && after.dot(station.heading) >= 0 {
                let normal = station.heading.right_normal();
                cell.enter(nearest(before.dot(normal), NOMINAL));
                cell.enter(nearest(after.dot(normal), NOMINAL));
                cell.mark |= 1 << p;
            }
        }
    }
}

/// The widest of the stations that all points of a rig of so many units have crossed.
fn widest(cells: &[Cell], units: usize) -> Option<(u32, i64, i64, i64)> {
    let all = (1 << (4 * units + 4)) - 1;
    let mut best: Option<(u32, i64, i64, i64)> = None;
    for (k, cell) in cells.iter().enumerate() {
        let width = cell.right - cell.left;
        let wider = best.is_none_or(|(_, most, _, _)| width > most);
        if cell.mark & all == all && wider {
            best = Some((k as u32, width, cell.left, cell.right));
        }
    }
    best
}

/// A step that is turned down: the number, the unit and the step, both counted from 1.
pub(crate) type Stop = (u32, u32, u32);

/// Leads a rig from its placement along the path and shows each step made: its number, where the points stood and
/// where they stand. Ends early with what `shown` answers, as soon as it answers something.
pub(crate) fn led<T>(
    vehicle: &Vehicle,
    path: &[Station],
    mut shown: impl FnMut(u32, &[Vector], &[Vector]) -> Option<T>,
) -> Result<Option<T>, Stop> {
    let mut d: Vec<Vector> =
        vehicle.units.iter().map(|unit| (path[0].heading * unit.wheelbase).nearest(NOMINAL)).collect();
    let mut old = points(vehicle, &d, path[0].position);
    for k in 1..path.len() {
        let (from, to) = (path[k - 1].position, path[k].position);
        d = turn_units(vehicle, &d, from, to).map_err(|(number, unit)| (number, unit, k as u32))?;
        let new = points(vehicle, &d, to);
        let told = shown(k as u32, &old, &new);
        if told.is_some() {
            return Ok(told);
        }
        old = new;
    }
    Ok(None)
}

/// What the walk of a job over its path comes to, and what the stations have kept by then.
pub(crate) fn walked(job: &Job, path: &[Station]) -> (Swept, Vec<Cell>) {
    let mut cells = vec![CLEARED; path.len()];
    let enter = |_, old: &[Vector], new: &[Vector]| -> Option<()> {
        cross(path, &mut cells, old, new);
        None
    };
    if let Err((number, unit, step)) = led(&job.vehicle, path, enter) {
        return (Swept::Stopped { number, unit, step }, cells);
    }
    let front = path[path.len() - 1].position;
    let widest = widest(&cells, job.vehicle.units.len());
    (Swept::Finished { steps: path.len() as u32 - 1, widest, front: (front.x, front.y) }, cells)
}

/// One job from its bytes to its answer.
pub fn sweep(bytes: &[u8]) -> Swept {
    match read_job(bytes) {
        Ok(job) => walked(&job, &lay(&job)).0,
        Err(refusal) => Swept::Refused { number: refusal.number, at: refusal.at },
    }
}

/// How many stations the path of a job has; none where the job is refused.
pub fn stations(bytes: &[u8]) -> usize {
    read_job(bytes).map_or(0, |job| lay(&job).len())
}

/// The same as `sweep` on lent runs: 21 where one has fewer entries than the path has stations. A refusal writes nothing.
pub fn run(bytes: &[u8], runs: &mut Runs) -> Swept {
    let job = match read_job(bytes) {
        Ok(job) => job,
        Err(refusal) => return Swept::Refused { number: refusal.number, at: refusal.at },
    };
    let path = lay(&job);
    if runs.shortest() < path.len() {
        return Swept::Refused { number: 21, at: 0 };
    }
    let (swept, cells) = walked(&job, &path);
    leave(&path, &cells, runs);
    swept
}

/// Writes path and cells into the runs, whose entries past the last station stay.
pub(crate) fn leave(path: &[Station], cells: &[Cell], runs: &mut Runs) {
    for (k, (station, cell)) in path.iter().zip(cells).enumerate() {
        runs.xs[k] = station.position.x as i32;
        runs.ys[k] = station.position.y as i32;
        runs.gxs[k] = station.heading.x as i32;
        runs.gys[k] = station.heading.y as i32;
        runs.left[k] = cell.left as i32;
        runs.right[k] = cell.right as i32;
        runs.marks[k] = cell.mark;
    }
}

/// The path turn called by itself: heading x, y and move x, y, or 6, 7 or 8.
pub fn path_turn(gx: i64, gy: i64, s: u32, r: i32) -> Result<[i64; 4], u32> {
    if !has_length(gx, gy, NOMINAL) {
        return Err(6);
    }
    if !(1..=20_000).contains(&s) {
        return Err(7);
    }
    if !radius_allowed(i64::from(r)) {
        return Err(8);
    }
    let (heading, moved) = path_step(Vector { x: gx, y: gy }, i64::from(s), i64::from(r));
    Ok([heading.x, heading.y, moved.x, moved.y])
}

/// The single unit's turn called by itself: the new vector, or 27 or 22.
pub fn unit_turn(dx: i64, dy: i64, fx: i64, fy: i64, wheelbase: u32) -> Result<[i64; 2], u32> {
    let length = i64::from(wheelbase);
    if !wheelbase_allowed(length) || !has_length(dx, dy, length) {
        return Err(27);
    }
    if square_of(fx, fy) > square_of(length, 0) {
        return Err(22);
    }
    let new = turned(Vector { x: dx, y: dy }, Vector { x: fx, y: fy }, length);
    Ok([new.x, new.y])
}
