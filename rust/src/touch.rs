//! Whether a rig touches a kerb, in plain Rust, as the request tells it: every step, every point, every segment.

use crate::kerbs::MOST_VERTICES;
use crate::plane::Vector;
use crate::record::read_job;
use crate::reference::{lay, led};
pub use crate::Report;

/// How far a kerb's ticks may lie from the middle, in x as in y.
pub const FARTHEST: i32 = 150_000_000;

/// Two ends, which may be the same place.
#[derive(Clone, Copy)]
struct Segment {
    from: Vector,
    to: Vector,
}

impl Segment {
    /// The cross product that tells on which side of the segment a place lies; 0 in line with it, or if it has no
    /// length. Places are below 2^29 apart in x and in y, so that 64 bits hold it.
    fn side(self, place: Vector) -> i64 {
        let (along, aside) = (self.to - self.from, place - self.from);
        along.x * aside.y - along.y * aside.x
    }

    /// Whether a place in line with the segment is one of its own: seen from there its ends lie not both on one side.
    fn spans(self, place: Vector) -> bool {
        (self.from - place).dot(self.to - place) <= 0
    }

    fn holds(self, side: i64, place: Vector) -> bool {
        side == 0 && self.spans(place)
    }

    /// Whether they have a place in common, ends counting.
    fn touches(self, other: Segment) -> bool {
        let (from, to) = (self.side(other.from), self.side(other.to));
        let (other_from, other_to) = (other.side(self.from), other.side(self.to));
        from.signum() * to.signum() < 0 && other_from.signum() * other_to.signum() < 0
            || self.holds(from, other.from)
            || self.holds(to, other.to)
            || other.holds(other_from, self.from)
            || other.holds(other_to, self.to)
    }
}

fn place((x, y): (i64, i64)) -> Vector {
    Vector { x, y }
}

/// Whether two closed segments, each given by its ends, touch or cross.
pub fn touch(one: [(i64, i64); 2], other: [(i64, i64); 2]) -> bool {
    let segment = |[from, to]: [(i64, i64); 2]| Segment { from: place(from), to: place(to) };
    segment(one).touches(segment(other))
}

/// The kerb's segments, one of no length where it has a single vertex, or 21 or 26.
fn segments(vertices: usize, xs: &[i32], ys: &[i32]) -> Result<Vec<Segment>, u32> {
    if !(1..=MOST_VERTICES).contains(&vertices) || xs.len() < vertices || ys.len() < vertices {
        return Err(21);
    }
    let (xs, ys) = (&xs[..vertices], &ys[..vertices]);
    if xs.iter().chain(ys).any(|tick| !(-FARTHEST..=FARTHEST).contains(tick)) {
        return Err(26);
    }
    let places: Vec<Vector> = xs.iter().zip(ys).map(|(x, y)| place((i64::from(*x), i64::from(*y)))).collect();
    if let [only] = places[..] {
        return Ok(vec![Segment { from: only, to: only }]);
    }
    Ok(places.windows(2).map(|ends| Segment { from: ends[0], to: ends[1] }).collect())
}

/// The lowest point whose move touches a segment of the kerb.
fn lowest_touching(kerb: &[Segment], old: &[Vector], new: &[Vector]) -> Option<u32> {
    let moved = |p: usize| Segment { from: old[p], to: new[p] };
    (0..old.len()).find(|p| kerb.iter().any(|segment| segment.touches(moved(*p)))).map(|p| p as u32)
}

/// The report of a job's rig beside a kerb, from the job's bytes and the kerb's ticks.
pub fn report(job: &[u8], vertices: usize, xs: &[i32], ys: &[i32]) -> Report {
    let job = match read_job(job) {
        Ok(job) => job,
        Err(refusal) => return Report::Refused { number: refusal.number, at: refusal.at },
    };
    let kerb = match segments(vertices, xs, ys) {
        Ok(kerb) => kerb,
        Err(number) => return Report::Unreported { number },
    };
    let first = led(&job.vehicle, &lay(&job), |step, old, new| {
        lowest_touching(&kerb, old, new).map(|point| Report::Touched { step, point })
    });
    match first {
        Ok(Some(touched)) => touched,
        Ok(None) => Report::Clear,
        Err((number, unit, step)) => Report::Stopped { number, unit, step },
    }
}

/// Where the rig's points stand at the placement and after each step, as far as its walk goes; nothing where the job
/// is refused or no step is made.
pub fn tracks(job: &[u8]) -> Vec<Vec<(i64, i64)>> {
    let Ok(job) = read_job(job) else {
        return Vec::new();
    };
    let places = |points: &[Vector]| points.iter().map(|point| (point.x, point.y)).collect();
    let mut all: Vec<Vec<(i64, i64)>> = Vec::new();
    let _ = led(&job.vehicle, &lay(&job), |_, old, new| -> Option<()> {
        if all.is_empty() {
            all.push(places(old));
        }
        all.push(places(new));
        None
    });
    all
}
