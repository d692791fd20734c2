//! The job record, read from bytes for the reference.

pub const NOMINAL: i64 = 1_000_000;
pub const MOST_STEPS: u64 = 2_000;

/// How far a unit's corners stand ahead of its front point, behind its rear axle and to either side.
#[derive(Clone, Copy, Debug)]
pub struct Body {
    pub front_overhang: i64,
    pub rear_overhang: i64,
    pub half_width: i64,
}

/// What a unit of a short job holds, where no body is read.
const NO_BODY: Body = Body { front_overhang: 0, rear_overhang: 0, half_width: 0 };

#[derive(Clone, Copy, Debug)]
pub struct Unit {
    pub wheelbase: i64,
    pub hitch: i64,
    pub fold: i64,
    pub body: Body,
}

/// Only a long job's units have bodies of their own.
#[derive(Clone, Debug)]
pub struct Vehicle {
    pub long: bool,
    pub units: Vec<Unit>,
    pub overhang: i64,
    pub front_half_width: i64,
    pub rear_half_width: i64,
}

/// A radius of 0 is a straight, a positive one turns right.
#[derive(Clone, Copy, Debug)]
pub struct Element {
    pub length: i64,
    pub radius: i64,
}

#[derive(Clone, Debug)]
pub struct Job {
    pub vehicle: Vehicle,
    pub start: (i64, i64),
    pub heading: (i64, i64),
    pub step: i64,
    pub elements: Vec<Element>,
}

#[derive(Clone, Copy, Debug, PartialEq, Eq)]
pub struct Refusal {
    pub number: u32,
    pub at: usize,
}

/// x² + y² of any pair: unsigned, since twice (−2⁶³)² is 2¹²⁷.
pub fn square_of(x: i64, y: i64) -> u128 {
    u128::from(x.unsigned_abs()).pow(2) + u128::from(y.unsigned_abs()).pow(2)
}

/// Whether x² + y² differs from k² by at most 2k; any x and y may be asked about.
pub fn has_length(x: i64, y: i64, k: i64) -> bool {
    square_of(x, y).abs_diff(square_of(k, 0)) <= 2 * u128::from(k.unsigned_abs())
}

pub fn wheelbase_allowed(wheelbase: i64) -> bool {
    (5_000..=200_000).contains(&wheelbase)
}

pub fn radius_allowed(radius: i64) -> bool {
    radius == 0 || (20_000..=1_000_000).contains(&radius.abs())
}

fn overhang_allowed(overhang: i64) -> bool {
    overhang <= 50_000
}

fn half_width_allowed(width: i64) -> bool {
    (1_000..=20_000).contains(&width)
}

/// Takes the fields one after another.
struct Fields<'a> {
    bytes: &'a [u8],
    at: usize,
}

impl Fields<'_> {
    /// A number in seven-bit groups: 1 where the bytes end before it does, 2 where it is not in order.
    fn number(&mut self) -> Result<i64, Refusal> {
        let start = self.at;
        let mut value: u64 = 0;
        for group in 0..5 {
            let Some(&byte) = self.bytes.get(start + group) else {
                return Err(Refusal { number: 1, at: start });
            };
            value |= u64::from(byte & 0x7f) << (7 * group);
            if byte & 0x80 == 0 {
                let overlong = byte == 0 && group > 0;
                if overlong || value > u64::from(u32::MAX) {
                    break;
                }
                self.at = start + group + 1;
                return Ok(value as i64);
            }
        }
        Err(Refusal { number: 2, at: start })
    }

    fn unsigned(&mut self, fault: u32, allowed: impl Fn(i64) -> bool) -> Result<i64, Refusal> {
        let at = self.at;
        let value = self.number()?;
        if allowed(value) {
            Ok(value)
        } else {
            Err(Refusal { number: fault, at })
        }
    }

    fn signed(&mut self, fault: u32, allowed: impl Fn(i64) -> bool) -> Result<i64, Refusal> {
        let unfolded = |value: i64| if value & 1 == 0 { value >> 1 } else { -(value >> 1) - 1 };
        Ok(unfolded(self.unsigned(fault, |value| allowed(unfolded(value)))?))
    }
}

fn read_body(fields: &mut Fields) -> Result<Body, Refusal> {
    let front_overhang = fields.unsigned(5, overhang_allowed)?;
    let rear_overhang = fields.unsigned(5, overhang_allowed)?;
    let half_width = fields.unsigned(5, half_width_allowed)?;
    Ok(Body { front_overhang, rear_overhang, half_width })
}

/// A first number of 11 to 14 stands for 1 to 4 units with a body each, and leaves no other front overhang.
fn read_vehicle(fields: &mut Fields) -> Result<Vehicle, Refusal> {
    let first = fields.unsigned(3, |n| (1..=4).contains(&n) || (11..=14).contains(&n))?;
    let long = first > 10;
    let count = if long { first - 10 } else { first };
    let mut units = Vec::new();
    for u in 1..=count {
        let wheelbase = fields.unsigned(4, wheelbase_allowed)?;
        let longest_hitch = if u == count { 0 } else { wheelbase };
        let hitch = fields.signed(4, |h| h.abs() <= longest_hitch)?;
        let fold = fields.signed(4, |f| if u == 1 { f == 0 } else { (-1_000..=990).contains(&f) })?;
        let body = if long { read_body(fields)? } else { NO_BODY };
        units.push(Unit { wheelbase, hitch, fold, body });
    }
    let overhang = fields.unsigned(5, |o| if long { o == 0 } else { overhang_allowed(o) })?;
    let front_half_width = fields.unsigned(5, half_width_allowed)?;
    let rear_half_width = fields.unsigned(5, half_width_allowed)?;
    Ok(Vehicle { long, units, overhang, front_half_width, rear_half_width })
}

fn read_elements(fields: &mut Fields, step: i64) -> Result<Vec<Element>, Refusal> {
    let count_at = fields.at;
    let count = fields.unsigned(8, |n| (1..=64).contains(&n))?;
    let mut elements = Vec::new();
    let mut steps = 0;
    for _ in 0..count {
        let length = fields.unsigned(8, |l| (1..=40_000_000).contains(&l))?;
        let radius = fields.signed(8, radius_allowed)?;
        steps += (length as u64).div_ceil(step as u64);
        elements.push(Element { length, radius });
    }
    if steps > MOST_STEPS {
        return Err(Refusal { number: 9, at: count_at });
    }
    Ok(elements)
}

pub fn read_job(bytes: &[u8]) -> Result<Job, Refusal> {
    let mut fields = Fields { bytes, at: 0 };
    let vehicle = read_vehicle(&mut fields)?;
    let x = fields.signed(6, |x| x.abs() <= 100_000_000)?;
    let y = fields.signed(6, |y| y.abs() <= 100_000_000)?;
    let heading_at = fields.at;
    let gx = fields.signed(6, |_| true)?;
    let gy = fields.signed(6, |_| true)?;
    if !has_length(gx, gy, NOMINAL) {
        return Err(Refusal { number: 6, at: heading_at });
    }
    let step = fields.unsigned(7, |s| (100..=20_000).contains(&s))?;
    let elements = read_elements(&mut fields, step)?;
    if fields.at < bytes.len() {
        return Err(Refusal { number: 10, at: fields.at });
    }
    Ok(Job { vehicle, start: (x, y), heading: (gx, gy), step, elements })
}
