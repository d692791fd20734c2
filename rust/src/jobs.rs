//! Seeded jobs for comparisons, short and long: sound ones, mostly of few steps, and ones harmed in all sorts of ways.

/// xorshift64*: a seed other than 0 gives the same choices for ever.
pub struct Chance(u64);

impl Chance {
    pub fn new(seed: u64) -> Chance {
        Chance(seed.wrapping_mul(0x9e37_79b9_7f4a_7c15) | 1)
    }

    pub fn word(&mut self) -> u64 {
        self.0 ^= self.0 >> 12;
        self.0 ^= self.0 << 25;
        self.0 ^= self.0 >> 27;
        self.0.wrapping_mul(0x2545_f491_4f6c_dd1d)
    }

    pub fn below(&mut self, n: u64) -> u64 {
        (self.word() >> 11) % n
    }

    /// A number from low to high, both included.
    pub fn between(&mut self, low: i64, high: i64) -> i64 {
        low + self.below((high - low) as u64 + 1) as i64
    }

    pub fn pick<T: Copy>(&mut self, values: &[T]) -> T {
        values[self.below(values.len() as u64) as usize]
    }

    pub fn one_in(&mut self, n: u64) -> bool {
        self.below(n) == 0
    }
}

/// A field with its value; `ends` are the values at both ends of its range and one beyond each.
#[derive(Clone)]
struct Field {
    value: i64,
    signed: bool,
    ends: Vec<i64>,
}

fn unsigned(value: i64, low: i64, high: i64) -> Field {
    let ends = [low - 1, low, high, high + 1].into_iter().filter(|end| *end >= 0).collect();
    Field { value, signed: false, ends }
}

fn signed(value: i64, ends: &[i64]) -> Field {
    Field { value, signed: true, ends: ends.to_vec() }
}

/// A number in seven-bit groups, lowest first.
pub fn encode(value: u64) -> Vec<u8> {
    let mut groups = Vec::new();
    let mut rest = value;
    while rest >= 0x80 {
        groups.push(rest as u8 | 0x80);
        rest >>= 7;
    }
    groups.push(rest as u8);
    groups
}

fn field_bytes(field: &Field) -> Vec<u8> {
    let value = field.value;
    match (field.signed, value < 0) {
        (true, true) => encode((-2 * value - 1) as u64),
        (true, false) => encode(2 * value as u64),
        _ => encode(value as u64),
    }
}

fn job_bytes(fields: &[Field]) -> Vec<u8> {
    fields.iter().flat_map(field_bytes).collect()
}

/// A heading as near to its length as whole numbers allow.
pub fn heading(chance: &mut Chance) -> (i64, i64) {
    let gx = chance.between(-1_000_000, 1_000_000);
    let gy = ((1_000_000_000_000 - gx * gx) as f64).sqrt().round() as i64;
    (gx, if chance.one_in(2) { gy } else { -gy })
}

/// Values that a first number may be harmed to, those of the other form among them.
const FIRST_ENDS: [i64; 10] = [0, 1, 4, 5, 10, 11, 12, 13, 14, 15];

/// The body of a long job's unit, now and then at the ends of its ranges.
fn body_fields(chance: &mut Chance, wild: bool) -> [Field; 3] {
    let most = if wild { 50_000 } else { 20_000 };
    let mut measure = |low: i64, most: i64, high: i64| {
        let value = chance.between(low, most);
        unsigned(if chance.one_in(6) { chance.pick(&[low, high]) } else { value }, low, high)
    };
    [measure(0, most, 50_000), measure(0, most, 50_000), measure(1_000, 20_000, 20_000)]
}

/// Measures that mostly go well, or, for a wild job, all over their ranges.
fn unit_fields(chance: &mut Chance, wild: bool, first: bool, last: bool) -> [Field; 3] {
    let longest = if wild { 200_000 } else { chance.pick(&[20_000, 40_000, 120_000]) };
    let wheelbase = chance.between(if wild { 5_000 } else { 9_000 }, longest);
    let reach = if wild { wheelbase } else { wheelbase / 5 };
    let hitch = if last { 0 } else { chance.between(-reach, reach) };
    let fold = if wild { chance.between(-1_000, 990) } else { chance.pick(&[-1_000, -500, 0, 300, 800]) };
    [
        unsigned(wheelbase, 5_000, 200_000),
        signed(hitch, &[wheelbase, -wheelbase, wheelbase + 1, -wheelbase - 1, 1, -1]),
        signed(if first { 0 } else { fold }, &[-1_001, -1_000, 990, 991, 1, -1]),
    ]
}

/// One job in two is long: it has bodies, and no front overhang beside them.
fn vehicle_fields(chance: &mut Chance, wild: bool) -> Vec<Field> {
    let count = chance.between(1, 4);
    let long = chance.one_in(2);
    let first_number = if long { 10 + count } else { count };
    let mut fields = vec![Field { value: first_number, signed: false, ends: FIRST_ENDS.to_vec() }];
    for u in 1..=count {
        fields.extend(unit_fields(chance, wild, u == 1, u == count));
        if long {
            fields.extend(body_fields(chance, wild));
        }
    }
    let overhang = chance.between(0, 30_000);
    fields.push(if long { unsigned(0, 0, 0) } else { unsigned(overhang, 0, 50_000) });
    fields.push(unsigned(chance.between(1_000, 20_000), 1_000, 20_000));
    fields.push(unsigned(chance.between(1_000, 20_000), 1_000, 20_000));
    fields
}

fn start_fields(chance: &mut Chance) -> Vec<Field> {
    let size = if chance.one_in(3) { 100_000_000 } else { 300_000 };
    let ends = [-100_000_001, -100_000_000, 100_000_000, 100_000_001];
    let (gx, gy) = if chance.one_in(4) { (0, 1_000_000) } else { heading(chance) };
    let heading_ends = [gx + 1, gy + 1, gx - 1, 1_415, 1_000_001, -2_147_483_648, 2_147_483_647];
    vec![
        signed(chance.between(-size, size), &ends),
        signed(chance.between(-size, size), &ends),
        signed(gx, &heading_ends),
        signed(gy, &heading_ends),
    ]
}

const RADIUS_ENDS: [i64; 11] =
    [0, 1, -1, 19_999, -19_999, 20_000, -20_000, 1_000_000, -1_000_000, 1_000_001, -1_000_001];

/// Elements that come to at most `steps` steps; a wild job has the tightest radii too.
fn path_fields(chance: &mut Chance, steps: i64, wild: bool) -> Vec<Field> {
    let step = if wild { chance.between(100, 20_000) } else { chance.between(900, 9_000) };
    let most_elements = if chance.one_in(8) { 64 } else { 6 };
    let count = chance.between(1, most_elements).min(steps);
    let mut fields = vec![unsigned(step, 100, 20_000), unsigned(count, 1, 64)];
    let mut left = steps;
    for others in (0..count).rev() {
        let most = if others == 0 { left } else { (2 * left / (others + 1)).min(left - others).max(1) };
        let made = if others == 0 { most } else { chance.between(1, most) };
        left -= made;
        let short = if chance.one_in(3) { 0 } else { chance.between(0, step - 1) };
        let (tightest, widest) = (if wild { 20_000 } else { 90_000 }, chance.pick(&[300_000, 300_000, 1_000_000]));
        let radius = chance.pick(&[0, -1, 1]) * chance.between(tightest, widest);
        fields.push(unsigned((made * step - short).min(40_000_000), 1, 40_000_000));
        fields.push(signed(radius, &RADIUS_ENDS));
    }
    fields
}

fn sound_fields(chance: &mut Chance, steps: i64) -> Vec<Field> {
    let wild = chance.one_in(5);
    let mut fields = vehicle_fields(chance, wild);
    fields.extend(start_fields(chance));
    fields.extend(path_fields(chance, steps, wild));
    fields
}

/// Mostly short walks, some long ones, now and then one of over 2,000 steps.
fn some_steps(chance: &mut Chance) -> i64 {
    match chance.below(1_000) {
        0..=3 => chance.between(1_990, 2_003),
        4..=9 => chance.between(300, 2_000),
        10..=99 => chance.between(40, 300),
        _ => chance.between(1, 40),
    }
}

/// One field is written overlong, with five groups and a top bit, or too large.
fn misspelt(chance: &mut Chance, fields: &[Field]) -> Vec<u8> {
    let which = chance.below(fields.len() as u64) as usize;
    let mut bytes = job_bytes(&fields[..which]);
    let mut field = field_bytes(&fields[which]);
    match chance.below(4) {
        0 => {
            *field.last_mut().expect("a field has a byte") |= 0x80;
            field.push(0);
        }
        1 => field = vec![0x80 | chance.below(256) as u8; 5],
        2 => field = vec![0xff, 0xff, 0xff, 0xff, chance.between(0x0e, 0x20) as u8],
        _ => field = encode(chance.word() & 0xffff_ffff),
    }
    bytes.extend(field);
    bytes.extend(job_bytes(&fields[which + 1..]));
    bytes
}

/// Bits flipped, bytes cut off, put in, taken out or repeated.
fn harmed(chance: &mut Chance, mut bytes: Vec<u8>) -> Vec<u8> {
    for _ in 0..chance.between(1, 3) {
        let at = chance.below(bytes.len() as u64 + 1) as usize;
        match chance.below(5) {
            0 if at < bytes.len() => bytes[at] ^= 1 << chance.below(8),
            1 if at < bytes.len() => bytes[at] = chance.below(256) as u8,
            2 => bytes.truncate(at),
            3 if at < bytes.len() => drop(bytes.remove(at)),
            _ => bytes.insert(at, chance.below(256) as u8),
        }
    }
    bytes
}

fn noise(chance: &mut Chance) -> Vec<u8> {
    let most = chance.pick(&[3, 30, 600, 1_200]);
    let length = chance.between(0, most);
    let mut bytes: Vec<u8> = (0..length).map(|_| chance.word() as u8).collect();
    if let Some(first) = bytes.first_mut() {
        *first &= 0x0f;
    }
    bytes
}

/// The bytes of a job that is refused for over 2,000 steps at most.
pub(crate) fn sound_job(chance: &mut Chance, steps: i64) -> Vec<u8> {
    job_bytes(&sound_fields(chance, steps))
}

/// The bytes of one job: about half of them are sound.
pub fn some_job(chance: &mut Chance) -> Vec<u8> {
    let steps = some_steps(chance);
    let mut fields = sound_fields(chance, steps);
    match chance.below(20) {
        0..=9 => job_bytes(&fields),
        10..=13 => {
            let which = chance.below(fields.len() as u64) as usize;
            let ends = fields[which].ends.clone();
            fields[which].value = chance.pick(&ends);
            job_bytes(&fields)
        }
        14 | 15 => misspelt(chance, &fields),
        16..=18 => harmed(chance, job_bytes(&fields)),
        _ => noise(chance),
    }
}

/// The four units of the heaviest walks: wheelbase, hitch and fold limit.
pub(crate) const HEAVY_UNITS: [[u64; 3]; 4] =
    [[40_000, 2 * 3_000, 0], [60_000, 2 * 2_000 - 1, 999], [30_000, 2 * 1_000, 1_999], [80_000, 0, 999]];

/// The record of a vehicle with 2,000 steps and bends both ways after it.
fn heavy_job(mut fields: Vec<u64>) -> Vec<u8> {
    fields.extend([0, 0, 0, 2 * 1_000_000, 1_500, 64]);
    for e in 0..64 {
        let steps = if e < 16 { 32 } else { 31 };
        fields.extend([steps * 1_500, [0, 2 * 150_000, 0, 2 * 150_000 - 1][e % 4]]);
    }
    fields.into_iter().flat_map(encode).collect()
}

/// The heaviest walk that a short job can ask for: four units, 2,000 steps, bends both ways.
pub fn heaviest() -> Vec<u8> {
    let mut fields = vec![4];
    fields.extend(HEAVY_UNITS.concat());
    fields.extend([11_000, 12_000, 12_500]);
    heavy_job(fields)
}

/// The same walk of a long job, each unit with the greatest body.
pub fn heaviest_long() -> Vec<u8> {
    let mut fields = vec![14];
    for unit in HEAVY_UNITS {
        fields.extend(unit);
        fields.extend([50_000, 50_000, 20_000]);
    }
    fields.extend([0, 12_000, 12_500]);
    heavy_job(fields)
}
