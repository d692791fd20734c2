//! Geometries in bytes, and seeded ones for comparisons: points and lines, sound ones and ones harmed field by field.

use crate::jobs::Chance;

/// The coordinates of a vertex as the bits of two floats, so that any can be written.
type Bits = [u64; 2];

/// Type 1 with one vertex, or type 2 with its number of them.
fn geometry(kind: u32, vertices: &[Bits]) -> Vec<u8> {
    let mut bytes = vec![1];
    bytes.extend(kind.to_le_bytes());
    if kind == 2 {
        bytes.extend((vertices.len() as u32).to_le_bytes());
    }
    bytes.extend(vertices.iter().flatten().flat_map(|bits| bits.to_le_bytes()));
    bytes
}

pub fn point(x: f64, y: f64) -> Vec<u8> {
    geometry(1, &[[x.to_bits(), y.to_bits()]])
}

pub fn line(vertices: &[(f64, f64)]) -> Vec<u8> {
    let bits: Vec<Bits> = vertices.iter().map(|(x, y)| [x.to_bits(), y.to_bits()]).collect();
    geometry(2, &bits)
}

/// The bits of 15,000, above which every size is refused: floats of one sign are in the order of their bits.
const MOST: u64 = 0x40cd_4c00_0000_0000;
const SIGN: u64 = 1 << 63;
const INFINITE: u64 = 0x7ff << 52;

/// A size with its last digits changed by chance, yet allowed.
fn nudged(chance: &mut Chance, size: f64) -> u64 {
    (size.to_bits() as i64 + chance.between(-2, 2)).clamp(0, MOST as i64) as u64
}

/// A coordinate that is read: half ticks and whole ones to the last digits, the greatest, the least, and any.
fn sound_bits(chance: &mut Chance) -> u64 {
    let most_ticks = chance.pick(&[12, 2_000, 10_000_000, 149_999_999]);
    let ticks = chance.between(0, most_ticks) as f64;
    let size = match chance.below(10) {
        0..=2 => nudged(chance, (ticks + 0.5) / 10_000.0),
        3 => nudged(chance, ticks / 10_000.0),
        4 => MOST - chance.below(3),
        5 => chance.pick(&[0, 0, 1, 2, (1 << 52) - 1, 1 << 52, (1 << 52) + 1]),
        6 => chance.word() % (MOST + 1),
        7 => (chance.between(0, 15_000) as f64).to_bits(),
        _ => (chance.below(15_000_000_000_000) as f64 / 1e9).to_bits(),
    };
    size | chance.pick(&[0, SIGN])
}

/// A coordinate that is refused: just too large, far too large, infinite or no number at all.
fn wrong_bits(chance: &mut Chance) -> u64 {
    let size = match chance.below(6) {
        0 | 1 => MOST + 1 + chance.below(3),
        2 => MOST + 1 + chance.word() % (INFINITE - MOST - 1),
        3 => INFINITE,
        4 => INFINITE + chance.pick(&[1, 1 << 51, (1 << 52) - 1]),
        _ => INFINITE + 1 + chance.word() % ((1 << 52) - 1),
    };
    size | chance.pick(&[0, SIGN])
}

fn sound(chance: &mut Chance) -> Vec<u8> {
    let count = match chance.below(20) {
        0..=5 => 1,
        6..=9 => 2,
        10..=16 => chance.between(3, 12),
        17 | 18 => chance.between(13, 499),
        _ => 500,
    };
    let vertices: Vec<Bits> = (0..count).map(|_| [sound_bits(chance), sound_bits(chance)]).collect();
    geometry(if count == 1 { 1 } else { 2 }, &vertices)
}

/// Writes over the bytes from a place on, as far as there are any.
fn put(bytes: &mut [u8], at: usize, with: &[u8]) {
    bytes.iter_mut().skip(at).zip(with).for_each(|(byte, new)| *byte = *new);
}

const WRONG_KINDS: [u32; 12] = [0, 3, 4, 5, 6, 7, 1_001, 2_002, 0x0100_0000, 0x0200_0000, 0x2000_0001, 0x8000_0002];
const WRONG_COUNTS: [u32; 9] = [0, 1, 501, 502, 1_000, 65_538, 0x0200_0000, 1 << 31, u32::MAX];

/// One field is made wrong, or bytes are cut off, put after the last or changed anywhere.
fn harm(chance: &mut Chance, bytes: &mut Vec<u8>) {
    let header = if bytes.get(1) == Some(&2) { 9 } else { 5 };
    let anywhere = chance.below(bytes.len() as u64 + 1) as usize;
    let fields = bytes.len().saturating_sub(header) as u64 / 8;
    match chance.below(10) {
        0 => put(bytes, 0, &[chance.pick(&[0, 2, 0x81, 255])]),
        1 => put(bytes, 1, &chance.pick(&WRONG_KINDS).to_le_bytes()),
        2 => put(bytes, 5, &chance.pick(&WRONG_COUNTS).to_le_bytes()),
        // A count that belongs to other bytes than these.
        3 => put(bytes, 5, &(chance.between(2, 500) as u32).to_le_bytes()),
        4 => bytes.truncate(chance.pick(&[0, 1, 4, 5, 8, 9])),
        5 => bytes.truncate(anywhere),
        6 => bytes.extend(vec![chance.below(3) as u8; chance.pick(&[1, 1, 7, 8, 16])]),
        7 | 8 => put(bytes, header + 8 * chance.below(fields + 1) as usize, &wrong_bits(chance).to_le_bytes()),
        _ => put(bytes, anywhere, &[chance.word() as u8]),
    }
}

/// The bytes of one geometry: about half of them are sound.
pub fn some_geometry(chance: &mut Chance) -> Vec<u8> {
    let mut bytes = sound(chance);
    let harms = chance.pick(&[0, 0, 0, 1, 1, 2]);
    for _ in 0..harms {
        harm(chance, &mut bytes);
    }
    bytes
}
