//! Seeded turns of a single unit: a vector, a move of its front point and a wheelbase, at the corners of their ranges too.

use crate::jobs::{heading, Chance};

/// A unit's vector d, the move f of its front point, and its wheelbase.
#[derive(Clone, Copy, Debug)]
pub struct Turn {
    pub d: (i64, i64),
    pub f: (i64, i64),
    pub wheelbase: u32,
}

/// A vector of this length along a heading, to the nearest tick.
fn along_heading(heading: (i64, i64), length: i64) -> (i64, i64) {
    let part = |coordinate: i64| (coordinate * length + 500_000).div_euclid(1_000_000);
    (part(heading.0), part(heading.1))
}

/// Any vector of any wheelbase, and any move up to just beyond it.
pub fn some_turn(chance: &mut Chance) -> Turn {
    let wheelbase = chance.between(5_000, 200_000);
    let moved = chance.between(0, wheelbase + 2);
    let d = along_heading(heading(chance), wheelbase);
    let f = along_heading(heading(chance), moved);
    Turn { d, f, wheelbase: wheelbase as u32 }
}

/// The vector in one of the eight places that signs and an exchange of its coordinates lead to.
fn mirrored(chance: &mut Chance, (x, y): (i64, i64)) -> (i64, i64) {
    let (x, y) = if chance.one_in(2) { (y, x) } else { (x, y) };
    (x * chance.pick(&[-1, 1]), y * chance.pick(&[-1, 1]))
}

/// A turn at the corners: wheelbases at both ends and around 2^15 and 2^16, vectors as long and as short as they may
/// be, no move, the least and the longest, and one tick beyond.
pub fn corner_turn(chance: &mut Chance) -> Turn {
    let l: i64 = chance.pick(&[5_000, 5_001, 32_767, 32_768, 65_535, 65_536, 199_999, 200_000]);
    let most = ((2 * l) as f64).sqrt() as i64;
    let slanted = along_heading((600_000, 800_000), l);
    let d = chance.pick(&[(l, 0), (l, 1), (l, most), (l - 1, 0), slanted]);
    let f = chance.pick(&[(0, 0), (1, 0), (1, 1), (l - 1, 0), (l, 0), (l, 1), (l - 1, 1), slanted]);
    Turn { d: mirrored(chance, d), f: mirrored(chance, f), wheelbase: l as u32 }
}
