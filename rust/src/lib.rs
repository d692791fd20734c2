//! The turning check for hired trailers: the proved static library behind safe functions, and a plain
//! Rust reference, written from the paper alone, to compare it with.

pub mod geometries;
pub mod jobs;
pub mod kerbs;
pub mod lists;
mod plane;
#[cfg(feature = "product")]
pub mod product;
pub mod record;
pub mod reference;
pub mod runs;
pub mod settings;
pub mod touch;
pub mod turns;
pub mod yards;

use std::fmt;

/// What a sweep of one job comes to.
#[derive(Clone, Copy, Debug, PartialEq, Eq)]
pub enum Swept {
    /// The job is turned down, at a byte of the input; 21, a lent run too short, stands at byte 0.
    Refused { number: u32, at: usize },
    /// A step is turned down; units and steps are counted from 1.
    Stopped { number: u32, unit: u32, step: u32 },
    /// The last station is reached; `widest` holds station, width, left and right.
    Finished { steps: u32, widest: Option<(u32, i64, i64, i64)>, front: (i64, i64) },
}

impl fmt::Display for Swept {
    /// The text that the program `sweep` prints.
    fn fmt(&self, f: &mut fmt::Formatter<'_>) -> fmt::Result {
        match *self {
            Swept::Refused { number, at } => writeln!(f, "refused {number} at {at}"),
            Swept::Stopped { number, unit, step } => writeln!(f, "refused {number} unit {unit} step {step}"),
            Swept::Finished { steps, widest, front } => {
                writeln!(f, "steps {steps}")?;
                match widest {
                    Some((station, width, left, right)) => writeln!(f, "widest {station} {width} {left} {right}")?,
                    None => writeln!(f, "widest none")?,
                }
                writeln!(f, "front {} {}", front.0, front.1)
            }
        }
    }
}

/// What the list of a job's best settings comes to.
#[derive(Clone, Debug, PartialEq, Eq)]
pub enum Listing {
    /// Wheelbase and widest width of one to three settings, best first.
    Listed(Vec<(u32, i64)>),
    /// The job is turned down, at a byte of the input.
    Refused { number: u32, at: usize },
    /// 21, 29 or 30, which no byte of the input stands for.
    Unlisted { number: u32 },
}

impl fmt::Display for Listing {
    /// The text that the program `settings` prints.
    fn fmt(&self, f: &mut fmt::Formatter<'_>) -> fmt::Result {
        match self {
            Listing::Listed(best) => {
                best.iter().try_for_each(|(wheelbase, width)| writeln!(f, "setting {wheelbase} {width}"))
            }
            Listing::Refused { number, at } => writeln!(f, "refused {number} at {at}"),
            Listing::Unlisted { number } => writeln!(f, "refused {number}"),
        }
    }
}

/// What the reading of a kerb's geometry into two lent runs of ticks comes to.
#[derive(Clone, Copy, Debug, PartialEq, Eq)]
pub enum Intake {
    /// So many vertices stand at the start of both runs.
    Taken { vertices: usize },
    /// 12 or 13, at a byte of the geometry.
    Refused { number: u32, at: usize },
    /// 21, which no byte stands for: a lent run is shorter than the kerb.
    Untaken { number: u32 },
}

/// What the report of a rig beside a kerb comes to.
#[derive(Clone, Copy, Debug, PartialEq, Eq)]
pub enum Report {
    /// The first step in which a point touches or crosses the kerb, and the lowest such point.
    Touched { step: u32, point: u32 },
    /// The last station is reached and no point has touched the kerb.
    Clear,
    /// The job is turned down, at a byte of the input.
    Refused { number: u32, at: usize },
    /// 21 or 26 for the kerb, which no byte of the input stands for.
    Unreported { number: u32 },
    /// A step is turned down before any touch; units and steps are counted from 1.
    Stopped { number: u32, unit: u32, step: u32 },
}

/// The bytes of a line of hexadecimal digits, `-` for none.
pub fn bytes_of_hex(line: &str) -> Option<Vec<u8>> {
    if line == "-" {
        return Some(Vec::new());
    }
    if !line.is_ascii() || line.len() % 2 == 1 {
        return None;
    }
    (0..line.len()).step_by(2).map(|i| u8::from_str_radix(&line[i..i + 2], 16).ok()).collect()
}

/// A line of hexadecimal digits, `-` for no bytes.
pub fn hex_of_bytes(bytes: &[u8]) -> String {
    if bytes.is_empty() {
        return "-".to_string();
    }
    bytes.iter().map(|byte| format!("{byte:02x}")).collect()
}
