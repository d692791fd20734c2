//! Kerbs from the survey office in plain Rust, as their request tells them: Well-Known Binary, little-endian, to ticks.

use crate::record::Refusal;
pub use crate::Intake;

/// A vertex in metres, as it was sent.
#[derive(Clone, Copy, Debug, PartialEq)]
pub struct Vertex {
    pub x: f64,
    pub y: f64,
}

const POINT: u32 = 1;
const LINE: u32 = 2;
pub const MOST_VERTICES: usize = 500;
const MOST_METRES: f64 = 15_000.0;

/// Takes the fields one after another; one that is cut short, or wrong, is refused where it starts.
struct Fields<'a> {
    bytes: &'a [u8],
    at: usize,
}

impl Fields<'_> {
    /// The bytes of a field of this width, which `decoded` makes a value of, or refuses by a number.
    fn field<const WIDTH: usize, T>(&mut self, decoded: impl Fn([u8; WIDTH]) -> Result<T, u32>) -> Result<T, Refusal> {
        let at = self.at;
        let Some(bytes) = self.bytes[at..].first_chunk::<WIDTH>() else {
            return Err(Refusal { number: 12, at });
        };
        let value = decoded(*bytes).map_err(|number| Refusal { number, at })?;
        self.at = at + WIDTH;
        Ok(value)
    }

    fn mark(&mut self) -> Result<(), Refusal> {
        self.field(|[mark]| if mark == 1 { Ok(()) } else { Err(12) })
    }

    fn number(&mut self, allowed: impl Fn(u32) -> bool) -> Result<u32, Refusal> {
        self.field(|bytes| {
            let value = u32::from_le_bytes(bytes);
            if allowed(value) {
                Ok(value)
            } else {
                Err(12)
            }
        })
    }

    fn coordinate(&mut self) -> Result<f64, Refusal> {
        self.field(|bytes| {
            let metres = f64::from_le_bytes(bytes);
            // Not a number is in no range.
            if (-MOST_METRES..=MOST_METRES).contains(&metres) {
                Ok(metres)
            } else {
                Err(13)
            }
        })
    }

    fn vertex(&mut self) -> Result<Vertex, Refusal> {
        let x = self.coordinate()?;
        let y = self.coordinate()?;
        Ok(Vertex { x, y })
    }
}

/// The vertices of a point or a line, or the first field's refusal: 12 or 13.
pub fn read_geometry(bytes: &[u8]) -> Result<Vec<Vertex>, Refusal> {
    let mut fields = Fields { bytes, at: 0 };
    fields.mark()?;
    let kind = fields.number(|kind| kind == POINT || kind == LINE)?;
    let count = match kind {
        LINE => fields.number(|count| (2..=MOST_VERTICES as u32).contains(&count))?,
        _ => 1,
    };
    let vertices = (0..count).map(|_| fields.vertex()).collect::<Result<Vec<Vertex>, Refusal>>()?;
    if fields.at < bytes.len() {
        return Err(Refusal { number: 12, at: fields.at });
    }
    Ok(vertices)
}

/// The nearest whole number to a float below 2^52 in size, halves away from zero, from the float's own bits: its size
/// is a whole number of 53 bits over a power of two, and the highest bit cut off says whether half or more is.
fn nearest_whole(float: f64) -> i32 {
    let bits = float.to_bits();
    let (exponent, fraction) = (bits >> 52 & 0x7ff, bits & ((1 << 52) - 1));
    // The size is `digits` over 2 to the power `cut`.
    let (digits, cut) = if exponent == 0 { (fraction, 1_074) } else { (fraction | 1 << 52, 1_075 - exponent) };
    let size = if cut > 53 { 0 } else { (digits >> cut) + (digits >> (cut - 1) & 1) };
    if float.is_sign_negative() {
        -(size as i32)
    } else {
        size as i32
    }
}

/// The ticks of a coordinate in metres of at most 15,000 in size: one float product, then the nearest tick.
pub fn ticks(metres: f64) -> i32 {
    nearest_whole(metres * 10_000.0)
}

/// One geometry, from its bytes to the ticks of its vertices in two lent runs, whose entries past them stay. A refusal
/// writes nothing.
pub fn take_in(bytes: &[u8], xs: &mut [i32], ys: &mut [i32]) -> Intake {
    let vertices = match read_geometry(bytes) {
        Ok(vertices) => vertices,
        Err(refusal) => return Intake::Refused { number: refusal.number, at: refusal.at },
    };
    if xs.len() < vertices.len() || ys.len() < vertices.len() {
        return Intake::Untaken { number: 21 };
    }
    for (i, vertex) in vertices.iter().enumerate() {
        xs[i] = ticks(vertex.x);
        ys[i] = ticks(vertex.y);
    }
    Intake::Taken { vertices: vertices.len() }
}
