//! The pixel conversion of the documents (RULES 5.1), over whole numbers.

/// The f32 nearest to 1e-32.
const BLACK: u32 = 0x0a4f_b11f;

/// A positive finite sample as whole number times a power of two.
fn parts(bits: u32) -> (u32, i32) {
    let exponent = (bits >> 23) as i32;
    let fraction = bits & 0x7f_ffff;
    if exponent == 0 {
        (fraction, -149)
    } else {
        (fraction | 0x80_0000, exponent - 150)
    }
}

/// The largest sample that is a number; none if there is none.
fn largest(samples: &[f32]) -> Option<f32> {
    samples.iter().filter(|s| !s.is_nan()).fold(None, |best, s| match best {
        Some(b) if b >= *s => Some(b),
        _ => Some(*s),
    })
}

/// The e with 2^(e-1) <= v < 2^e, for a positive finite v.
pub fn exponent_of(v: f32) -> i32 {
    let (whole, power) = parts(v.to_bits());
    power + 32 - whole.leading_zeros() as i32
}

/// The four bytes; none where the largest sample is 2^127 or more.
pub fn by_documents(samples: &[f32]) -> Option<[u8; 4]> {
    let v = match largest(samples) {
        Some(v) if v > f32::from_bits(BLACK) => v,
        _ => return Some([0; 4]),
    };
    if v >= 2f32.powi(127) {
        return None;
    }
    let e = exponent_of(v);
    let mut pixel = [0, 0, 0, (e + 128) as u8];
    for (byte, sample) in pixel.iter_mut().zip(samples) {
        *byte = mantissa(*sample, e);
    }
    Some(pixel)
}

/// The sample times 2^(8-e), rounded down; 0 for a negative one or no number.
fn mantissa(sample: f32, e: i32) -> u8 {
    if !(sample > 0.0) {
        return 0;
    }
    let (whole, power) = parts(sample.to_bits());
    let shift = power + 8 - e;
    if shift >= 0 {
        (whole << shift) as u8
    } else {
        whole.checked_shr(-shift as u32).unwrap_or(0) as u8
    }
}
