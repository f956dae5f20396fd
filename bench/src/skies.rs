//! The skies that are measured, made by formula. Each sample stands in the middle of its step and each pixel's largest is 1 or
//! more, so that the Rust's approximated conversion gives the same four bytes as the documents'.

pub const WIDTH: usize = 4096;
pub const HEIGHT: usize = 2048;

/// A pixel's three mantissas and its exponent byte.
type Bytes = ([u32; 3], u32);

/// Broad bands that drift from row to row: runs of 96 bytes and more in every channel.
fn smooth(x: u32, y: u32) -> Bytes {
    let band = |width: u32, height: u32| (x / width + y / height) % 100;
    ([128 + band(96, 32), 100 + band(128, 24), 40 + band(160, 40)], 129 + y / 512)
}

/// Every byte is noise, of which eight exponents.
fn noisy(x: u32, y: u32) -> Bytes {
    let mut h = (y * WIDTH as u32 + x).wrapping_add(1).wrapping_mul(0x9e37_79b1);
    h = (h ^ h >> 15).wrapping_mul(0x85eb_ca6b);
    h = (h ^ h >> 13).wrapping_mul(0xc2b2_ae35);
    h ^= h >> 16;
    ([h & 255, h >> 8 & 255 | 128, h >> 16 & 255], 129 + (h >> 24 & 7))
}

/// The samples of the sky of that name.
pub fn samples(name: &str) -> Vec<f32> {
    let sky = match name {
        "smooth" => smooth,
        "noisy" => noisy,
        _ => panic!("no sky {name}"),
    };
    let mut samples = Vec::with_capacity(3 * WIDTH * HEIGHT);
    for y in 0..HEIGHT as u32 {
        for x in 0..WIDTH as u32 {
            let (mantissas, exponent) = sky(x, y);
            let step = f32::from_bits((exponent - 9) << 23);
            samples.extend(mantissas.map(|m| (m as f32 + 0.5) * step));
        }
    }
    samples
}
