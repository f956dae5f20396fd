//! Open, look, save: a file that was written, read and written again has the same bytes, in the range that
//! docs/RULES.md has for each reading in 8.5.

use doorwhisp::{DecoderOptions, EncoderOptions, HdrDecoder, HdrEncoder, Reading};

/// The bit pattern of the f32 nearest to 1e-32, the brightest that is written black.
const LAST_BLACK: u32 = 0x0a4f_b11f;

/// Numbers that look random, from a seed.
struct Random(u64);

impl Random {
    fn below(&mut self, n: u32) -> u32 {
        self.0 ^= self.0 << 13;
        self.0 ^= self.0 >> 7;
        self.0 ^= self.0 << 17;
        ((self.0 >> 20) % u64::from(n)) as u32
    }

    /// Any sample that is not above the one of these bits: a number down to 0, a negative one, minus infinity,
    /// or no number.
    fn at_most(&mut self, bits: u32) -> f32 {
        f32::from_bits(match self.below(4) {
            0 => 0x8000_0000 + self.below(0x7f80_0001),
            1 => 0x7f80_0001 + self.below(0x007f_ffff) + (self.below(2) << 31),
            _ => self.below(bits + 1),
        })
    }

    /// Three samples, of which the largest lies from 2^low to below 2^high; one time in eight all are black.
    fn pixel(&mut self, low: i32, high: i32) -> [f32; 3] {
        if self.below(8) == 0 {
            return [0; 3].map(|_| self.at_most(LAST_BLACK));
        }
        let exponent = (127 + low) as u32 + self.below((high - low) as u32);
        let largest = (exponent << 23) + self.below(1 << 23);
        let mut pixel = [0; 3].map(|_| self.at_most(largest));
        pixel[self.below(3) as usize] = f32::from_bits(largest);
        pixel
    }
}

fn saved(samples: &[f32], width: usize, height: usize) -> Vec<u8> {
    HdrEncoder::new(samples, EncoderOptions::new(width, height))
        .encode_to_vec()
        .unwrap()
}

fn opened(file: &[u8], reading: Reading) -> Vec<f32> {
    let options = DecoderOptions::default().set_reading(reading);
    HdrDecoder::new_with_options(file, options)
        .decode()
        .unwrap()
}

#[test]
fn a_file_in_range_is_saved_again_as_it_was() {
    let mut random = Random(208);
    for (reading, low, high) in [(Reading::Crate, -32, 31), (Reading::Document, -106, 127)] {
        for (width, height) in [(1, 50), (7, 40), (8, 40), (200, 30), (1000, 12)] {
            let samples: Vec<f32> = (0..width * height)
                .flat_map(|_| random.pixel(low, high))
                .collect();
            let file = saved(&samples, width, height);
            let back = opened(&file, reading);
            assert!(back.iter().all(|x| x.is_finite() && x.is_sign_positive()));
            assert_eq!(
                saved(&back, width, height),
                file,
                "{reading:?}, {width} by {height}"
            );
        }
    }
}

#[test]
fn outside_the_ranges_it_may_be_another() {
    let becomes = |red: u32, reading, first: [u8; 4], shown: u32, second: [u8; 4]| {
        let file = saved(&[f32::from_bits(red), 0.0, 0.0], 1, 1);
        let back = opened(&file, reading);
        assert_eq!(file[63..], first);
        assert_eq!(back[0].to_bits(), shown);
        assert_eq!(saved(&back, 1, 1)[63..], second);
    };
    // the f32 next above 1e-32 falls to black
    let (first, second) = ([207, 0, 0, 22], [0, 0, 0, 0]);
    becomes(0x0a4f_b120, Reading::Document, first, 0x0a4f_8000, second);
    // the f32 next below 2^-32, and 2^31, are shown by the crate reading as 255/256 and 1/2
    let (first, second) = ([255, 0, 0, 96], [255, 0, 0, 128]);
    becomes(0x2f7f_ffff, Reading::Crate, first, 0x3f7f_0000, second);
    let (first, second) = ([128, 0, 0, 160], [128, 0, 0, 128]);
    becomes(0x4f00_0000, Reading::Crate, first, 0x3f00_0000, second);
}
