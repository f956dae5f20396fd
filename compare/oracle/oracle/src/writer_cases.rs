//! Seeded cases for the writer: the lines have the four-byte pixels that the crate's own conversion gave.

use crate::cases::{some_width, Case, Judge, Sink};
use crate::line::{lent_bytes, push_bytes, push_samples};
use crate::pixel::by_documents;
use crate::random::Random;

pub fn all(seed: u64, count: usize, sink: Sink) {
    short_rows(sink);
    run_lengths(sink);
    random_rows(seed, count, sink);
    wide_rows(seed, sink);
    samples_that_agree(seed, count / 4, sink);
    pixels_by_document(seed, count / 4, sink);
    sizes(seed, sink);
}

/// The sample in the middle of the step of a mantissa at an exponent byte.
fn middle(mantissa: u8, exponent: u8) -> f32 {
    ((2 * mantissa as i32 + 1) as f64 * (exponent as f64 - 137.0).exp2()) as f32
}

/// The samples of four wanted bytes; the crate's conversion gives them or others, and what it gives is used.
fn samples_of(pixel: [u8; 4]) -> [f32; 3] {
    [0, 1, 2].map(|i| middle(pixel[i], pixel[3]))
}

/// The case of a picture: `write4` into some room, or `len4` without.
fn written(kind: &'static str, width: usize, height: usize, room: Option<usize>, samples: Vec<f32>) -> Case {
    let mut line = match room {
        Some(room) => format!("write4 {width} {height} {room} "),
        None => format!("len4 {width} {height} "),
    };
    push_bytes(&mut line, &crate_side::convert(&samples));
    Case { kind, line, judge: Judge::CrateSamples { width, height, room, samples } }
}

/// The length of the crate's file.
fn file_length(width: usize, height: usize, samples: &[f32]) -> usize {
    match crate_side::write(width, height, samples) {
        crate_side::Written::File(file) => file.len(),
        _ => panic!("the crate writes every such picture"),
    }
}

/// Every row of three pixels' choice at width 8, of two at widths 9 to 12, and one pixel alone of each sort.
fn short_rows(sink: Sink) {
    const KIND: &str = "row writer, every short row";
    let pixels = [[200, 7, 9, 130], [130, 140, 11, 140], [128, 3, 255, 129]].map(samples_of);
    for (width, letters) in [(1, 3usize), (2, 3), (7, 2), (8, 3), (9, 2), (10, 2), (11, 2), (12, 2)] {
        for number in 0..letters.pow(width as u32) {
            let mut rest = number;
            let mut samples = Vec::new();
            for _ in 0..width {
                samples.extend(pixels[rest % letters]);
                rest /= letters;
            }
            sink(written(KIND, width, 1, Some(63 + 4 + 4 * (width + 1) + 5), samples));
        }
    }
}

/// Two runs of each pair of lengths around the bounds, with and without a lone pixel between them.
fn run_lengths(sink: Sink) {
    const KIND: &str = "row writer, pairs of runs";
    let lengths = [1, 2, 3, 4, 5, 125, 126, 127, 128, 129, 130, 253, 254, 255, 256];
    let pixels = [[200, 7, 9, 130], [130, 140, 11, 140], [128, 3, 255, 129]].map(samples_of);
    for first in lengths {
        for second in lengths {
            for between in 0..4 {
                let runs = [(pixels[0], first), (pixels[1], between), (pixels[2], second)];
                let samples: Vec<f32> = runs.iter().flat_map(|(p, count)| p.repeat(*count)).collect();
                let width = first + between + second;
                sink(written(KIND, width, 1, Some(63 + 4 * width + 40), samples));
            }
        }
    }
}

/// A picture of runs, ramps or noise, with pixels where the crate's writer behaves.
pub fn picture(random: &mut Random, width: usize, height: usize) -> Vec<f32> {
    (0..height).flat_map(|_| row(random, width)).collect()
}

fn row(random: &mut Random, width: usize) -> Vec<f32> {
    let bytes = match random.below(4) {
        0 => (0..width).map(|_| noise(random)).collect(),
        1 => ramp(random, width),
        _ => runs(random, width),
    };
    bytes.into_iter().flat_map(samples_of).collect()
}

fn noise(random: &mut Random) -> [u8; 4] {
    [random.byte() | 128, random.byte(), random.byte(), random.from(128, 160) as u8]
}

fn ramp(random: &mut Random, width: usize) -> Vec<[u8; 4]> {
    let steps = [random.from(1, 9), random.from(1, 200), random.from(1, 40)];
    (0..width)
        .map(|x| [128 | (x / steps[0]) as u8, (x / steps[1]) as u8, (x * steps[2]) as u8, 130 + ((x / steps[1]) & 15) as u8])
        .collect()
}

/// Each channel in runs of its own, of lengths that are mostly short or near a bound.
fn runs(random: &mut Random, width: usize) -> Vec<[u8; 4]> {
    let mut pixels = vec![[0; 4]; width];
    for channel in 0..4 {
        let letters = random.one_of(&[2, 3, 16, 128]);
        let mut x = 0;
        while x < width {
            let count = match random.below(6) {
                0 => random.one_of(&[126, 127, 128, 129, 130, 255, 256]),
                1 => random.from(4, 20),
                _ => random.from(1, 5),
            };
            let value = match channel {
                0 => 128 + random.below(letters) as u8,
                3 => 129 + random.below(letters.min(100)) as u8,
                _ => random.below(letters) as u8,
            };
            let end = (x + count).min(width);
            pixels[x..end].iter_mut().for_each(|p| p[channel] = value);
            x = end;
        }
    }
    pixels
}

fn random_rows(seed: u64, count: usize, sink: Sink) {
    let mut random = Random::new(seed, "written rows");
    for _ in 0..count {
        let width = some_width(&mut random);
        let height = random.one_of(&[1, 1, 1, 2, 3]);
        let samples = picture(&mut random, width, height);
        let length = file_length(width, height, &samples);
        let (kind, room) = match random.below(10) {
            0 => ("row writer, room too short", Some(length - random.one_of(&[1, 1, 2, 5, length]))),
            1 => ("row writer, lengths", None),
            2..=5 => ("row writer, random", Some(length + random.below(30))),
            _ => ("row writer, random", Some(length)),
        };
        if !sink(written(kind, width, height, room, samples)) {
            return;
        }
    }
}

/// Rows on both sides of 32,767, and some long ones.
fn wide_rows(seed: u64, sink: Sink) {
    let mut random = Random::new(seed, "wide written rows");
    for width in [20_000, 32_766, 32_767, 32_768, 32_769, 65_535] {
        for _ in 0..4 {
            let samples = picture(&mut random, width, 1);
            let length = file_length(width, 1, &samples);
            sink(written("row writer, wide", width, 1, Some(length + 3), samples));
        }
    }
}

/// Whole pictures from samples for which the two conversions agree.
fn samples_that_agree(seed: u64, count: usize, sink: Sink) {
    let mut random = Random::new(seed, "samples");
    for _ in 0..count {
        let width = some_width(&mut random);
        let samples = picture(&mut random, width, 1);
        let length = file_length(width, 1, &samples);
        let mut line = format!("write {width} 1 {length} ");
        push_samples(&mut line, samples.iter().map(|s| s.to_bits()));
        if !sink(Case { kind: "whole writer, where conversions agree", line, judge: Judge::Crate }) {
            return;
        }
    }
}

/// Single pixels of every sort, held to RULES 5.1 alone.
fn pixels_by_document(seed: u64, count: usize, sink: Sink) {
    let mut random = Random::new(seed, "pixels");
    let special = [
        0,
        0x8000_0000,
        1,
        0x7f80_0000,
        0xff80_0000,
        0x7fc0_0000,
        0x7f80_0001,
        0xffff_ffff,
        0x0a4f_b11e,
        0x0a4f_b11f,
        0x0a4f_b120,
        0x7eff_ffff,
        0x7f00_0000,
        0xbf80_0000,
    ];
    for _ in 0..count {
        let base = random.next() as u32;
        let samples = [0; 3].map(|_| {
            f32::from_bits(match random.below(6) {
                0 => random.one_of(&special),
                1 => random.next() as u32,
                2 => base & 0x7f80_0000,
                _ => (base & 0x7fff_ffff).wrapping_sub((random.next() as u32) >> random.from(4, 20)) & 0x7fff_ffff,
            })
        });
        let mut line = "write 1 1 70 ".to_string();
        push_samples(&mut line, samples.iter().map(|s| s.to_bits()));
        let judge = Judge::Document(one_pixel(&samples));
        if !sink(Case { kind: "one pixel, judged by RULES 5.1", line, judge }) {
            return;
        }
    }
}

/// The answer to `write 1 1 70` by RULES 5.1.
fn one_pixel(samples: &[f32; 3]) -> String {
    let mut bytes = lent_bytes(70);
    let mut line = match by_documents(samples) {
        None => "12 0 0 ".to_string(),
        Some(pixel) => {
            bytes[..63].copy_from_slice(b"#?RADIANCE\nSOFTWARE=zune-hdr\nFORMAT=32-bit_rle_rgbe\n\n-Y 1 +X 1\n");
            bytes[63..67].copy_from_slice(&pixel);
            "0 0 67 ".to_string()
        }
    };
    push_bytes(&mut line, &bytes);
    line
}

/// Buffer sizes around each power of two and where a product passes 2^64 - 1.
fn sizes(seed: u64, sink: Sink) {
    let mut random = Random::new(seed, "sizes");
    for _ in 0..5_000 {
        let power = random.from(0, 63);
        let width = (1usize << power).wrapping_add(random.below(7)).wrapping_sub(3);
        let most = usize::MAX / width.max(1);
        let height = match random.below(5) {
            0 => (most / 4).wrapping_add(random.below(9)).wrapping_sub(4),
            1 => (most / 3).wrapping_add(random.below(9)).wrapping_sub(4),
            2 => ((usize::MAX - 1024) / 4 / width.max(1)).wrapping_add(random.below(5)).wrapping_sub(2),
            3 => random.next() as usize,
            _ => random.below(70_000),
        };
        let line = format!("size {width} {height}");
        if !sink(Case { kind: "buffer sizes", line, judge: Judge::Crate }) {
            return;
        }
    }
}
