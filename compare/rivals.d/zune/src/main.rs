//! Reads and writes by zune-hdr, as a program of its own:
//! `read FILE OUT`: a line `ok W H` or `error WORDS`; the samples go to OUT.
//! `after FILE OUT`: a buffer of 7s is lent; what it holds after the call goes to OUT.
//! `write W H IN OUT`: samples from IN, the file to OUT.

use std::fs;
use zune_core::bit_depth::BitDepth;
use zune_core::bytestream::ZCursor;
use zune_core::colorspace::ColorSpace;
use zune_core::options::{DecoderOptions, EncoderOptions};
use zune_hdr::{HdrDecodeErrors, HdrDecoder, HdrEncoder};

/// A limit that no file here reaches: limits are the caller's.
const LIMIT: usize = 1 << 20;

fn decoder(bytes: &[u8]) -> HdrDecoder<ZCursor<'_>> {
    HdrDecoder::new_with_options(ZCursor::new(bytes), DecoderOptions::default().set_max_width(LIMIT).set_max_height(LIMIT))
}

fn read(bytes: &[u8], out: &str) -> Result<String, HdrDecodeErrors> {
    let mut decoder = decoder(bytes);
    let samples = decoder.decode()?;
    save(out, &samples);
    let (width, height) = decoder.dimensions().unwrap();
    Ok(format!("ok {width} {height}"))
}

fn after(bytes: &[u8], out: &str) -> Result<String, HdrDecodeErrors> {
    let mut decoder = decoder(bytes);
    decoder.decode_headers()?;
    let mut samples = vec![7.0; decoder.output_buffer_size().unwrap()];
    let done = decoder.decode_into(&mut samples);
    save(out, &samples);
    done.map(|()| "ok".to_string())
}

fn write(width: usize, height: usize, samples: &[f32], out: &str) -> String {
    let options = EncoderOptions::new(width, height, ColorSpace::RGB, BitDepth::Float32);
    let mut file = Vec::new();
    match HdrEncoder::new(samples, options).encode(&mut file) {
        Err(error) => format!("error {}", error.to_string().trim()),
        Ok(_) => {
            fs::write(out, file).unwrap();
            "ok".to_string()
        }
    }
}

fn save(path: &str, samples: &[f32]) {
    let bytes: Vec<u8> = samples.iter().flat_map(|s| s.to_le_bytes()).collect();
    fs::write(path, bytes).unwrap();
}

fn samples_of(path: &str) -> Vec<f32> {
    fs::read(path).unwrap().chunks_exact(4).map(|b| f32::from_le_bytes(b.try_into().unwrap())).collect()
}

fn told(answer: Result<String, HdrDecodeErrors>) -> String {
    answer.unwrap_or_else(|error| format!("error {}", error.to_string().trim()))
}

fn main() {
    let words: Vec<String> = std::env::args().skip(1).collect();
    let words: Vec<&str> = words.iter().map(String::as_str).collect();
    let line = match words[..] {
        ["read", file, out] => told(read(&fs::read(file).unwrap(), out)),
        ["after", file, out] => told(after(&fs::read(file).unwrap(), out)),
        ["write", w, h, samples, out] => write(w.parse().unwrap(), h.parse().unwrap(), &samples_of(samples), out),
        _ => panic!("usage: read FILE OUT | after FILE OUT | write W H IN OUT"),
    };
    println!("{line}");
}
