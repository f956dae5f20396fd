//! Reads and writes by the image crate, as a program of its own:
//! `read FILE OUT`: a line `ok W H` or `error WORDS`; the samples go to OUT.
//! `after FILE OUT`: a slice of 7s is lent; what it holds after the call goes to OUT.
//! `write W H IN OUT`: samples from IN, the file to OUT.

use image::codecs::hdr::{HdrDecoder, HdrEncoder};
use image::{ImageResult, Rgb};
use std::convert::TryInto;
use std::fs;
use std::io::Cursor;

fn read(bytes: Vec<u8>, out: &str) -> ImageResult<String> {
    let decoder = HdrDecoder::new(Cursor::new(bytes))?;
    let sizes = decoder.metadata();
    let pixels = decoder.read_image_hdr()?;
    save(out, &pixels);
    Ok(format!("ok {} {}", sizes.width, sizes.height))
}

fn after(bytes: Vec<u8>, out: &str) -> ImageResult<String> {
    let decoder = HdrDecoder::new(Cursor::new(bytes))?;
    let sizes = decoder.metadata();
    let mut pixels = vec![Rgb([7.0, 7.0, 7.0]); sizes.width as usize * sizes.height as usize];
    let done = decoder.read_image_transform(|pixel| pixel.to_hdr(), &mut pixels);
    save(out, &pixels);
    done.map(|()| "ok".to_string())
}

fn write(width: usize, height: usize, pixels: &[Rgb<f32>], out: &str) -> ImageResult<String> {
    let mut file = Vec::new();
    HdrEncoder::new(&mut file).encode(pixels, width, height)?;
    fs::write(out, file)?;
    Ok("ok".to_string())
}

fn save(path: &str, pixels: &[Rgb<f32>]) {
    let bytes: Vec<u8> = pixels.iter().flat_map(|p| p.0.to_vec()).flat_map(|s| s.to_le_bytes().to_vec()).collect();
    fs::write(path, bytes).unwrap();
}

fn pixels_of(path: &str) -> Vec<Rgb<f32>> {
    let sample = |b: &[u8]| f32::from_le_bytes(b.try_into().unwrap());
    fs::read(path).unwrap().chunks_exact(12).map(|b| Rgb([sample(&b[..4]), sample(&b[4..8]), sample(&b[8..])])).collect()
}

fn main() {
    let words: Vec<String> = std::env::args().skip(1).collect();
    let words: Vec<&str> = words.iter().map(String::as_str).collect();
    let answer = match words[..] {
        ["read", file, out] => read(fs::read(file).unwrap(), out),
        ["after", file, out] => after(fs::read(file).unwrap(), out),
        ["write", w, h, pixels, out] => write(w.parse().unwrap(), h.parse().unwrap(), &pixels_of(pixels), out),
        _ => panic!("usage: read FILE OUT | after FILE OUT | write W H IN OUT"),
    };
    println!("{}", answer.unwrap_or_else(|error| format!("error {}", error)));
}
