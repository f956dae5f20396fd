//! Says how large each picture is and how bright, or why it is refused: info [--document] FILE..
//! With `--document` it is read by the Radiance documents, and what its header states is told; else as zune-hdr reads.

use doorwhisp::{Colour, DecoderOptions, HdrDecoder, HdrError, Orientation, Reading};
use std::fs::File;

/// A picture's width, height and brightest sample, what its header states, and its axes if they are not the usual ones.
fn look(name: &str, options: DecoderOptions) -> Result<String, HdrError> {
    let mut decoder = HdrDecoder::from_reader_with_options(File::open(name)?, options)?;
    let brightest = decoder.decode()?.into_iter().fold(0.0, f32::max);
    let (width, height) = decoder.dimensions().unwrap_or_default();
    let colour = match decoder.colour() {
        Some(Colour::Rgbe) => ", rgbe",
        Some(Colour::Xyze) => ", xyze",
        None => "",
    };
    let exposure = decoder.exposure();
    let exposure = exposure.map_or_else(String::new, |number| format!(", exposure {number}"));
    let axes = match decoder.orientation() {
        None | Some(Orientation::MinusYPlusX) => String::new(),
        Some(other) => format!(", stored {other}"),
    };
    Ok(format!(
        "{width} by {height} pixels, brightest sample {brightest}{colour}{exposure}{axes}"
    ))
}

fn main() {
    let mut options = DecoderOptions::default();
    for name in std::env::args().skip(1) {
        if name == "--document" {
            options = options.set_reading(Reading::Document);
            continue;
        }
        match look(&name, options) {
            Ok(words) => println!("{name}: {words}"),
            Err(error) => println!("{name}: {error}"),
        }
    }
}
