//! The crate's answer to a replay line.

use crate::line::{self, NOT_COMPARABLE, UNKNOWN};
use crate::old_run::{self, OldRun};
use crate::pixel::by_documents;
use crate_side::{Head, Read, Written, UNWRITTEN};

/// An answer line, what the stand-in did at the end of the bytes, and whether an old run was met, which is outside the domain.
pub struct Answer {
    pub line: String,
    pub at_end: crate_side::AtEnd,
    pub old_run: bool,
}

/// An answer of which nothing more is to be said.
pub fn plain(line: impl Into<String>) -> Answer {
    Answer { line: line.into(), at_end: Default::default(), old_run: false }
}

fn refusal(number: u32, place: usize, fields: &str) -> String {
    format!("{number} {place}{fields}")
}

const PANICKED: &str = "! the crate panicked";
const TORN: &str = "! the crate's output is not whole rows";
const ELSEWHERE: &str = "! the crate does not read the pixel 1,1,1,n there";
const LIMIT: usize = 65_535;

/// Answers one line as the crate does.
pub fn answer(text: &str) -> Answer {
    let fields: Vec<&str> = text.split(' ').collect();
    parsed(&fields).unwrap_or_else(|| plain(UNKNOWN))
}

fn parsed(fields: &[&str]) -> Option<Answer> {
    match *fields {
        ["read", w, h, out, store, bytes] => {
            Some(read(line::number(w)?, line::number(h)?, line::number(out)?, line::number(store)?, &line::bytes(bytes)?))
        }
        ["head", w, h, bytes] => Some(head(line::number(w)?, line::number(h)?, &line::bytes(bytes)?)),
        ["size", w, h] => Some(size(line::number(w)?, line::number(h)?)),
        ["readd", w, h, out, store, bytes] => {
            [w, h, out, store].into_iter().map(line::number).collect::<Option<Vec<_>>>()?;
            line::bytes(bytes)?;
            Some(plain(NOT_COMPARABLE))
        }
        ["worst", w, h] => {
            line::number(w)?;
            line::number(h)?;
            Some(plain(NOT_COMPARABLE))
        }
        ["write", w, h, out, samples] => {
            Some(write(line::number(w)?, line::number(h)?, Some(line::number(out)?), &line::samples(samples)?))
        }
        ["len", w, h, samples] => Some(write(line::number(w)?, line::number(h)?, None, &line::samples(samples)?)),
        ["write4", w, h, out, bytes] => {
            Some(write4(line::number(w)?, line::number(h)?, Some(line::number(out)?), &line::bytes(bytes)?))
        }
        ["len4", w, h, bytes] => Some(write4(line::number(w)?, line::number(h)?, None, &line::bytes(bytes)?)),
        _ => None,
    }
}

/// A file that has a pixel 1,1,1,n in a flat part is refused there by 25 (RULES 4.11), which the crate does not know. It is asked
/// with the part that ends before the fourth byte: its 9 is then our 25.
fn read(max_width: usize, max_height: usize, length: usize, store: usize, bytes: &[u8]) -> Answer {
    if max_width > LIMIT || max_height > LIMIT || length > 10_000_000 {
        return plain(NOT_COMPARABLE);
    }
    let old_run = match crate_side::head(max_width, max_height, bytes) {
        (Head::Sizes { width, height }, taken, _) => old_run::first(bytes, taken, width, height),
        _ => None,
    };
    let part = old_run.as_ref().map_or(bytes, |run| &bytes[..run.at + 3]);
    let mut reading = crate_side::read(max_width, max_height, length, part);
    let short_store = reading.store.as_ref().is_some_and(|s| s.len() > store);
    if reading.wide_fields || short_store {
        return plain(NOT_COMPARABLE);
    }
    let mut text = match (reading.answer, &old_run) {
        (Read::Panicked, _) => return plain(PANICKED),
        (Read::Torn, _) => return plain(TORN),
        (Read::Refused { number: 9, row }, Some(run)) => {
            if !fourth_byte_stored(reading.store.as_mut(), row, run, bytes) {
                return plain(ELSEWHERE);
            }
            refusal(25, row, " 0 0 0 ")
        }
        (Read::Refused { number, row }, _) => refusal(number, row, " 0 0 0 "),
        (Read::Sizes { .. }, Some(_)) => return plain(ELSEWHERE),
        (Read::Sizes { width, height }, None) => format!("0 0 {width} {height} {} ", reading.taken),
    };
    push_buffers(&mut text, &reading.output, reading.store.as_deref(), store);
    let met = text.starts_with("25 ");
    Answer { line: text, at_end: if met { Default::default() } else { reading.at_end }, old_run: met }
}

/// RULES 4.11: the fourth byte stands in the store behind the 1,1,1 that the crate, which misses it, has put there in this row.
fn fourth_byte_stored(store: Option<&mut Vec<u8>>, row: usize, run: &OldRun, bytes: &[u8]) -> bool {
    match store.and_then(|s| s.get_mut(run.place..run.place + 4)) {
        Some([1, 1, 1, fourth]) if row == run.row => *fourth = bytes[run.at + 3],
        _ => return false,
    }
    true
}

/// Output and row store: what the crate wrote, and the lent pattern elsewhere.
fn push_buffers(text: &mut String, output: &[u32], kept: Option<&[u8]>, store: usize) {
    let output = output.iter().enumerate();
    line::push_samples(text, output.map(|(i, s)| if *s == UNWRITTEN { line::lent_sample(i) } else { *s }));
    text.push(' ');
    let mut bytes = line::lent_bytes(store);
    if let Some(kept) = kept {
        bytes[..kept.len()].copy_from_slice(kept);
    }
    line::push_bytes(text, &bytes);
}

fn head(max_width: usize, max_height: usize, bytes: &[u8]) -> Answer {
    if max_width > LIMIT || max_height > LIMIT {
        return plain(NOT_COMPARABLE);
    }
    let (answer, taken, wide_fields) = crate_side::head(max_width, max_height, bytes);
    plain(match answer {
        _ if wide_fields => NOT_COMPARABLE.to_string(),
        Head::Panicked => PANICKED.to_string(),
        Head::Refused(number) => refusal(number, 0, " 0 0 0"),
        Head::Sizes { width, height } => format!("0 0 {width} {height} {taken}"),
    })
}

fn size(width: usize, height: usize) -> Answer {
    let shown = |size: Option<usize>| size.map_or("none".to_string(), |s| s.to_string());
    let output = shown(crate_side::output_buffer_size(width, height));
    plain(format!("{output} {}", shown(crate_side::expected_buffer_size(width, height))))
}

fn in_domain(width: usize, height: usize) -> bool {
    (1..=LIMIT).contains(&width) && (1..=LIMIT).contains(&height)
}

/// From samples: comparable where the crate's conversion and the documents' give the same bytes.
fn write(width: usize, height: usize, room: Option<usize>, samples: &[f32]) -> Answer {
    if !in_domain(width, height) || samples.len() != 3 * width * height {
        return plain(NOT_COMPARABLE);
    }
    let ours: Option<Vec<[u8; 4]>> = samples.chunks_exact(3).map(by_documents).collect();
    if ours.map(|pixels| pixels.concat()) != Some(crate_side::convert(samples)) {
        return plain(NOT_COMPARABLE);
    }
    written(width, height, room, samples)
}

/// From four-byte pixels: comparable where they are some samples' by the crate's own conversion.
fn write4(width: usize, height: usize, room: Option<usize>, bytes: &[u8]) -> Answer {
    if !in_domain(width, height) || bytes.len() != 4 * width * height {
        return plain(NOT_COMPARABLE);
    }
    let pixels: Option<Vec<[f32; 3]>> = bytes.chunks_exact(4).map(samples_for).collect();
    match pixels {
        Some(pixels) => written(width, height, room, &pixels.concat()),
        None => plain(NOT_COMPARABLE),
    }
}

/// The answer to `write4` or `len4` of the bytes that the crate's conversion gives for these samples.
pub fn written(width: usize, height: usize, room: Option<usize>, samples: &[f32]) -> Answer {
    let file = match crate_side::write(width, height, samples) {
        Written::File(file) => file,
        _ => return plain(PANICKED),
    };
    let Some(room) = room else {
        return plain(format!("0 0 {}", file.len()));
    };
    let mut bytes = line::lent_bytes(room);
    let mut text = if crate_side::write_into(width, height, samples, room).0 {
        bytes[..file.len()].copy_from_slice(&file);
        format!("0 0 {} ", file.len())
    } else {
        refusal(13, 0, " 0 ")
    };
    line::push_bytes(&mut text, &bytes);
    plain(text)
}

/// Samples that the crate's conversion turns into this pixel, if some near the middle of its steps are.
pub fn samples_for(pixel: &[u8]) -> Option<[f32; 3]> {
    if pixel == [0; 4] {
        return Some([0.0; 3]);
    }
    let step = (pixel[3] as f64 - 136.0).exp2();
    [0.5, 0.25, 0.75, 0.01, 0.99].iter().find_map(|part| {
        let sample = |m: u8| ((m as f64 + part) * step) as f32;
        let samples = [sample(pixel[0]), sample(pixel[1]), sample(pixel[2])];
        (crate_side::convert(&samples) == pixel).then_some(samples)
    })
}
