//! The crate's reader and writer, run as they stand, with what they do not show: the bytes taken,
//! the row store and the row of an error.

mod store;

use std::panic::{catch_unwind, AssertUnwindSafe};
use zune_core::bit_depth::BitDepth;
use zune_core::bytestream::{Room, ZCursor};
use zune_core::colorspace::ColorSpace;
use zune_core::options::{DecoderOptions, EncoderOptions};
use zune_core::trail;
use zune_hdr::{HdrDecodeErrors, HdrDecoder, HdrEncodeErrors, HdrEncoder};

/// A sample that no reading gives: the output is filled with it beforehand.
pub const UNWRITTEN: u32 = 0x7fc0_dead;

/// How the stand-in was used at the end of the bytes.
#[derive(Clone, Copy, Default, PartialEq, Eq, Debug)]
pub struct AtEnd {
    pub made_up: usize,
    pub refused: usize,
    pub rewound_nothing: usize,
}

/// What became of a header.
pub enum Head {
    Panicked,
    Refused(u32),
    Sizes { width: usize, height: usize },
}

/// What became of a picture: a refusal with its row, or the sizes.
pub enum Read {
    Panicked,
    /// The output is not whole rows, then untouched ones.
    Torn,
    Refused {
        number: u32,
        row: usize,
    },
    Sizes {
        width: usize,
        height: usize,
    },
}

/// A reading, with all that can be seen of it.
pub struct Reading {
    pub answer: Read,
    pub taken: usize,
    /// The bit patterns of the output, `UNWRITTEN` where nothing was written.
    pub output: Vec<u32>,
    /// The row store when the Rust gave it back; none if it made none.
    pub store: Option<Vec<u8>>,
    /// A byte of the four size fields is 128 or more.
    pub wide_fields: bool,
    pub at_end: AtEnd,
}

/// Chooses what the stand-in does with a rewind after a read that took nothing.
pub fn choose_rewind_always_moves(choice: bool) {
    trail::with(|t| t.rewind_always_moves.set(choice));
}

fn options(max_width: usize, max_height: usize) -> DecoderOptions {
    DecoderOptions::default().set_max_width(max_width).set_max_height(max_height)
}

fn number(error: &HdrDecodeErrors) -> u32 {
    match error {
        HdrDecodeErrors::InvalidMagicBytes => 1,
        HdrDecodeErrors::UnsupportedOrientation(..) => 2,
        HdrDecodeErrors::ParseError(_) => 3,
        HdrDecodeErrors::TooLargeDimensions("height", ..) => 4,
        HdrDecodeErrors::TooLargeDimensions(..) => 5,
        HdrDecodeErrors::TooSmallOutputArray(..) => 6,
        HdrDecodeErrors::Generic(_) => 7,
        HdrDecodeErrors::IoErrors(_) => 9,
    }
}

/// The header's answer, the bytes taken, and whether a size field has a byte of 128 or more.
pub fn head(max_width: usize, max_height: usize, bytes: &[u8]) -> (Head, usize, bool) {
    let mut decoder = HdrDecoder::new_with_options(ZCursor::new(bytes), options(max_width, max_height));
    let done = catch_unwind(AssertUnwindSafe(|| decoder.decode_headers()));
    let answer = match done {
        Err(_) => Head::Panicked,
        Ok(Err(error)) => Head::Refused(number(&error)),
        Ok(Ok(())) => {
            let (width, height) = decoder.dimensions().unwrap();
            Head::Sizes { width, height }
        }
    };
    (answer, trail::with(|t| t.taken.get()), wide_fields(bytes))
}

/// The fields are the last four parts of the header; the first line and one more come before them.
fn wide_fields(bytes: &[u8]) -> bool {
    trail::with(|t| {
        let asked = t.asked.borrow();
        asked.len() >= 12 && bytes[asked[asked.len() - 8]..asked[asked.len() - 1]].iter().any(|b| *b >= 128)
    })
}

/// Reads a picture into an output of the given length.
pub fn read(max_width: usize, max_height: usize, length: usize, bytes: &[u8]) -> Reading {
    let mut decoder = HdrDecoder::new_with_options(ZCursor::new(bytes), options(max_width, max_height));
    let mut output = vec![f32::from_bits(UNWRITTEN); length];
    let mut store = None;
    let mut sizes = (0, 0);
    let done = catch_unwind(AssertUnwindSafe(|| {
        decoder.decode_headers()?;
        sizes = decoder.dimensions().unwrap();
        store::watch(sizes.0 * 4);
        let done = decoder.decode_into(&mut output);
        store = store::given_back();
        done
    }));
    let output: Vec<u32> = output.iter().map(|s| s.to_bits()).collect();
    let rows = whole_rows(&output, sizes);
    let answer = match (done, rows) {
        (Err(_), _) => Read::Panicked,
        (Ok(_), None) => Read::Torn,
        (Ok(Ok(())), Some(row)) if row < sizes.1 => Read::Torn,
        (Ok(Ok(())), _) => Read::Sizes { width: sizes.0, height: sizes.1 },
        (Ok(Err(error)), Some(row)) => Read::Refused { number: number(&error), row },
    };
    let at_end =
        trail::with(|t| AtEnd { made_up: t.made_up.get(), refused: t.refused.get(), rewound_nothing: t.rewound_nothing.get() });
    Reading { answer, taken: trail::with(|t| t.taken.get()), output, store, wide_fields: wide_fields(bytes), at_end }
}

/// The number of written rows, if what was written is whole rows from the top and nothing else.
fn whole_rows(output: &[u32], (width, height): (usize, usize)) -> Option<usize> {
    let written = output.iter().take_while(|s| **s != UNWRITTEN).count();
    let rows = if width == 0 { 0 } else { written / (3 * width) };
    let whole = rows * 3 * width == written && rows <= height;
    (whole && output[written..].iter().all(|s| *s == UNWRITTEN)).then_some(rows)
}

fn encoder<'a>(samples: &'a [f32], width: usize, height: usize) -> HdrEncoder<'a> {
    HdrEncoder::new(samples, EncoderOptions::new(width, height, ColorSpace::RGB, BitDepth::Float32))
}

/// What the Rust's writer did.
pub enum Written {
    Panicked,
    WrongCount,
    NoRoom,
    Other,
    File(Vec<u8>),
}

/// Writes a picture with no bound on its length.
pub fn write(width: usize, height: usize, samples: &[f32]) -> Written {
    let mut file = Vec::new();
    match catch_unwind(AssertUnwindSafe(|| encoder(samples, width, height).encode(&mut file))) {
        Err(_) => Written::Panicked,
        Ok(Err(error)) => refusal(&error),
        Ok(Ok(length)) => {
            assert_eq!(length, file.len());
            Written::File(file)
        }
    }
}

fn refusal(error: &HdrEncodeErrors) -> Written {
    match error {
        HdrEncodeErrors::WrongInputSize(..) => Written::WrongCount,
        HdrEncodeErrors::IoErrors(_) => Written::NoRoom,
        _ => Written::Other,
    }
}

/// Writes a picture into room of a given size: whether it fits, and the bytes that were written there.
pub fn write_into(width: usize, height: usize, samples: &[f32], size: usize) -> (bool, usize) {
    let mut room = Room { size, used: 0 };
    let fits = encoder(samples, width, height).encode(&mut room).is_ok();
    (fits, room.used)
}

/// The four-byte pixels of the Rust's own conversion: a picture of width 1 is flat, so they stand in it as they are.
pub fn convert(samples: &[f32]) -> Vec<u8> {
    let count = samples.len() / 3;
    let mut file = Vec::new();
    encoder(samples, 1, count).encode(&mut file).expect("a picture of width 1 is written");
    file.split_off(file.len() - 4 * count)
}

/// `output_buffer_size` of a picture with these sizes.
pub fn output_buffer_size(width: usize, height: usize) -> Option<usize> {
    let header = format!("#?RGBE\n\n-Y {height} +X {width}\n");
    let mut decoder = HdrDecoder::new_with_options(ZCursor::new(header.as_bytes()), options(usize::MAX, usize::MAX));
    decoder.decode_headers().expect("a good header");
    decoder.output_buffer_size()
}

/// `expected_buffer_size` of a picture with these sizes.
pub fn expected_buffer_size(width: usize, height: usize) -> Option<usize> {
    encoder(&[], width, height).expected_buffer_size()
}
