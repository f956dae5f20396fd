//! The calls as they are linked (`include/doorwhisp.h`), each behind a safe function.

use crate::{Colour, HdrError, Orientation, Reading};
use std::mem::size_of;

/// What a call answers, as it fills it: the refusal's number or 0, its place or 0, and six values. A call that answers
/// one count answers it in `taken`.
#[derive(Clone, Copy, Debug, Default)]
#[repr(C)]
struct Answer {
    refusal: u64,
    place: u64,
    width: u64,
    height: u64,
    taken: u64,
    /// The kind of colour: 1 rgbe, 2 xyze, 0 not stated.
    colour: u64,
    /// The bit pattern of the exposure, 0 not stated.
    exposure: u64,
    /// The orientation, 1 to 8; 0 where a call answers one count.
    orientation: u64,
}

const _: () = assert!(size_of::<Answer>() == 64);

#[rustfmt::skip]
extern "C" {
    fn doorwhisp_read_header(bytes: *const u8, bytes_length: usize, widest: usize, highest: usize, answer: &mut Answer);
    fn doorwhisp_read_document_header(
        bytes: *const u8, bytes_length: usize, widest: usize, highest: usize, answer: &mut Answer,
    );
    fn doorwhisp_read(
        bytes: *const u8, bytes_length: usize, widest: usize, highest: usize,
        out: *mut f32, out_length: usize, store: *mut u8, store_length: usize, answer: &mut Answer,
    );
    fn doorwhisp_read_document(
        bytes: *const u8, bytes_length: usize, widest: usize, highest: usize,
        out: *mut f32, out_length: usize, store: *mut u8, store_length: usize, answer: &mut Answer,
    );
    fn doorwhisp_output_buffer_size(width: usize, height: usize, answer: &mut Answer);
    fn doorwhisp_length(width: usize, height: usize, samples: *const f32, samples_length: usize, answer: &mut Answer);
    fn doorwhisp_length4(width: usize, height: usize, pixels: *const u8, pixels_length: usize, answer: &mut Answer);
    fn doorwhisp_worst(width: usize, height: usize, answer: &mut Answer);
    fn doorwhisp_write(
        width: usize, height: usize, samples: *const f32, samples_length: usize,
        out: *mut u8, out_length: usize, answer: &mut Answer,
    );
    fn doorwhisp_write4(
        width: usize, height: usize, pixels: *const u8, pixels_length: usize,
        out: *mut u8, out_length: usize, answer: &mut Answer,
    );
    fn doorwhisp_expected_buffer_size(width: usize, height: usize, answer: &mut Answer);
    fn doorwhisp_pixel_from_bytes(r: u8, g: u8, b: u8, e: u8, samples: &mut [f32; 3]);
    fn doorwhisp_document_pixel_from_bytes(r: u8, g: u8, b: u8, e: u8, samples: &mut [f32; 3]);
    fn doorwhisp_pixel_to_bytes(r: f32, g: f32, b: f32, bytes: &mut [u8; 4]) -> u8;
}

/// Width, height, how many bytes were taken, what the header states, and how the stored rows lie.
#[derive(Clone, Copy, Debug)]
pub struct Head {
    pub width: usize,
    pub height: usize,
    pub taken: usize,
    pub colour: Option<Colour>,
    pub exposure: Option<f32>,
    pub orientation: Orientation,
}

impl Head {
    /// How many pixels a stored row has, and how many stored rows there are.
    pub fn stored(&self) -> (usize, usize) {
        if self.orientation.is_by_columns() {
            (self.height, self.width)
        } else {
            (self.width, self.height)
        }
    }
}

/// The number of a refusal, and its row or pixel or 0.
#[derive(Clone, Copy, Debug)]
pub struct Refusal {
    pub number: u64,
    pub place: usize,
}

/// The kind of colour that a number is, if it is one's.
fn colour(number: u64) -> Option<Colour> {
    match number {
        1 => Some(Colour::Rgbe),
        2 => Some(Colour::Xyze),
        _ => None,
    }
}

/// What a call answers, or its refusal.
fn answered(call: impl FnOnce(&mut Answer)) -> Result<Answer, Refusal> {
    let mut answer = Answer::default();
    call(&mut answer);
    match answer.refusal {
        0 => Ok(answer),
        number => Err(Refusal {
            number,
            place: answer.place as usize,
        }),
    }
}

/// The sizes, the count, what is stated and how the rows lie, or the refusal.
fn head(call: impl FnOnce(&mut Answer)) -> Result<Head, Refusal> {
    answered(call).map(|answer| Head {
        width: answer.width as usize,
        height: answer.height as usize,
        taken: answer.taken as usize,
        colour: colour(answer.colour),
        exposure: (answer.exposure != 0).then(|| f32::from_bits(answer.exposure as u32)),
        orientation: Orientation::ALL[answer.orientation as usize - 1],
    })
}

/// The count alone, or the refusal.
fn length(call: impl FnOnce(&mut Answer)) -> Result<usize, Refusal> {
    answered(call).map(|answer| answer.taken as usize)
}

/// The count, unless there is none.
fn amount(call: impl FnOnce(&mut Answer)) -> Option<usize> {
    length(call).ok()
}

// Each slice below is handed over as its pointer, which is never null, and its length; the call keeps neither.

#[rustfmt::skip]
pub fn read_header(reading: Reading, bytes: &[u8], widest: usize, highest: usize) -> Result<Head, Refusal> {
    let call = match reading {
        Reading::Crate => doorwhisp_read_header,
        Reading::Document => doorwhisp_read_document_header,
    };
    head(|answer| unsafe { call(bytes.as_ptr(), bytes.len(), widest, highest, answer) })
}

#[rustfmt::skip]
pub fn read(
    reading: Reading, bytes: &[u8], widest: usize, highest: usize, out: &mut [f32], store: &mut [u8],
) -> Result<Head, Refusal> {
    let call = match reading {
        Reading::Crate => doorwhisp_read,
        Reading::Document => doorwhisp_read_document,
    };
    head(|answer| unsafe {
        call(
            bytes.as_ptr(), bytes.len(), widest, highest,
            out.as_mut_ptr(), out.len(), store.as_mut_ptr(), store.len(), answer,
        )
    })
}

pub fn output_buffer_size(width: usize, height: usize) -> Option<usize> {
    amount(|answer| unsafe { doorwhisp_output_buffer_size(width, height, answer) })
}

pub fn samples_length(width: usize, height: usize, samples: &[f32]) -> Result<usize, Refusal> {
    length(|answer| unsafe {
        doorwhisp_length(width, height, samples.as_ptr(), samples.len(), answer)
    })
}

pub fn pixels_length(width: usize, height: usize, pixels: &[u8]) -> Result<usize, Refusal> {
    length(|answer| unsafe {
        doorwhisp_length4(width, height, pixels.as_ptr(), pixels.len(), answer)
    })
}

pub fn worst(width: usize, height: usize) -> Result<usize, Refusal> {
    length(|answer| unsafe { doorwhisp_worst(width, height, answer) })
}

#[rustfmt::skip]
pub fn write_samples(width: usize, height: usize, samples: &[f32], out: &mut [u8]) -> Result<usize, Refusal> {
    length(|answer| unsafe {
        doorwhisp_write(
            width, height, samples.as_ptr(), samples.len(),
            out.as_mut_ptr(), out.len(), answer,
        )
    })
}

#[rustfmt::skip]
pub fn write_pixels(width: usize, height: usize, pixels: &[u8], out: &mut [u8]) -> Result<usize, Refusal> {
    length(|answer| unsafe {
        doorwhisp_write4(
            width, height, pixels.as_ptr(), pixels.len(),
            out.as_mut_ptr(), out.len(), answer,
        )
    })
}

pub fn expected_buffer_size(width: usize, height: usize) -> Option<usize> {
    amount(|answer| unsafe { doorwhisp_expected_buffer_size(width, height, answer) })
}

/// The three samples of a four-byte pixel, three mantissas and the exponent byte, by [`Reading::Crate`].
pub fn pixel_from_bytes([r, g, b, e]: [u8; 4]) -> [f32; 3] {
    let mut samples = [0.0; 3];
    unsafe { doorwhisp_pixel_from_bytes(r, g, b, e, &mut samples) };
    samples
}

/// The three samples of a four-byte pixel by [`Reading::Document`].
pub fn document_pixel_from_bytes([r, g, b, e]: [u8; 4]) -> [f32; 3] {
    let mut samples = [0.0; 3];
    unsafe { doorwhisp_document_pixel_from_bytes(r, g, b, e, &mut samples) };
    samples
}

/// The four bytes that three samples are written as, or that they are too bright.
pub fn pixel_to_bytes([r, g, b]: [f32; 3]) -> Result<[u8; 4], HdrError> {
    let mut bytes = [0; 4];
    match unsafe { doorwhisp_pixel_to_bytes(r, g, b, &mut bytes) } {
        0 => Ok(bytes),
        _ => Err(HdrError::TooBright { pixel: 0 }),
    }
}
