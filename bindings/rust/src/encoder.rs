//! Writing.

use crate::face::{self, Refusal};
use crate::memory::zeros;
use crate::HdrError;
use std::io::Write;

/// The width and the height of a frame.
#[derive(Clone, Copy, Debug, PartialEq, Eq)]
pub struct EncoderOptions {
    width: usize,
    height: usize,
}

impl EncoderOptions {
    /// A frame of that width and height.
    pub fn new(width: usize, height: usize) -> Self {
        EncoderOptions { width, height }
    }

    /// The width.
    pub fn width(&self) -> usize {
        self.width
    }

    /// The height.
    pub fn height(&self) -> usize {
        self.height
    }
}

#[derive(Clone, Copy, Debug)]
enum Frame<'a> {
    Samples(&'a [f32]),
    Pixels(&'a [u8]),
}

/// Writes a frame.
///
/// ```
/// use doorwhisp::{EncoderOptions, HdrEncoder};
///
/// let samples = [1.0, 0.5, 0.25];
/// let encoder = HdrEncoder::new(&samples, EncoderOptions::new(1, 1));
/// let mut file = Vec::new();
/// assert_eq!(encoder.encode(&mut file)?, 67);
/// assert!(file.ends_with(b"-Y 1 +X 1\n\x80\x40\x20\x81"));
/// # Ok::<(), doorwhisp::HdrError>(())
/// ```
#[derive(Clone, Copy, Debug)]
pub struct HdrEncoder<'a> {
    frame: Frame<'a>,
    options: EncoderOptions,
}

impl<'a> HdrEncoder<'a> {
    /// An encoder of samples, three to a pixel, row by row from the top.
    pub fn new(samples: &'a [f32], options: EncoderOptions) -> Self {
        HdrEncoder {
            frame: Frame::Samples(samples),
            options,
        }
    }

    /// An encoder of pixels that are four bytes already: three mantissas and the exponent byte. They are written as they
    /// are given, those that start 1, 1, 1 too: at widths 1 to 7 and over 32,767, where rows are flat, they are repeats
    /// when the file is read, and [`OldRun`](HdrError::OldRun) as zune-hdr reads.
    pub fn new_from_rgbe(pixels: &'a [u8], options: EncoderOptions) -> Self {
        HdrEncoder {
            frame: Frame::Pixels(pixels),
            options,
        }
    }

    /// The Rust crate's guess at the length of the file. Some files are longer: see [`worst_size`](Self::worst_size).
    pub fn expected_buffer_size(&self) -> Option<usize> {
        face::expected_buffer_size(self.options.width, self.options.height)
    }

    /// The length that no file of that width and height passes.
    pub fn worst_size(&self) -> Result<usize, HdrError> {
        let EncoderOptions { width, height } = self.options;
        face::worst(width, height).map_err(|refusal| self.refused(refusal))
    }

    /// How long the file is, to the byte.
    pub fn exact_size(&self) -> Result<usize, HdrError> {
        let EncoderOptions { width, height } = self.options;
        let length = match self.frame {
            Frame::Samples(samples) => face::samples_length(width, height, samples),
            Frame::Pixels(pixels) => face::pixels_length(width, height, pixels),
        };
        length.map_err(|refusal| self.refused(refusal))
    }

    /// How many numbers the frame has, and how many its sizes ask for.
    fn lengths(&self) -> (usize, usize) {
        let EncoderOptions { width, height } = self.options;
        let (found, to_a_pixel) = match self.frame {
            Frame::Samples(samples) => (samples.len(), 3),
            Frame::Pixels(pixels) => (pixels.len(), 4),
        };
        (found, to_a_pixel * width * height)
    }

    /// What the number of a refusal means here, but for 13.
    fn refused(&self, Refusal { number, place }: Refusal) -> HdrError {
        let EncoderOptions { width, height } = self.options;
        match number {
            7 => HdrError::NoWidth,
            10 => HdrError::OverLimit { width, height },
            11 => {
                let (found, wanted) = self.lengths();
                HdrError::WrongLength { found, wanted }
            }
            12 => HdrError::TooBright { pixel: place },
            _ => unreachable!("a frame is not refused by {number}"),
        }
    }

    /// Writes the file to a writer and flushes it, and answers the file's length. A refusal writes nothing.
    ///
    /// The file is made in memory first, as by [`encode_to_vec`](Self::encode_to_vec), so that the stack that is said
    /// there is needed.
    pub fn encode<W: Write>(&self, mut out: W) -> Result<usize, HdrError> {
        let file = self.encode_to_vec()?;
        out.write_all(&file)?;
        out.flush()?;
        Ok(file.len())
    }

    /// The file as a vector.
    ///
    /// Memory for the worst length is asked for, so that the length is not counted first; a frame that does not have
    /// the numbers that its sizes ask for is refused without any.
    ///
    /// Of samples, this and [`encode_into`](Self::encode_into) and [`exact_size`](Self::exact_size) hold a row of
    /// 131,072 bytes on the stack: a thread that calls them needs a stack of 160 KiB. The main thread and those of
    /// `std::thread` have far more.
    pub fn encode_to_vec(&self) -> Result<Vec<u8>, HdrError> {
        let worst = self.worst_size()?;
        let (found, wanted) = self.lengths();
        let mut file = zeros(if found == wanted { worst } else { 0 })?;
        let length = self.encode_into(&mut file)?;
        file.truncate(length);
        Ok(file)
    }

    /// Writes the file to the start of a buffer, and answers its length.
    pub fn encode_into(&self, out: &mut [u8]) -> Result<usize, HdrError> {
        let EncoderOptions { width, height } = self.options;
        let written = match self.frame {
            Frame::Samples(samples) => face::write_samples(width, height, samples, out),
            Frame::Pixels(pixels) => face::write_pixels(width, height, pixels, out),
        };
        written.or_else(|refusal| match refusal.number {
            13 => Err(HdrError::NoRoom {
                found: out.len(),
                wanted: self.exact_size()?,
            }),
            _ => Err(self.refused(refusal)),
        })
    }
}
