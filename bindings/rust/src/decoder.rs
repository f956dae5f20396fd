//! Reading.

use crate::face::{self, Head, Refusal};
use crate::memory::zeros;
use crate::{HdrError, Orientation};
use std::borrow::Cow;
use std::io::Read;

/// The largest limit that counts.
const LARGEST: usize = 65_535;

/// Which picture a file is: see [the readings](crate#the-readings).
#[derive(Clone, Copy, Debug, Default, PartialEq, Eq)]
pub enum Reading {
    /// The one that the crate zune-hdr 0.5.2 gives.
    #[default]
    Crate,
    /// The one that the Radiance documents tell of.
    Document,
}

/// The kinds of colour that a header states: what the three samples of a pixel are.
#[derive(Clone, Copy, Debug, PartialEq, Eq)]
pub enum Colour {
    /// Red, green and blue: `FORMAT=32-bit_rle_rgbe`.
    Rgbe,
    /// X, Y and Z: `FORMAT=32-bit_rle_xyze`.
    Xyze,
}

/// The largest width and height that are read, and the reading.
#[derive(Clone, Copy, Debug, PartialEq, Eq)]
pub struct DecoderOptions {
    max_width: usize,
    max_height: usize,
    reading: Reading,
}

impl Default for DecoderOptions {
    /// 65,535 for both sizes, the largest limit that counts; and zune-hdr's reading.
    fn default() -> Self {
        DecoderOptions {
            max_width: LARGEST,
            max_height: LARGEST,
            reading: Reading::Crate,
        }
    }
}

impl DecoderOptions {
    /// The largest width.
    pub fn max_width(&self) -> usize {
        self.max_width
    }

    /// The largest height.
    pub fn max_height(&self) -> usize {
        self.max_height
    }

    /// The reading.
    pub fn reading(&self) -> Reading {
        self.reading
    }

    /// The same with another largest width; above 65,535 it counts as 65,535.
    pub fn set_max_width(mut self, limit: usize) -> Self {
        self.max_width = limit;
        self
    }

    /// The same with another largest height; above 65,535 it counts as 65,535.
    pub fn set_max_height(mut self, limit: usize) -> Self {
        self.max_height = limit;
        self
    }

    /// The same with another reading.
    ///
    /// ```
    /// use doorwhisp::{DecoderOptions, HdrDecoder, HdrError, Reading};
    ///
    /// // a pixel, and an old run that repeats it twice; at exponent byte 136 a step is 1
    /// let file = b"#?RADIANCE\n\n-Y 1 +X 3\n\x08\x04\x02\x88\x01\x01\x01\x02";
    /// let options = DecoderOptions::default().set_reading(Reading::Document);
    /// let mut decoder = HdrDecoder::new_with_options(file, options);
    /// assert_eq!(decoder.decode()?, [8.5, 4.5, 2.5].repeat(3));
    /// assert_eq!(HdrDecoder::new(file).decode(), Err(HdrError::OldRun { row: 0 }));
    /// # Ok::<(), doorwhisp::HdrError>(())
    /// ```
    pub fn set_reading(mut self, reading: Reading) -> Self {
        self.reading = reading;
        self
    }
}

/// Reads a file that is in memory.
///
/// ```
/// use doorwhisp::HdrDecoder;
///
/// let file = b"#?RADIANCE\n\n-Y 1 +X 1\n\x80\x40\x20\x81";
/// let mut decoder = HdrDecoder::new(file);
/// decoder.decode_headers()?;
/// assert_eq!(decoder.dimensions(), Some((1, 1)));
/// assert_eq!(decoder.decode()?, [1.0, 0.5, 0.25]);
/// # Ok::<(), doorwhisp::HdrError>(())
/// ```
#[derive(Clone, Debug)]
pub struct HdrDecoder<'a> {
    bytes: Cow<'a, [u8]>,
    options: DecoderOptions,
    head: Option<Head>,
}

impl HdrDecoder<'static> {
    /// A decoder of all that a reader gives until its end, with no limits but 65,535. It is kept in memory: lend
    /// `reader.take(n)` where there may be too much of it.
    ///
    /// ```no_run
    /// use doorwhisp::HdrDecoder;
    ///
    /// let samples = HdrDecoder::from_reader(std::fs::File::open("dusk.hdr")?)?.decode()?;
    /// # Ok::<(), doorwhisp::HdrError>(())
    /// ```
    pub fn from_reader<R: Read>(reader: R) -> Result<Self, HdrError> {
        Self::from_reader_with_options(reader, DecoderOptions::default())
    }

    /// The same with options.
    pub fn from_reader_with_options<R: Read>(
        mut reader: R,
        options: DecoderOptions,
    ) -> Result<Self, HdrError> {
        let mut bytes = Vec::new();
        reader.read_to_end(&mut bytes)?;
        Ok(HdrDecoder {
            bytes: Cow::Owned(bytes),
            options,
            head: None,
        })
    }
}

impl<'a> HdrDecoder<'a> {
    /// A decoder of the bytes, with no limits but 65,535.
    pub fn new<B: AsRef<[u8]> + ?Sized>(bytes: &'a B) -> Self {
        Self::new_with_options(bytes, DecoderOptions::default())
    }

    /// A decoder of the bytes, with options.
    pub fn new_with_options<B: AsRef<[u8]> + ?Sized>(
        bytes: &'a B,
        options: DecoderOptions,
    ) -> Self {
        HdrDecoder {
            bytes: Cow::Borrowed(bytes.as_ref()),
            options,
            head: None,
        }
    }

    /// Reads the header, unless it was read.
    pub fn decode_headers(&mut self) -> Result<(), HdrError> {
        self.head = Some(self.read_header()?);
        Ok(())
    }

    /// The header that was read, or that is read now.
    fn read_header(&self) -> Result<Head, HdrError> {
        if let Some(head) = self.head {
            return Ok(head);
        }
        let DecoderOptions {
            max_width,
            max_height,
            reading,
        } = self.options;
        face::read_header(reading, &self.bytes, max_width, max_height).map_err(
            |Refusal { number, .. }| match number {
                1 => HdrError::FirstLine,
                15 => HdrError::UnknownFormat,
                16 => HdrError::Exposure,
                2 => HdrError::Axes,
                3 => HdrError::Size,
                4 => HdrError::TooHigh {
                    limit: max_height.min(LARGEST),
                },
                5 => HdrError::TooWide {
                    limit: max_width.min(LARGEST),
                },
                _ => unreachable!("a header is not refused by {number}"),
            },
        )
    }

    /// Width and height, once the header was read.
    pub fn dimensions(&self) -> Option<(usize, usize)> {
        self.head.map(|head| (head.width, head.height))
    }

    /// How many bytes the header takes, once it was read.
    pub fn header_size(&self) -> Option<usize> {
        self.head.map(|head| head.taken)
    }

    /// The kind of colour that the header states, once it was read by [`Reading::Document`], if it states one.
    ///
    /// ```
    /// use doorwhisp::{Colour, DecoderOptions, HdrDecoder, Reading};
    ///
    /// let file = b"#?RADIANCE\nFORMAT=32-bit_rle_xyze\nEXPOSURE=2\nEXPOSURE=1.5\n\n-Y 1 +X 1\n\x08\x04\x02\x88";
    /// let options = DecoderOptions::default().set_reading(Reading::Document);
    /// let mut decoder = HdrDecoder::new_with_options(file, options);
    /// assert_eq!(decoder.decode()?, [8.5, 4.5, 2.5]);
    /// assert_eq!(decoder.colour(), Some(Colour::Xyze));
    /// assert_eq!(decoder.exposure(), Some(3.0));
    /// # Ok::<(), doorwhisp::HdrError>(())
    /// ```
    pub fn colour(&self) -> Option<Colour> {
        self.head?.colour
    }

    /// The exposure that the header states, once it was read by [`Reading::Document`], if it states one: above 0 and
    /// finite. Samples are not divided by it.
    pub fn exposure(&self) -> Option<f32> {
        self.head?.exposure
    }

    /// How the file's rows lie in the picture, once the header was read. By [`Reading::Crate`] it is always
    /// [`Orientation::MinusYPlusX`], whichever axis the header names first. By [`Reading::Document`] the samples are those
    /// of the upright picture, whatever it is.
    ///
    /// ```
    /// use doorwhisp::{DecoderOptions, HdrDecoder, Orientation, Reading};
    ///
    /// // two columns of one pixel, the right one first; at exponent byte 136 a step is 1
    /// let file = b"#?RADIANCE\n\n-X 2 -Y 1\n\x08\x08\x08\x88\x09\x09\x09\x88";
    /// let options = DecoderOptions::default().set_reading(Reading::Document);
    /// let mut decoder = HdrDecoder::new_with_options(file, options);
    /// assert_eq!(decoder.decode()?, [9.5, 9.5, 9.5, 8.5, 8.5, 8.5]);
    /// assert_eq!(decoder.orientation(), Some(Orientation::MinusXMinusY));
    /// assert_eq!(decoder.orientation().unwrap().to_string(), "-X -Y");
    /// # Ok::<(), doorwhisp::HdrError>(())
    /// ```
    pub fn orientation(&self) -> Option<Orientation> {
        self.head.map(|head| head.orientation)
    }

    /// How many samples the picture has, once the header was read.
    pub fn output_buffer_size(&self) -> Option<usize> {
        let head = self.head?;
        face::output_buffer_size(head.width, head.height)
    }

    /// How many bytes the row store of [`decode_with`](Self::decode_with) needs, once the header was read: four for each
    /// pixel of a stored row, which is a column of the picture where the header names X first.
    pub fn row_store_size(&self) -> Option<usize> {
        self.head.map(|head| 4 * head.stored().0)
    }

    /// The samples, three to a pixel, row by row from the top and each row from the left.
    ///
    /// Memory for all of them is asked for first, and where it cannot be had, that is the error. Where the file cannot
    /// hold all its rows, it is asked for those that it may hold and one more, in which it is refused at the latest: so
    /// it is never more than 191 times the file's length, and a row. A file of 136 MB can hold 32,767 by 65,535
    /// pixels, 26 GB of samples: set limits for files that are not your own.
    ///
    /// By [`Reading::Document`] a pixel and two repeats, 12 bytes, can be a row of 65,535. Then it is never more than
    /// 65,535 times the file's length, and a row; and a file of 786 KB can hold 65,535 by 65,535 pixels, 52 GB.
    pub fn decode(&mut self) -> Result<Vec<f32>, HdrError> {
        self.decode_headers()?;
        let head = self.read_header()?;
        let (row, rows) = head.stored();
        let left = &self.bytes[head.taken..];
        let most = most_rows(self.options.reading, row, left.len());
        if most < rows {
            return Err(refusal_within(self.options.reading, row, most + 1, left));
        }
        let mut samples = zeros(3 * head.width * head.height)?;
        self.decode_into(&mut samples)?;
        Ok(samples)
    }

    /// Reads the samples into the start of the buffer, and answers how many bytes the file took.
    pub fn decode_into(&mut self, buffer: &mut [f32]) -> Result<usize, HdrError> {
        self.decode_headers()?;
        let mut store = zeros(4 * self.read_header()?.stored().0)?;
        self.decode_with(buffer, &mut store)
    }

    /// The same by way of a row store that is lent, so that no memory is asked for.
    pub fn decode_with(&self, buffer: &mut [f32], store: &mut [u8]) -> Result<usize, HdrError> {
        let head = self.read_header()?;
        let DecoderOptions {
            max_width,
            max_height,
            reading,
        } = self.options;
        let read = face::read(reading, &self.bytes, max_width, max_height, buffer, store);
        read.map(|head| head.taken)
            .map_err(|Refusal { number, place }| match number {
                6 => HdrError::ShortOutput {
                    found: buffer.len(),
                    wanted: 3 * head.width * head.height,
                },
                7 => HdrError::NoWidth,
                8 => HdrError::ShortStore {
                    found: store.len(),
                    wanted: 4 * head.stored().0,
                },
                9 => HdrError::BytesEnd { row: place },
                14 => HdrError::BrokenRow { row: place },
                25 => HdrError::OldRun { row: place },
                _ => unreachable!("a file with a sound header is not refused by {number}"),
            })
    }
}

/// Why a file is refused within its first stored rows, which the bytes behind its header cannot hold: they are read
/// alone, under a header that says so many.
fn refusal_within(reading: Reading, row: usize, rows: usize, bytes: &[u8]) -> HdrError {
    let mut file = format!("#?RGBE\n\n-Y {rows} +X {row}\n").into_bytes();
    file.extend_from_slice(bytes);
    let options = DecoderOptions::default().set_reading(reading);
    let mut decoder = HdrDecoder::new_with_options(&file, options);
    let read =
        zeros(3 * row * rows).and_then(|mut samples: Vec<f32>| decoder.decode_into(&mut samples));
    read.expect_err("fewer bytes than rows take at least hold no picture")
}

/// How many stored rows of a width so many bytes may hold, as proved of the reader (`crates/kept/specs/Least.antt`).
fn most_rows(reading: Reading, width: usize, bytes: usize) -> usize {
    match (reading, width) {
        (_, 0) => usize::MAX,
        (Reading::Crate, 8..=32_767) => (bytes + 1) / (4 + 8 * ((width + 125) / 127)),
        (Reading::Crate, _) => bytes / (4 * width),
        (Reading::Document, 1) => bytes / 4,
        (Reading::Document, 2..=256) => bytes / 8,
        (Reading::Document, _) => bytes / 12,
    }
}
