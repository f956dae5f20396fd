//! What goes wrong, by name.

use std::{error, fmt, io};

/// Why a call failed: by a refusal, which has a number, or for want of memory, or at a reader or writer
/// that was lent. Where the call knows what it found and what it wanted, both are told.
///
/// A failure changes none of the memory that was lent, but for [`BytesEnd`](Self::BytesEnd),
/// [`BrokenRow`](Self::BrokenRow) and [`OldRun`](Self::OldRun).
#[derive(Clone, Debug, PartialEq, Eq)]
#[non_exhaustive]
pub enum HdrError {
    /// 1: the first line is neither `#?RADIANCE` nor `#?RGBE`.
    FirstLine,
    /// 2: the axes are none of the eight pairs ([`Orientation`](crate::Orientation)); as the crate zune-hdr reads, they
    /// are neither `-Y h +X w` nor `+X w -Y h`.
    Axes,
    /// 3: the height or the width is no number below 2^64.
    Size,
    /// 4: the height is over the limit.
    TooHigh { limit: usize },
    /// 5: the width is over the limit.
    TooWide { limit: usize },
    /// 6: the output has fewer samples than the picture, which has three to a pixel.
    ShortOutput { found: usize, wanted: usize },
    /// 7: the width is 0.
    NoWidth,
    /// 8: the row store has fewer bytes than a stored row, which has four to a pixel.
    ShortStore { found: usize, wanted: usize },
    /// 9: the file ends within the stored row. Those before it are in their places in the output, the rest of the output
    /// is as it was lent.
    BytesEnd { row: usize },
    /// 10: the width or the height is over 65,535, which a file cannot be written in.
    OverLimit { width: usize, height: usize },
    /// 11: the frame has not three samples (or four bytes) to a pixel.
    WrongLength { found: usize, wanted: usize },
    /// 12: the pixel, counted row by row from 0, has a sample of 2^127 or more.
    TooBright { pixel: usize },
    /// 13: the file is longer than the output.
    NoRoom { found: usize, wanted: usize },
    /// 14, by the document: the stored row has a mark with another width than its length, a repeat with no pixel before
    /// it, or a count or a repeat that passes its end. Memory is as after [`BytesEnd`](Self::BytesEnd).
    BrokenRow { row: usize },
    /// 15, by the document: the header has a line `FORMAT=` that says neither `32-bit_rle_rgbe` nor `32-bit_rle_xyze`.
    UnknownFormat,
    /// 16, by the document: the header has a line `EXPOSURE=` that cannot be read (see
    /// [what a header says](crate#what-a-header-says)), or the exposure is or becomes zero or infinite.
    Exposure,
    /// 25, as the crate zune-hdr reads: the row is flat and has an old run, a pixel 1, 1, 1, n. Memory is as after
    /// [`BytesEnd`](Self::BytesEnd).
    OldRun { row: usize },
    /// Memory for so many bytes cannot be had.
    NoMemory { wanted: usize },
    /// The reader or the writer that was lent failed: how, and in its own words.
    Io { kind: io::ErrorKind, words: String },
}

impl HdrError {
    /// The number of the refusal, 1 to 16 or 25, if it is one.
    pub fn number(&self) -> Option<u8> {
        Some(match self {
            Self::FirstLine => 1,
            Self::Axes => 2,
            Self::Size => 3,
            Self::TooHigh { .. } => 4,
            Self::TooWide { .. } => 5,
            Self::ShortOutput { .. } => 6,
            Self::NoWidth => 7,
            Self::ShortStore { .. } => 8,
            Self::BytesEnd { .. } => 9,
            Self::OverLimit { .. } => 10,
            Self::WrongLength { .. } => 11,
            Self::TooBright { .. } => 12,
            Self::NoRoom { .. } => 13,
            Self::BrokenRow { .. } => 14,
            Self::UnknownFormat => 15,
            Self::Exposure => 16,
            Self::OldRun { .. } => 25,
            Self::NoMemory { .. } | Self::Io { .. } => return None,
        })
    }

    /// The row or the pixel that is named, from 0, if one is.
    pub fn place(&self) -> Option<usize> {
        match *self {
            Self::BytesEnd { row } | Self::BrokenRow { row } | Self::OldRun { row } => Some(row),
            Self::TooBright { pixel } => Some(pixel),
            _ => None,
        }
    }
}

impl fmt::Display for HdrError {
    fn fmt(&self, f: &mut fmt::Formatter<'_>) -> fmt::Result {
        if let Some(number) = self.number() {
            write!(f, "refusal {number}: ")?;
        }
        match self {
            Self::FirstLine => write!(f, "this is no Radiance file, its first line is wrong"),
            Self::Axes => write!(
                f,
                "the line of sizes does not name a pair of axes that is read"
            ),
            Self::Size => write!(f, "the file does not say its height and width in numbers"),
            Self::TooHigh { limit } => write!(f, "the picture is higher than {limit}"),
            Self::TooWide { limit } => write!(f, "the picture is wider than {limit}"),
            Self::ShortOutput { found, wanted } => {
                write!(f, "the picture has {wanted} samples, the output {found}")
            }
            Self::NoWidth => write!(f, "the picture has no width"),
            Self::ShortStore { found, wanted } => {
                write!(f, "a row has {wanted} bytes, the row store {found}")
            }
            Self::BytesEnd { row } => write!(f, "the file ends in row {row}"),
            Self::OverLimit { width, height } => {
                write!(
                    f,
                    "a picture of {width} by {height} is over 65535 wide or high"
                )
            }
            Self::WrongLength { found, wanted } => {
                write!(
                    f,
                    "the frame has {found} numbers, its sizes ask for {wanted}"
                )
            }
            Self::TooBright { pixel } => write!(f, "pixel {pixel} is too bright for the format"),
            Self::NoRoom { found, wanted } => {
                write!(f, "the file has {wanted} bytes, the output {found}")
            }
            Self::BrokenRow { row } => write!(
                f,
                "row {row} is broken, its width or a count or a repeat in it is wrong"
            ),
            Self::UnknownFormat => write!(f, "the file states a FORMAT that is not known"),
            Self::Exposure => write!(
                f,
                "the file states an EXPOSURE that is no number, or is or becomes zero or infinite"
            ),
            Self::OldRun { row } => write!(
                f,
                "row {row} has an old run, a pixel 1, 1, 1, n, which is not read"
            ),
            Self::NoMemory { wanted } => write!(f, "memory for {wanted} bytes cannot be had"),
            Self::Io { words, .. } => f.write_str(words),
        }
    }
}

impl error::Error for HdrError {}

impl From<io::Error> for HdrError {
    fn from(error: io::Error) -> Self {
        HdrError::Io {
            kind: error.kind(),
            words: error.to_string(),
        }
    }
}
