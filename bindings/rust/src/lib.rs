//! Radiance HDR pictures, read and written by code that is proved to do what its definitions say, on every input.
//!
//! The names are those of the crate zune-hdr where it has one for the same thing. A file and a frame are in memory;
//! samples are `f32`, three to a pixel, row by row from the top and each row from the left.
//!
//! - No call keeps what it is lent, none has state, and threads need no lock.
//! - Encoding samples uses 131,072 bytes of stack and a little more.
//! - What the archive does to decode has no float divide and no square root.
//! - What fails is an [`HdrError`], with the number of the refusal and, where there is one, its row or pixel.
//!
//! # The readings
//!
//! There are two, and [`DecoderOptions::set_reading`] chooses. [`Reading::Document`] reads by the Radiance documents:
//!
//! - Light is (2m + 1) * 2^(E-137) at every exponent byte E from 1 to 255, the middle of its step, as Radiance's own
//!   library shows it. 0 is black; a mantissa of 0 at another exponent byte is half a step of grey.
//! - A pixel 1, 1, 1, n in a flat row, an old run, repeats the pixel before it n * 256^k times, where k repeats stand
//!   directly ahead of it.
//! - A row that is none of the document's is refusal 14: one with a mark whose width is not the row's length, a repeat
//!   with no pixel before it in its row, or a count or a repeat that passes the row's end.
//! - A file that is cut in a row is refused by 9 in that row, wherever the cut is.
//! - The picture comes upright from each of the eight orientations ([`Orientation`]). The first axis that the header
//!   names runs from row to row as they are stored, the second along such a row: `+X w -Y h` is w stored rows of h
//!   pixels, each a column of the picture. It is the stored row that a mark names the width of, that is coded at 8 to
//!   32,767 pixels, that the row store holds, and that 9 and 14 name; those before it are then in their places in the
//!   output. A height of 0 is a picture without pixels, and a width of 0 is refusal 7, wherever they are named.
//! - The header's lines `FORMAT=` and `EXPOSURE=` are told, as [below](#what-a-header-says). One that cannot be read is
//!   refusal 15 or 16.
//!
//! [`Reading::Crate`], which is used where none is chosen, reads as zune-hdr 0.5.2 does:
//!
//! - Light is half a step below the document's at the exponent bytes 97 to 159, the lower edge of its step. At 1 to 96
//!   it is shown too bright, at 160 to 255 too dark, by 2^32 or a power of it. 0 is black, and so is a mantissa of 0 at
//!   every exponent byte.
//! - Of the cuts in a row, those among the bytes of the file's last count are not refused: where the last row is coded
//!   and the file ends after its last count, the exponent bytes that are missing, 128 at most, are read as 0, and those
//!   pixels are black. Every other cut in a row is refusal 9.
//! - The mark's width is not compared with the header's, and a count that passes the row's end stops there.
//! - A flat row with an old run is refusal 25: zune-hdr's way with them gives other pixels than the document's.
//! - The header's lines are passed over, whatever they say: the kind of colour and the exposure are not stated.
//! - `+X w -Y h` is read row by row, as `-Y h +X w` is, though by the document it lies column by column. The six other
//!   orientations are refusal 2.
//!
//! In both
//!
//! - samples are as they are stored: they are not divided by the exposure, and those of a file that states
//!   `32-bit_rle_xyze` are X, Y and Z;
//! - the format has no checksum: damage that leaves rows of either kind is read as some other picture.
//!
//! # What a header says
//!
//! By [`Reading::Document`], in the lines between its first and the blank one
//! ([`HdrDecoder::colour`], [`HdrDecoder::exposure`]):
//!
//! - `FORMAT=32-bit_rle_rgbe` and `FORMAT=32-bit_rle_xyze` say the kind of colour, and the last such line counts. Every
//!   line `FORMAT=` with other words is refusal 15.
//! - `EXPOSURE=` says a number by which all samples were multiplied: 1 to 7 digits (leading zeros count) with a point
//!   anywhere or none, no sign in front, then none or a power of ten: e or E, a sign or none, one or two digits. That
//!   power (0 where there is none) less the count of digits behind the point is from -10 to 10. It is rounded once, to
//!   the nearest `f32` and of two as near to the even one. Several lines are multiplied in file order, each product
//!   rounded once. What is not written so, and a number or a product that is zero or infinite, is refusal 16, whatever
//!   follows.
//! - A line counts if it starts with the name and the equals sign, in these letters. White space (bytes 9 to 13 and 32)
//!   around the rest has no part. A last line that is ended by the end of the bytes counts too.
//! - Of several such faults the first in the file is answered, after 1 and before 2.
//!
//! # What is written
//!
//! A negative sample and one that is no number are written as 0, and a pixel whose largest sample is not above 1e-32 as
//! black; 2^127 and more, plus infinity too, is refusal 12. Each sample is rounded down to its step. Where no sample is
//! negative or no number, what is written comes back by the document at most half a step from each sample, on either
//! side, if each pixel's largest is 0 or above 1e-32; by [`Reading::Crate`] less than one step below it and never above,
//! if each largest is 0 or from 2^-32 to below 2^31: darker pixels come back too bright there and brighter ones too dark.
//! No pixel that is written from samples starts 1, 1, 1; four-byte pixels are written as they are given
//! ([`HdrEncoder::new_from_rgbe`]).
//!
//! A file that was written from samples, read and written again is the same bytes, if each pixel's largest sample is at
//! most 1e-32, or no sample of it is a number, or the largest is from 2^-106 to below 2^127 by [`Reading::Document`],
//! from 2^-32 to below 2^31 by [`Reading::Crate`]. Samples may be negative or no numbers: they come back as 0, or in a
//! pixel that is not black by the document as half a step.

mod decoder;
mod encoder;
mod errors;
mod face;
mod memory;
mod orientation;

pub use decoder::{Colour, DecoderOptions, HdrDecoder, Reading};
pub use encoder::{EncoderOptions, HdrEncoder};
pub use errors::HdrError;
pub use face::{document_pixel_from_bytes, pixel_from_bytes, pixel_to_bytes};
pub use orientation::Orientation;
