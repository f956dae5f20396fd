//! A stand-in for zune_core, written from how zune-hdr 0.5.2 uses it.
//! What the real one does at the end of the bytes is not known from that text: `bytestream` says what is taken here.

pub mod bit_depth;
pub mod bytestream;
pub mod colorspace;
pub mod log;
pub mod options;
pub mod trail;
