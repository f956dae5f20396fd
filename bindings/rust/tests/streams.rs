//! Readers, writers and threads that are lent.

use doorwhisp::{DecoderOptions, EncoderOptions, HdrDecoder, HdrEncoder, HdrError};
use std::io::{self, BufWriter, Cursor, ErrorKind, Read, Write};

/// A file of one pixel: 1, 0.5, 0.25.
const ONE: &[u8] = b"#?RADIANCE\n\n-Y 1 +X 1\n\x80\x40\x20\x81";

/// Gives and takes one byte at a time, and fails after so many.
struct Slow {
    bytes: Cursor<Vec<u8>>,
    left: usize,
}

impl Slow {
    fn new(bytes: &[u8], left: usize) -> Slow {
        let bytes = Cursor::new(bytes.to_vec());
        Slow { bytes, left }
    }

    fn one(&mut self) -> io::Result<()> {
        if self.left == 0 {
            return Err(io::Error::new(ErrorKind::Other, "the wire is cut"));
        }
        self.left -= 1;
        Ok(())
    }
}

impl Read for Slow {
    fn read(&mut self, buffer: &mut [u8]) -> io::Result<usize> {
        self.one()?;
        let room = buffer.len().min(1);
        self.bytes.read(&mut buffer[..room])
    }
}

impl Write for Slow {
    fn write(&mut self, bytes: &[u8]) -> io::Result<usize> {
        self.one()?;
        self.bytes.write(&bytes[..1])
    }

    fn flush(&mut self) -> io::Result<()> {
        Ok(())
    }
}

/// What is told where the wire is cut.
fn cut<T>() -> Result<T, HdrError> {
    let words = "the wire is cut".to_string();
    let kind = ErrorKind::Other;
    Err(HdrError::Io { kind, words })
}

#[test]
fn a_file_is_read_from_any_reader() {
    let mut decoder = HdrDecoder::from_reader(Slow::new(ONE, 100)).unwrap();
    assert_eq!(decoder.decode(), Ok(vec![1.0, 0.5, 0.25]));
    assert_eq!(decoder.dimensions(), Some((1, 1)));
    let options = DecoderOptions::default().set_max_width(0);
    let mut decoder = HdrDecoder::from_reader_with_options(ONE, options).unwrap();
    assert_eq!(decoder.decode(), Err(HdrError::TooWide { limit: 0 }));
}

#[test]
fn a_reader_that_fails_is_told() {
    let decoder = HdrDecoder::from_reader(Slow::new(ONE, 5));
    assert_eq!(decoder.map(|_| ()), cut());
}

#[test]
fn a_file_is_written_to_any_writer() {
    let encoder = HdrEncoder::new(&[1.0, 0.5, 0.25], EncoderOptions::new(1, 1));
    let mut slow = Slow::new(&[], 100);
    assert_eq!(encoder.encode(&mut slow), Ok(67));
    assert_eq!(encoder.encode_to_vec(), Ok(slow.bytes.into_inner()));
}

#[test]
fn a_writer_that_fails_is_told() {
    let encoder = HdrEncoder::new(&[1.0, 0.5, 0.25], EncoderOptions::new(1, 1));
    assert_eq!(encoder.encode(Slow::new(&[], 66)), cut());
    // what a buffer held back counts too
    assert_eq!(encoder.encode(BufWriter::new(Slow::new(&[], 66))), cut());
}

#[test]
fn a_refusal_writes_nothing() {
    let encoder = HdrEncoder::new(&[f32::INFINITY, 0.0, 0.0], EncoderOptions::new(1, 1));
    let mut slow = Slow::new(&[], 0);
    let refusal = HdrError::TooBright { pixel: 0 };
    assert_eq!(encoder.encode(&mut slow), Err(refusal));
}

#[test]
fn a_thread_of_160_kib_encodes() {
    let samples = vec![0.5; 3 * 32_767];
    let thread = std::thread::Builder::new().stack_size(160 * 1024);
    let encode = move || {
        let encoder = HdrEncoder::new(&samples, EncoderOptions::new(32_767, 1));
        (encoder.exact_size(), encoder.encode(io::sink()))
    };
    let (exact, written) = thread.spawn(encode).unwrap().join().unwrap();
    assert!(exact.is_ok());
    assert_eq!(exact, written);
}
