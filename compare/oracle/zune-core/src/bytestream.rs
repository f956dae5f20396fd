//! Reading from bytes in memory and writing to a vector or to bounded room.
//!
//! Taken here, where the Rust's text leaves it to zune_core:
//! - `read_u8` past the last byte answers 0 and takes nothing; `read_u8_err` there is an error and takes nothing;
//! - `rewind(1)` undoes the read before it (the Rust's comment: "undo byte read"); after a read that took
//!   nothing it does nothing, unless `trail` chooses that it steps back over the last byte;
//! - `eof` is true exactly when no byte is left;
//! - a write that does not fit is an error and writes nothing.

use crate::trail;

#[derive(Debug)]
pub enum ZByteIoError {
    NoByteLeft,
    NoRoomLeft,
    RewoundTooFar,
}

/// Where bytes come from: all of them, in memory.
pub trait ZByteReaderTrait {
    fn all(&self) -> &[u8];
}

/// Bytes in memory.
pub struct ZCursor<'a>(&'a [u8]);

impl<'a> ZCursor<'a> {
    pub fn new(bytes: &'a [u8]) -> Self {
        ZCursor(bytes)
    }
}

impl ZByteReaderTrait for ZCursor<'_> {
    fn all(&self) -> &[u8] {
        self.0
    }
}

pub struct ZReader<T: ZByteReaderTrait> {
    source: T,
    at: usize,
    last_took: bool,
}

impl<T: ZByteReaderTrait> ZReader<T> {
    pub fn new(source: T) -> Self {
        trail::begin();
        ZReader { source, at: 0, last_took: false }
    }

    pub fn eof(&mut self) -> Result<bool, ZByteIoError> {
        Ok(self.at == self.source.all().len())
    }

    pub fn position(&mut self) -> Result<u64, ZByteIoError> {
        trail::with(|t| t.asked.borrow_mut().push(self.at));
        Ok(self.at as u64)
    }

    pub fn read_u8_err(&mut self) -> Result<u8, ZByteIoError> {
        self.next().ok_or_else(|| {
            trail::with(|t| t.refused.set(t.refused.get() + 1));
            ZByteIoError::NoByteLeft
        })
    }

    pub fn read_u8(&mut self) -> u8 {
        self.next().unwrap_or_else(|| {
            trail::with(|t| t.made_up.set(t.made_up.get() + 1));
            0
        })
    }

    pub fn rewind(&mut self, count: usize) -> Result<(), ZByteIoError> {
        if !self.last_took {
            let moves = trail::with(|t| {
                t.rewound_nothing.set(t.rewound_nothing.get() + 1);
                t.rewind_always_moves.get()
            });
            if !moves {
                return Ok(());
            }
        }
        let at = self.at.checked_sub(count).ok_or(ZByteIoError::RewoundTooFar)?;
        self.go_to(at);
        Ok(())
    }

    fn next(&mut self) -> Option<u8> {
        let byte = self.source.all().get(self.at).copied();
        self.last_took = byte.is_some();
        if self.last_took {
            self.go_to(self.at + 1);
        }
        byte
    }

    fn go_to(&mut self, at: usize) {
        self.at = at;
        trail::with(|t| t.taken.set(at));
    }
}

/// Where bytes go to.
pub trait ZByteWriterTrait {
    /// Takes all the bytes or none.
    fn put(&mut self, bytes: &[u8]) -> Result<(), ZByteIoError>;
    fn make_room(&mut self, size: usize);
}

impl ZByteWriterTrait for &mut Vec<u8> {
    fn put(&mut self, bytes: &[u8]) -> Result<(), ZByteIoError> {
        self.extend_from_slice(bytes);
        Ok(())
    }

    fn make_room(&mut self, size: usize) {
        self.reserve(size);
    }
}

/// Room for so many bytes, and how many of them were used.
pub struct Room {
    pub size: usize,
    pub used: usize,
}

impl ZByteWriterTrait for &mut Room {
    fn put(&mut self, bytes: &[u8]) -> Result<(), ZByteIoError> {
        if bytes.len() > self.size - self.used {
            return Err(ZByteIoError::NoRoomLeft);
        }
        self.used += bytes.len();
        Ok(())
    }

    fn make_room(&mut self, _: usize) {}
}

pub struct ZWriter<T: ZByteWriterTrait> {
    sink: T,
    written: usize,
}

impl<T: ZByteWriterTrait> ZWriter<T> {
    pub fn new(sink: T) -> Self {
        ZWriter { sink, written: 0 }
    }

    pub fn reserve(&mut self, size: usize) -> Result<(), ZByteIoError> {
        self.sink.make_room(size);
        Ok(())
    }

    pub fn write_all(&mut self, bytes: &[u8]) -> Result<(), ZByteIoError> {
        self.sink.put(bytes)?;
        self.written += bytes.len();
        Ok(())
    }

    pub fn write_const_bytes<const N: usize>(&mut self, bytes: &[u8; N]) -> Result<(), ZByteIoError> {
        self.write_all(bytes)
    }

    pub fn write_u8_err(&mut self, byte: u8) -> Result<(), ZByteIoError> {
        self.write_all(&[byte])
    }

    pub fn write_u8(&mut self, byte: u8) {
        let _ = self.write_all(&[byte]);
    }

    pub fn bytes_written(&self) -> usize {
        self.written
    }
}
