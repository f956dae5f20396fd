//! Reading from bytes in memory, and writing to bytes in memory.

#[derive(Debug)]
pub enum ZByteIoError {
    NoByteLeft,
    NoRoomLeft,
    RewoundTooFar,
}

/// Where bytes come from: all of them, in memory.
pub trait ZByteReaderTrait {
    fn all(&self) -> &[u8];
}

/// Bytes in memory.
pub struct ZCursor<'a>(&'a [u8]);

impl<'a> ZCursor<'a> {
    pub fn new(bytes: &'a [u8]) -> Self {
        ZCursor(bytes)
    }
}

impl ZByteReaderTrait for ZCursor<'_> {
    #[inline(always)]
    fn all(&self) -> &[u8] {
        self.0
    }
}

pub struct ZReader<T: ZByteReaderTrait> {
    source: T,
    at: usize,
}

impl<T: ZByteReaderTrait> ZReader<T> {
    pub fn new(source: T) -> Self {
        ZReader { source, at: 0 }
    }

    pub fn eof(&mut self) -> Result<bool, ZByteIoError> {
        Ok(self.at == self.source.all().len())
    }

    pub fn position(&mut self) -> Result<u64, ZByteIoError> {
        Ok(self.at as u64)
    }

    #[inline(always)]
    pub fn read_u8_err(&mut self) -> Result<u8, ZByteIoError> {
        let byte = *self.source.all().get(self.at).ok_or(ZByteIoError::NoByteLeft)?;
        self.at += 1;
        Ok(byte)
    }

    #[inline(always)]
    pub fn read_u8(&mut self) -> u8 {
        self.read_u8_err().unwrap_or(0)
    }

    pub fn rewind(&mut self, count: usize) -> Result<(), ZByteIoError> {
        self.at = self.at.checked_sub(count).ok_or(ZByteIoError::RewoundTooFar)?;
        Ok(())
    }
}

/// Where bytes go to.
pub trait ZByteWriterTrait {
    /// Takes all the bytes or none.
    fn put(&mut self, at: usize, bytes: &[u8]) -> Result<(), ZByteIoError>;
}

impl ZByteWriterTrait for &mut [u8] {
    #[inline(always)]
    fn put(&mut self, at: usize, bytes: &[u8]) -> Result<(), ZByteIoError> {
        let room = self.get_mut(at..at + bytes.len()).ok_or(ZByteIoError::NoRoomLeft)?;
        room.copy_from_slice(bytes);
        Ok(())
    }
}

pub struct ZWriter<T: ZByteWriterTrait> {
    sink: T,
    written: usize,
}

impl<T: ZByteWriterTrait> ZWriter<T> {
    pub fn new(sink: T) -> Self {
        ZWriter { sink, written: 0 }
    }

    pub fn reserve(&mut self, _: usize) -> Result<(), ZByteIoError> {
        Ok(())
    }

    #[inline(always)]
    pub fn write_all(&mut self, bytes: &[u8]) -> Result<(), ZByteIoError> {
        self.sink.put(self.written, bytes)?;
        self.written += bytes.len();
        Ok(())
    }

    #[inline(always)]
    pub fn write_const_bytes<const N: usize>(&mut self, bytes: &[u8; N]) -> Result<(), ZByteIoError> {
        self.write_all(bytes)
    }

    #[inline(always)]
    pub fn write_u8_err(&mut self, byte: u8) -> Result<(), ZByteIoError> {
        self.write_all(&[byte])
    }

    #[inline(always)]
    pub fn write_u8(&mut self, byte: u8) {
        let _ = self.write_u8_err(byte);
    }

    pub fn bytes_written(&self) -> usize {
        self.written
    }
}
