//! The choices that a caller hands over.

use crate::bit_depth::BitDepth;
use crate::colorspace::ColorSpace;

#[derive(Clone, Copy)]
pub struct DecoderOptions {
    max_width: usize,
    max_height: usize,
}

impl Default for DecoderOptions {
    fn default() -> Self {
        DecoderOptions { max_width: 65_535, max_height: 65_535 }
    }
}

impl DecoderOptions {
    pub fn max_width(&self) -> usize {
        self.max_width
    }

    pub fn max_height(&self) -> usize {
        self.max_height
    }

    pub fn set_max_width(mut self, limit: usize) -> Self {
        self.max_width = limit;
        self
    }

    pub fn set_max_height(mut self, limit: usize) -> Self {
        self.max_height = limit;
        self
    }
}

#[derive(Clone, Copy)]
pub struct EncoderOptions {
    width: usize,
    height: usize,
    colorspace: ColorSpace,
}

impl EncoderOptions {
    pub fn new(width: usize, height: usize, colorspace: ColorSpace, _: BitDepth) -> Self {
        EncoderOptions { width, height, colorspace }
    }

    pub fn width(&self) -> usize {
        self.width
    }

    pub fn height(&self) -> usize {
        self.height
    }

    pub fn colorspace(&self) -> ColorSpace {
        self.colorspace
    }
}
