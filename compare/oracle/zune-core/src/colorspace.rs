//! The colour kinds; the Rust names RGB alone, the other one is there to be refused.

#[derive(Clone, Copy, Debug, PartialEq, Eq)]
pub enum ColorSpace {
    RGB,
    Luma,
}
