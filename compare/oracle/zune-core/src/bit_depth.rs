//! The kind of a sample; the Rust names one kind.

#[derive(Clone, Copy, Debug, PartialEq, Eq)]
pub enum BitDepth {
    Float32,
}
