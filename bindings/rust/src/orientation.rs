//! How the rows of a file lie in its picture.

use std::fmt;

/// The eight ways in which the rows of a file lie in its picture, each named by the axes in the order in which the
/// header names them. Its number is that of the Orientation tag of TIFF and EXIF: `Orientation::PlusXMinusY as u8` is 5.
///
/// By [`Reading::Document`](crate::Reading::Document) [`HdrDecoder`](crate::HdrDecoder) gives the picture upright in each of them.
#[derive(Clone, Copy, Debug, PartialEq, Eq)]
pub enum Orientation {
    /// `-Y +X`, the usual one: rows from the top, each from the left.
    MinusYPlusX = 1,
    /// `-Y -X`: rows from the top, each from the right.
    MinusYMinusX = 2,
    /// `+Y -X`: rows from the bottom, each from the right.
    PlusYMinusX = 3,
    /// `+Y +X`: rows from the bottom, each from the left.
    PlusYPlusX = 4,
    /// `+X -Y`: columns from the left, each from the top.
    PlusXMinusY = 5,
    /// `-X -Y`: columns from the right, each from the top.
    MinusXMinusY = 6,
    /// `-X +Y`: columns from the right, each from the bottom.
    MinusXPlusY = 7,
    /// `+X +Y`: columns from the left, each from the bottom.
    PlusXPlusY = 8,
}

impl Orientation {
    /// All eight, in the order of their numbers.
    pub const ALL: [Self; 8] = [
        Self::MinusYPlusX,
        Self::MinusYMinusX,
        Self::PlusYMinusX,
        Self::PlusYPlusX,
        Self::PlusXMinusY,
        Self::MinusXMinusY,
        Self::MinusXPlusY,
        Self::PlusXPlusY,
    ];

    /// Whether the header names X first, so that each stored row is a column of the picture.
    pub fn is_by_columns(self) -> bool {
        self as u8 >= Self::PlusXMinusY as u8
    }
}

impl fmt::Display for Orientation {
    /// The two axes as a header names them: `-Y +X`.
    fn fmt(&self, f: &mut fmt::Formatter<'_>) -> fmt::Result {
        f.write_str(match self {
            Self::MinusYPlusX => "-Y +X",
            Self::MinusYMinusX => "-Y -X",
            Self::PlusYMinusX => "+Y -X",
            Self::PlusYPlusX => "+Y +X",
            Self::PlusXMinusY => "+X -Y",
            Self::MinusXMinusY => "-X -Y",
            Self::MinusXPlusY => "-X +Y",
            Self::PlusXPlusY => "+X +Y",
        })
    }
}
