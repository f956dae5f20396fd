//! Where a reader first meets a pixel 1,1,1,n in a flat part, by RULES 4.2 to 4.11.

/// The row, the place of the pixel's first byte in the input, and its place in the row store.
pub struct OldRun {
    pub row: usize,
    pub at: usize,
    pub place: usize,
}

/// The first such pixel whose four bytes are all there; none where the bytes end before one.
pub fn first(bytes: &[u8], start: usize, width: usize, height: usize) -> Option<OldRun> {
    let mut at = start;
    for row in 0..height {
        let first = match kind(bytes, at, width)? {
            Kind::Flat => 0,
            Kind::Pixel => 1,
            Kind::Coded => {
                at = after_channels(bytes, at + 4, width)?;
                continue;
            }
        };
        for place in (first..width).map(|i| 4 * i) {
            if bytes.get(at + place..at + place + 4)?.starts_with(&[1, 1, 1]) {
                return Some(OldRun { row, at: at + place, place });
            }
        }
        at += 4 * width;
    }
    None
}

enum Kind {
    Flat,
    /// The first four bytes start with 2 and are a pixel.
    Pixel,
    Coded,
}

/// The kind of the row at a place; none where a byte is missing that decides it.
fn kind(bytes: &[u8], at: usize, width: usize) -> Option<Kind> {
    if !(8..=32_767).contains(&width) {
        return Some(Kind::Flat);
    }
    match *bytes.get(at..)? {
        [2, second, third, _, ..] if second != 2 || third >= 128 => Some(Kind::Pixel),
        [2, _, _, _, ..] => Some(Kind::Coded),
        [2, ..] | [] => None,
        _ => Some(Kind::Flat),
    }
}

/// The place after the four channels of a row; none where a count is missing.
fn after_channels(bytes: &[u8], start: usize, width: usize) -> Option<usize> {
    let mut at = start;
    for _ in 0..4 {
        let mut left = width;
        while left > 0 {
            let count = *bytes.get(at)? as usize;
            let (length, behind) = if count > 128 { (count - 128, 1) } else { (count, count.min(left)) };
            left -= length.min(left);
            at = (at + 1 + behind).min(bytes.len());
        }
    }
    Some(at)
}
