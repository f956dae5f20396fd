//! Replay lines: their fields, and how numbers, bytes and samples are written.

/// A case that the crate cannot be asked, or may not be held to.
pub const NOT_COMPARABLE: &str = "~";
/// The answer to a line of no known form.
pub const UNKNOWN: &str = "?";

/// The place i of a lent buffer, as a byte.
pub fn lent_byte(place: usize) -> u8 {
    (place % 251) as u8
}

/// The place i of a lent output, as a sample's bit pattern.
pub fn lent_sample(place: usize) -> u32 {
    ((place % 251) as f32).to_bits()
}

pub fn lent_bytes(length: usize) -> Vec<u8> {
    (0..length).map(lent_byte).collect()
}

/// A decimal number below 2^64 without a leading zero.
pub fn number(text: &str) -> Option<usize> {
    let digits = text.bytes().all(|b| b.is_ascii_digit());
    let leading = text.len() > 1 && text.starts_with('0');
    if digits && !leading {
        text.parse().ok()
    } else {
        None
    }
}

fn digit(byte: u8) -> Option<u8> {
    match byte {
        b'0'..=b'9' => Some(byte - b'0'),
        b'a'..=b'f' => Some(byte - b'a' + 10),
        _ => None,
    }
}

pub fn bytes(text: &str) -> Option<Vec<u8>> {
    if text == "-" {
        return Some(Vec::new());
    }
    let text = text.as_bytes();
    if text.is_empty() || text.len() % 2 != 0 {
        return None;
    }
    text.chunks_exact(2).map(|two| Some(digit(two[0])? * 16 + digit(two[1])?)).collect()
}

pub fn samples(text: &str) -> Option<Vec<f32>> {
    let bytes = bytes(text)?;
    if bytes.len() % 4 != 0 {
        return None;
    }
    Some(bytes.chunks_exact(4).map(|b| f32::from_bits(u32::from_be_bytes(b.try_into().unwrap()))).collect())
}

const DIGITS: &[u8; 16] = b"0123456789abcdef";

pub fn push_bytes(line: &mut String, bytes: &[u8]) {
    if bytes.is_empty() {
        line.push('-');
    }
    for byte in bytes {
        line.push(DIGITS[(byte >> 4) as usize] as char);
        line.push(DIGITS[(byte & 15) as usize] as char);
    }
}

pub fn push_samples(line: &mut String, bits: impl ExactSizeIterator<Item = u32>) {
    if bits.len() == 0 {
        line.push('-');
    }
    for pattern in bits {
        for byte in pattern.to_be_bytes() {
            line.push(DIGITS[(byte >> 4) as usize] as char);
            line.push(DIGITS[(byte & 15) as usize] as char);
        }
    }
}
