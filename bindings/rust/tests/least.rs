//! How few bytes hold a picture's rows: the shortest are read, and a file with fewer is refused as by `decode_into`.

use doorwhisp::{DecoderOptions, HdrDecoder, HdrError, Reading};

/// Widths where a rule changes, and beside them.
const WIDTHS: [usize; 19] = [
    1, 2, 3, 7, 8, 9, 126, 127, 128, 129, 254, 255, 256, 257, 300, 32_766, 32_767, 32_768, 65_535,
];

/// A decoder by a reading.
fn decoder(reading: Reading, file: &[u8]) -> HdrDecoder<'_> {
    HdrDecoder::new_with_options(file, DecoderOptions::default().set_reading(reading))
}

/// What makes a header of a stored row's length and a count of rows.
type Header = fn(usize, usize) -> Vec<u8>;

/// The header of a picture.
fn header(width: usize, height: usize) -> Vec<u8> {
    format!("#?RGBE\n\n-Y {height} +X {width}\n").into_bytes()
}

/// The header of a picture that is stored by columns, so many of this height.
fn column_header(height: usize, columns: usize) -> Vec<u8> {
    format!("#?RGBE\n\n+X {columns} -Y {height}\n").into_bytes()
}

/// The shortest rows: four bytes to a pixel, or runs of 127; of the last count of all the bytes are missing, and it may
/// then be one of 128 literals.
fn shortest_rows(width: usize, height: usize) -> Vec<u8> {
    if !(8..=32_767).contains(&width) {
        return [9, 9, 9, 129].repeat(width * height);
    }
    let channel = [255, 7].repeat((width + 126) / 127);
    let mark = [2, 2, (width / 256) as u8, width as u8];
    let mut rows = [&mark[..], &channel.repeat(4)].concat().repeat(height);
    rows.truncate(rows.len() - channel.len());
    rows.extend([255, 7].repeat((width - 2) / 127));
    rows.push(if width % 127 == 1 { 128 } else { 255 });
    rows
}

/// The shortest rows by the document: a pixel, and repeats of 255 and of 255 times 256 at most.
fn repeats(width: usize, height: usize) -> Vec<u8> {
    let left = width - 1;
    let mut row = vec![9, 9, 9, 129];
    if left > 0 {
        row.extend([1, 1, 1, (left % 256) as u8]);
    }
    if left > 255 {
        row.extend([1, 1, 1, (left / 256) as u8]);
    }
    row.repeat(height)
}

/// How many bytes are wanted.
fn least(reading: Reading, width: usize, height: usize) -> usize {
    match (reading, width) {
        (Reading::Crate, 8..=32_767) => height * (4 + 8 * ((width - 2) / 127 + 1)) - 1,
        (Reading::Crate, _) => 4 * width * height,
        (Reading::Document, 1) => 4 * height,
        (Reading::Document, 2..=256) => 8 * height,
        (Reading::Document, _) => 12 * height,
    }
}

/// Bytes that a row might be made of, drawn so that old runs, marks and long counts are often met.
struct Bytes(u64);

impl Bytes {
    fn next(&mut self, below: usize) -> usize {
        self.0 = self.0.wrapping_mul(6364136223846793005).wrapping_add(1);
        (self.0 >> 33) as usize % below
    }

    fn of_length(&mut self, length: usize) -> Vec<u8> {
        let mut bytes = Vec::new();
        while bytes.len() < length {
            match self.next(8) {
                0 => bytes.extend([1, 1, 1, self.next(256) as u8]),
                1 | 2 => bytes.extend([2, 2, 0, 8]),
                3 | 4 => bytes.extend([255, 128]),
                5 => bytes.extend([7, 8, 9, 129]),
                _ => bytes.push([0, 1, 2, 128, 129, 255][self.next(6)]),
            }
        }
        bytes.truncate(length);
        bytes
    }
}

#[test]
fn the_shortest_rows_are_read() {
    for width in WIDTHS {
        for height in 1..4 {
            let rows = shortest_rows(width, height);
            let few = (8..=32_767).contains(&width) && width % 127 == 1;
            let given_away = if few { 8 * height - 2 } else { 0 };
            let least = least(Reading::Crate, width, height);
            assert_eq!(rows.len(), least + given_away);
            let file = [header(width, height), rows].concat();
            let samples = HdrDecoder::new(&file).decode().unwrap();
            assert_eq!(samples.len(), 3 * width * height);
        }
    }
}

#[test]
fn the_shortest_rows_are_read_by_the_document() {
    for width in WIDTHS {
        for height in 1..4 {
            let rows = repeats(width, height);
            assert_eq!(rows.len(), least(Reading::Document, width, height));
            for header in [header(width, height), column_header(width, height)] {
                let file = [&header[..], &rows].concat();
                let samples = decoder(Reading::Document, &file).decode().unwrap();
                let pixel = [19.0 / 256.0; 3];
                assert_eq!(samples, pixel.repeat(width * height));
            }
        }
    }
}

/// Holds `decode` to `decode_into` on files with fewer bytes than their rows take; how many are 9, and how many not.
fn refused_alike(reading: Reading, header: Header) -> [usize; 2] {
    let mut bytes = Bytes(1);
    let mut numbers = [0; 2];
    for width in WIDTHS {
        for height in 1..4 {
            let mut out = vec![0.0; 3 * width * height];
            for i in 0..40_000 / width.max(100) {
                let least = least(reading, width, height);
                let found = if i == 0 { least - 1 } else { bytes.next(least) };
                let file = [header(width, height), bytes.of_length(found)].concat();
                let mut decoder = decoder(reading, &file);
                let refusal = decoder.decode_into(&mut out).unwrap_err();
                let ends = matches!(refusal, HdrError::BytesEnd { .. });
                let other = if reading == Reading::Crate { 25 } else { 14 };
                assert!(ends || refusal.number() == Some(other));
                numbers[usize::from(!ends)] += 1;
                assert_eq!(decoder.decode(), Err(refusal));
            }
        }
    }
    numbers
}

#[test]
fn fewer_bytes_are_refused_as_where_memory_is_lent() {
    use Reading::{Crate, Document};
    let kinds: [(Reading, Header); 3] = [
        (Crate, header),
        (Document, header),
        (Document, column_header),
    ];
    for (reading, header) in kinds {
        let numbers = refused_alike(reading, header);
        assert!(numbers.iter().all(|n| *n > 100), "{numbers:?} {reading:?}");
    }
}

#[test]
fn no_rows_take_no_bytes() {
    for reading in [Reading::Crate, Reading::Document] {
        let decoded = |file: &[u8]| decoder(reading, file).decode();
        assert_eq!(decoded(&header(20, 0)), Ok(vec![]));
        assert_eq!(decoded(&header(0, 3)), Err(HdrError::NoWidth));
    }
}
