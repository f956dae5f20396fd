//! Seeded cases for the reader, as replay lines. What is exhaustive does not depend on the seed.

use crate::line::push_bytes;
use crate::random::Random;
use crate::writer_cases;

/// Who says what a case's answer is.
pub enum Judge {
    /// The crate, asked with the line itself.
    Crate,
    /// The crate, asked with the samples whose four-byte pixels the line has.
    CrateSamples { width: usize, height: usize, room: Option<usize>, samples: Vec<f32> },
    /// RULES 5.1, worked out over whole numbers; the crate differs there.
    Document(String),
}

pub struct Case {
    pub kind: &'static str,
    pub line: String,
    pub judge: Judge,
}

/// Takes a case; false ends the making.
pub type Sink<'a> = &'a mut dyn FnMut(Case) -> bool;

/// Every case: the exhaustive ones, `count` random ones for the reader and a tenth of that for the writer.
pub fn all(seed: u64, count: u64, sink: Sink) {
    short_inputs(sink);
    first_lines(sink);
    size_fields(sink);
    every_sample(sink);
    row_beginnings(sink);
    flat_pixels(sink);
    old_runs(sink);
    marks(sink);
    channels(sink);
    file_beginnings(seed, sink);
    let count = count as usize;
    random_headers(seed, count / 4, sink);
    random_rows(seed, count * 7 / 20, sink);
    random_old_runs(seed, count / 8, sink);
    damaged_files(seed, count - count / 4 - count * 7 / 20 - count / 8, sink);
    wide_rows(seed, 40, sink);
    writer_cases::all(seed, count / 10, sink);
}

pub fn header(width: usize, height: usize) -> Vec<u8> {
    format!("#?RGBE\n\n-Y {height} +X {width}\n").into_bytes()
}

fn case(kind: &'static str, words: String, bytes: &[u8]) -> Case {
    let mut line = words;
    push_bytes(&mut line, bytes);
    Case { kind, line, judge: Judge::Crate }
}

fn read(kind: &'static str, limits: (usize, usize), output: usize, store: usize, bytes: &[u8]) -> Case {
    case(kind, format!("read {} {} {output} {store} ", limits.0, limits.1), bytes)
}

/// A reading with just the room that the picture needs, and a little more.
fn read_picture(kind: &'static str, width: usize, height: usize, bytes: &[u8]) -> Case {
    read(kind, (65_535, 65_535), 3 * width * height + 1, 4 * width + 2, bytes)
}

fn head(kind: &'static str, limits: (usize, usize), bytes: &[u8]) -> Case {
    case(kind, format!("head {} {} ", limits.0, limits.1), bytes)
}

/// Every list of up to `longest` of the parts, shortest first, each put together.
fn lists(parts: &[Vec<u8>], longest: usize, take: &mut dyn FnMut(&[u8])) {
    for length in 0..=longest {
        for number in 0..parts.len().pow(length as u32) {
            let mut rest = number;
            let mut list = Vec::new();
            for _ in 0..length {
                list.extend_from_slice(&parts[rest % parts.len()]);
                rest /= parts.len();
            }
            take(&list);
        }
    }
}

fn single(letters: &[u8]) -> Vec<Vec<u8>> {
    letters.iter().map(|b| vec![*b]).collect()
}

/// Every input of up to two bytes.
fn short_inputs(sink: Sink) {
    let every: Vec<u8> = (0..=255).collect();
    lists(&single(&every), 2, &mut |bytes| {
        sink(read("every input of up to 2 bytes", (9, 9), 2, 3, bytes));
    });
}

/// A good file with one byte of its first line changed, left out or put in, in every way.
fn first_lines(sink: Sink) {
    const KIND: &str = "first line, one byte wrong";
    for first in ["#?RADIANCE\n", "#?RGBE\n"] {
        let good = [first.as_bytes(), b"\n-Y 0 +X 3\n"].concat();
        for place in 0..=first.len() {
            let (before, after) = good.split_at(place);
            sink(head(KIND, (9, 9), &[before, &after[1..]].concat()));
            for byte in 0..=255 {
                sink(head(KIND, (9, 9), &[before, &[byte], after].concat()));
                sink(head(KIND, (9, 9), &[before, &[byte], &after[1..]].concat()));
            }
        }
    }
}

/// Every short text in the place of each size field, and every one-byte change of a size line.
fn size_fields(sink: Sink) {
    const KIND: &str = "size fields, every short text";
    for axes in [["-Y", "+X"], ["+X", "-Y"]] {
        for field in 0..4 {
            let letters: &[u8] = if field % 2 == 0 { b"-+XY \t\n\x0b" } else { b"019+- \t\r\na" };
            lists(&single(letters), 3, &mut |text| {
                let mut fields = [axes[0].as_bytes(), b"2", axes[1].as_bytes(), b"3"];
                fields[field] = text;
                let line = [b"#?RGBE\n\n", fields[0], b" ", fields[1], b" ", fields[2], b" ", fields[3], b"\n9"].concat();
                sink(head(KIND, (30, 30), &line));
            });
        }
        let line = format!("\n{} 2 {} 3\n", axes[0], axes[1]).into_bytes();
        for place in 0..line.len() {
            for byte in 0..=255 {
                let mut changed = line.clone();
                changed[place] = byte;
                sink(head(KIND, (30, 30), &[b"#?RGBE\n", &changed[..], b"7"].concat()));
            }
        }
    }
}

/// All 65,536 pairs of mantissa and exponent byte, 256 to a picture.
fn every_sample(sink: Sink) {
    for exponent in 0..=255u8 {
        let mut bytes = header(86, 1);
        for m in (0..258).step_by(3) {
            bytes.extend([m.min(255) as u8, (m + 1).min(255) as u8, (m + 2).min(255) as u8, exponent]);
        }
        sink(read_picture("every mantissa and exponent", 86, 1, &bytes));
    }
}

/// Every one or two bytes as all that is there of a row.
fn row_beginnings(sink: Sink) {
    let every: Vec<u8> = (0..=255).collect();
    lists(&single(&every), 2, &mut |bytes| {
        sink(read_picture("every row of up to 2 bytes", 8, 1, &[header(8, 1), bytes.to_vec()].concat()));
    });
}

/// Every row of up to five bytes, of nine over three letters, for narrow pictures.
fn flat_pixels(sink: Sink) {
    const KIND: &str = "flat pixels, every short row";
    for (width, height, letters, longest) in
        [(1, 1, &[0u8, 1, 2, 128, 129, 255][..], 5), (2, 1, &[1, 2, 129], 9), (1, 2, &[1, 9, 130], 9)]
    {
        lists(&single(letters), longest, &mut |bytes| {
            sink(read_picture(KIND, width, height, &[header(width, height), bytes.to_vec()].concat()));
        });
    }
}

/// Every list of up to five pixels, among them old runs, in flat rows and after a pixel that starts with 2.
fn old_runs(sink: Sink) {
    const KIND: &str = "old runs, every short list";
    let pixels: Vec<Vec<u8>> =
        [[1, 1, 1, 0], [1, 1, 1, 1], [1, 1, 1, 2], [1, 1, 1, 255], [9, 8, 7, 130], [1, 1, 2, 1]].map(|p| p.to_vec()).to_vec();
    for width in [1, 2, 3, 4, 5, 7, 8] {
        lists(&pixels, if width < 5 { 4 } else { 5 }, &mut |list| {
            sink(read_picture(KIND, width, 1, &[header(width, 1), list.to_vec()].concat()));
            if width == 8 {
                let row = [header(8, 1), vec![2, 3, 4, 129], list.to_vec()].concat();
                sink(read_picture(KIND, 8, 1, &row));
            }
        });
    }
}

/// Every four bytes over seven letters at the start of a row, with coded channels or flat pixels after them.
fn marks(sink: Sink) {
    const KIND: &str = "marks, every four bytes";
    let rest = [136, 7, 136, 6, 136, 5, 136, 130, 4, 5, 6, 129, 0, 0, 0, 0, 1, 1, 2, 1, 7, 7, 7, 7, 8, 8, 8, 8];
    for width in [7, 8, 9] {
        lists(&single(&[0, 1, 2, 3, 127, 128, 255]), 4, &mut |mark| {
            sink(read_picture(KIND, width, 1, &[header(width, 1), mark.to_vec(), rest.to_vec()].concat()));
        });
    }
}

/// Every list of up to four codes in the first channel of a row of eight, and with other codes after it.
fn channels(sink: Sink) {
    const KIND: &str = "channel codes, every short list";
    let literal = |count: u8, have: u8| [vec![count], (1..=have).collect::<Vec<u8>>()].concat();
    let codes = [
        vec![0],
        vec![129, 11],
        vec![132, 12],
        vec![136, 13],
        vec![255, 14],
        literal(1, 1),
        literal(4, 4),
        literal(8, 8),
        literal(9, 9),
        literal(128, 8),
    ];
    for tail in [&[136, 7, 136, 6, 136, 130][..], &[], &[136], &[8, 1, 2, 3]] {
        lists(&codes, if tail.len() > 1 { 4 } else { 3 }, &mut |list| {
            let bytes = [header(8, 1), vec![2, 2, 0, 8], list.to_vec(), tail.to_vec()].concat();
            sink(read_picture(KIND, 8, 1, &bytes));
        });
    }
}

/// Every beginning of some good files.
fn file_beginnings(seed: u64, sink: Sink) {
    let mut random = Random::new(seed, "beginnings");
    for (width, height) in [(1, 1), (3, 2), (7, 2), (8, 2), (9, 3), (20, 2), (130, 1)] {
        for _ in 0..3 {
            let file = good_file(&mut random, width, height);
            for length in 0..=file.len() {
                sink(read_picture("every beginning of good files", width, height, &file[..length]));
            }
        }
    }
}

/// A file that the crate wrote.
fn good_file(random: &mut Random, width: usize, height: usize) -> Vec<u8> {
    let samples = writer_cases::picture(random, width, height);
    match crate_side::write(width, height, &samples) {
        crate_side::Written::File(file) => file,
        _ => panic!("the crate writes every such picture"),
    }
}

const WIDTHS: [usize; 24] = [1, 2, 3, 4, 5, 6, 7, 8, 9, 10, 12, 16, 31, 63, 126, 127, 128, 129, 130, 254, 255, 256, 257, 258];

/// A width, mostly a small one.
pub fn some_width(random: &mut Random) -> usize {
    match random.below(8) {
        0 => random.from(1, 300),
        1..=2 => random.one_of(&WIDTHS),
        _ => random.from(1, 20),
    }
}

/// Header lines of every sort, then the four size fields.
fn random_headers(seed: u64, count: usize, sink: Sink) {
    const KIND: &str = "headers, random";
    let mut random = Random::new(seed, "headers");
    for _ in 0..count {
        let limits = [0, 1, 2, 3, 8, 300, 65_534, 65_535];
        let (max_width, max_height) = (random.one_of(&limits), random.one_of(&limits));
        let bytes = random_header(&mut random);
        let go_on = if random.once_in(2) {
            sink(head(KIND, (max_width, max_height), &bytes))
        } else {
            let output = random.below(40);
            sink(read(KIND, (max_width, max_height), output, random.from(0, 300), &bytes))
        };
        if !go_on {
            return;
        }
    }
}

fn random_header(random: &mut Random) -> Vec<u8> {
    let firsts: [&[u8]; 8] =
        [b"#?RADIANCE\n", b"#?RGBE\n", b"#?RADIANCE\n", b"#?RGBE\n", b"#?RGBE\r\n", b"#?RGBE \n", b"#?RADIANCE", b"#?rgbe\n"];
    let choice = if random.once_in(20) { 8 } else { 4 };
    let mut bytes = random.one_of(&firsts[..choice]).to_vec();
    for _ in 0..random.below(5) {
        bytes.extend(header_line(random));
    }
    if !random.once_in(30) {
        bytes.push(b'\n');
    }
    let blanks: [&[u8]; 6] = [b"", b"", b"", b"\n", b"\r\n", b"\n\t \n"];
    bytes.extend(random.one_of(&blanks));
    let mut axes: [&[u8]; 2] = if random.once_in(2) { [b"-Y", b"+X"] } else { [b"+X", b"-Y"] };
    if random.once_in(8) {
        let others: [&[u8]; 10] = [b"+Y", b"-X", b"+X", b"-Y", b"Y", b"", b"-Y\t", b"\r+X", b"-Y\0", b"-y"];
        axes[random.below(2)] = random.one_of(&others);
    }
    bytes.extend([axes[0], b" ", &size_text(random), b" ", axes[1], b" ", &size_text(random)].concat());
    if !random.once_in(10) {
        bytes.push(b'\n');
    }
    for _ in 0..random.one_of(&[0, 0, 1, 4, 12, 40]) {
        bytes.push(random.byte());
    }
    if random.once_in(6) {
        let place = random.below(bytes.len());
        bytes[place] = random.one_of(b"\n\r \t+-XY0=#\x80\xa0\xff");
    }
    if random.once_in(12) {
        bytes.truncate(random.below(bytes.len() + 1));
    }
    bytes
}

fn header_line(random: &mut Random) -> Vec<u8> {
    let lines: [&[u8]; 16] = [
        b"FORMAT=32-bit_rle_rgbe",
        b"FORMAT=32-bit_rle_xyze",
        b"EXPOSURE=1.5",
        b"# a comment",
        b"#",
        b"=",
        b"==",
        b"a=b=c",
        b"no sign at all",
        b"\r",
        b" ",
        b"\0",
        b"-Y 3 +X 3",
        b"\xc2\xa0=\xff\xfe",
        b"\x85",
        b"#?RGBE",
    ];
    let mut line = match random.below(12) {
        0 => (0..random.from(1, 12)).map(|_| random.byte()).collect(),
        1 if random.once_in(20) => vec![random.one_of(b"x=#"); random.from(1_000, 1_100)],
        _ => random.one_of(&lines).to_vec(),
    };
    line.push(b'\n');
    line
}

fn size_text(random: &mut Random) -> Vec<u8> {
    let texts: [&[u8]; 26] = [
        b"0",
        b"1",
        b"2",
        b"3",
        b"8",
        b"9",
        b"+1",
        b"+0",
        b"01",
        b"+0003",
        b"",
        b"+",
        b"-1",
        b"-0",
        b"++1",
        b"65534",
        b"65535",
        b"65536",
        b"18446744073709551615",
        b"18446744073709551616",
        b"99999999999999999999999",
        b"1a",
        b"\t2",
        b"2\r",
        b"1\x0b\x0c",
        b"0x1",
    ];
    match random.below(8) {
        0..=2 => random.one_of(&texts).to_vec(),
        3..=5 => random.below(10).to_string().into_bytes(),
        6 => random.below(70_000).to_string().into_bytes(),
        _ => (0..random.from(1, 21)).map(|_| random.one_of(b"0123456789")).collect(),
    }
}

/// A pixel that is often like a mark or an old run, sometimes one, or black.
fn pixel(random: &mut Random) -> [u8; 4] {
    match random.below(10) {
        0 => [2, 2, random.byte(), random.byte()],
        1 => [2, random.byte(), random.byte(), random.byte()],
        2 => [1, 1, random.one_of(&[0, 1, 2, 128]), random.one_of(&[0, 1, 2, 3, 4, 255])],
        3 => [random.byte(), 0, 255, 0],
        _ => [random.byte(), random.byte(), random.byte(), random.byte()],
    }
}

/// One channel of `width` bytes in codes, sometimes with a count that passes its end or a byte missing.
fn channel(random: &mut Random, width: usize) -> Vec<u8> {
    let mut codes = Vec::new();
    let mut left = width;
    while left > 0 {
        let most = if random.once_in(3) { 128 } else { 6 };
        let mut count = random.from(1, most);
        if !random.once_in(40) {
            count = count.min(left);
        }
        match random.below(9) {
            0 if random.once_in(4) => codes.push(0),
            0..=4 if count < 128 => {
                codes.extend([128 + count as u8, random.byte()]);
                left -= count.min(left);
            }
            _ => {
                let have = if random.once_in(2) { count } else { count.min(left) };
                codes.push(count as u8);
                codes.extend((0..have).map(|_| random.byte()));
                left -= count.min(left);
            }
        }
    }
    codes
}

/// A row of any sort: coded, flat, or flat after a pixel that starts with 2.
fn row(random: &mut Random, width: usize) -> Vec<u8> {
    match random.below(5) {
        0..=2 if width >= 8 => {
            let mut bytes = vec![2, 2, (width >> 8) as u8, width as u8];
            if random.once_in(10) {
                bytes[2] = random.byte() & 127;
                bytes[3] = random.byte();
            }
            (0..4).for_each(|_| bytes.extend(channel(random, width)));
            bytes
        }
        3 => {
            let first = [2, random.one_of(&[0, 1, 2, 3]), random.one_of(&[0, 127, 128, 255]), random.byte()];
            [first.to_vec(), (1..width).flat_map(|_| pixel(random)).collect()].concat()
        }
        _ => (0..width).flat_map(|_| pixel(random)).collect(),
    }
}

/// Limits, output length and store length around what the picture needs.
fn around(random: &mut Random, kind: &'static str, width: usize, height: usize, bytes: &[u8]) -> Case {
    let limit = |random: &mut Random, size: usize| match random.below(24) {
        0 => size.saturating_sub(1),
        1..=3 => size,
        4 => size + 1,
        _ => 65_535,
    };
    let need = 3 * width * height;
    let output = match random.below(16) {
        0 => need.saturating_sub(1),
        1..=4 => need + random.below(2 * width + 2),
        _ => need,
    };
    let store = match random.below(20) {
        0 => (4 * width).saturating_sub(random.from(1, 4)),
        1..=4 => 4 * width + random.below(9),
        _ => 4 * width,
    };
    read(kind, (limit(random, width), limit(random, height)), output, store, bytes)
}

fn random_rows(seed: u64, count: usize, sink: Sink) {
    let mut random = Random::new(seed, "rows");
    for _ in 0..count {
        let (width, height) = (some_width(&mut random), random.one_of(&[0, 1, 1, 1, 2, 2, 3, 5]));
        let mut bytes = header(width, height);
        let start = bytes.len();
        (0..height).for_each(|_| bytes.extend(row(&mut random, width)));
        if random.once_in(4) && bytes.len() > start {
            bytes.truncate(random.from(start, bytes.len()));
        }
        if random.once_in(8) {
            bytes.push(random.byte());
        }
        let case = around(&mut random, "rows, random", width, height, &bytes);
        if !sink(case) {
            return;
        }
    }
}

/// Flat rows made mostly of old runs.
fn random_old_runs(seed: u64, count: usize, sink: Sink) {
    let mut random = Random::new(seed, "old runs");
    for _ in 0..count {
        let (width, height) = (random.from(1, 40), random.from(1, 3));
        let mut bytes = header(width, height);
        for _ in 0..height {
            if random.once_in(2) {
                bytes.extend([2, random.one_of(&[1, 2]), random.one_of(&[3, 128, 200]), random.byte()]);
            }
            for _ in 0..random.from(1, width) {
                bytes.extend(if random.once_in(2) {
                    [1, 1, 1, random.one_of(&[0, 1, 1, 2, 3, 7, 255])]
                } else {
                    pixel(&mut random)
                });
            }
        }
        let case = around(&mut random, "old runs, random", width, height, &bytes);
        if !sink(case) {
            return;
        }
    }
}

/// Copies of good files with bytes changed, lost, doubled or put in.
fn damaged_files(seed: u64, count: usize, sink: Sink) {
    let mut random = Random::new(seed, "damage");
    let mut file = Vec::new();
    let (mut width, mut height) = (0, 0);
    for number in 0..count {
        if number % 16 == 0 {
            (width, height) = (some_width(&mut random), random.from(1, 4));
            file = good_file(&mut random, width, height);
        }
        let mut bytes = file.clone();
        for _ in 0..random.from(1, 3) {
            damage(&mut random, &mut bytes);
        }
        let case = around(&mut random, "damaged good files", width, height, &bytes);
        if !sink(case) {
            return;
        }
    }
}

fn damage(random: &mut Random, bytes: &mut Vec<u8>) {
    if bytes.is_empty() {
        return;
    }
    let first = if random.once_in(5) { 0 } else { bytes.len().min(61) };
    let place = random.from(first, bytes.len()).min(bytes.len() - 1);
    let end = (place + random.from(1, 6)).min(bytes.len());
    match random.below(6) {
        0 => bytes[place] ^= 1 << random.below(8),
        1 => bytes[place] = random.one_of(&[0, 1, 2, 127, 128, 129, 255]),
        2 => drop(bytes.drain(place..end)),
        3 => bytes.insert(place, random.byte()),
        4 => {
            let part = bytes[place..end].to_vec();
            bytes.splice(place..place, part);
        }
        _ => bytes.truncate(place),
    }
}

/// Rows on both sides of 32,767.
fn wide_rows(seed: u64, count: usize, sink: Sink) {
    let mut random = Random::new(seed, "wide");
    for number in 0..count {
        let width = [32_766, 32_767, 32_768, 32_769, 32_900][number % 5];
        let mut bytes = [header(width, 1), row(&mut random, width)].concat();
        if random.once_in(4) {
            bytes.truncate(random.from(20, bytes.len()));
        }
        sink(read_picture("wide rows", width, 1, &bytes));
    }
}
