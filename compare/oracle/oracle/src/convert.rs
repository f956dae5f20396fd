//! The crate's pixel conversion beside the documents'.

use crate::pixel::{by_documents, exponent_of};
use crate::random::Random;
use crate_side::{convert, Head, Read, Written};

/// Powers of two at which the bands of brightness begin; a band ends where the next begins.
const BANDS: [i32; 21] = [-149, -106, -64, -32, -16, -8, -7, -6, -5, -4, -3, -2, -1, 0, 1, 8, 31, 64, 126, 127, 128];
/// Largest samples tried in each power of two, besides its own bounds.
const EACH: usize = 20_000;

#[derive(Default)]
struct Band {
    pixels: usize,
    differ: usize,
    too_low: usize,
    too_high: usize,
    mantissas: usize,
    black: usize,
    furthest: f64,
    unlike: usize,
}

/// Prints the table by brightness and the named samples.
pub fn report() {
    println!("Pixels with a largest sample v; the other two are random parts of it.");
    println!("A step is the documents' for that pixel. The difference is that of the values m·2^(E-136).\n");
    println!("| v from | to below | pixels | other bytes | exponent too low | exponent too high | same exponent, other mantissas | black by the crate alone | furthest, in steps |");
    println!("|---|---|---|---|---|---|---|---|---|");
    let mut random = Random::new(1, "conversion");
    for bounds in BANDS.windows(2) {
        let mut band = Band::default();
        for power in bounds[0]..bounds[1] {
            one_power(&mut random, power, &mut band);
        }
        let furthest = if band.unlike > 0 { "no value".to_string() } else { format!("{:.2}", band.furthest) };
        println!(
            "| 2^{} | 2^{} | {} | {} | {} | {} | {} | {} | {furthest} |",
            bounds[0], bounds[1], band.pixels, band.differ, band.too_low, band.too_high, band.mantissas, band.black
        );
    }
    named();
    powers();
}

/// Pixels whose largest sample is from 2^power to below 2^(power+1).
fn one_power(random: &mut Random, power: i32, band: &mut Band) {
    let low = (power as f64).exp2() as f32;
    let first = low.to_bits();
    let last = if power == 127 { f32::MAX.to_bits() } else { (low * 2.0).to_bits() - 1 };
    let spread = last - first + 1;
    let mut tops: Vec<u32> =
        [0, 1, 2, 3].iter().flat_map(|d| [first + d.min(&(spread - 1)), last - d.min(&(spread - 1))]).collect();
    tops.extend((0..EACH).map(|_| first + (random.next() % spread as u64) as u32));
    let mut samples = Vec::new();
    for bits in tops {
        let v = f32::from_bits(bits);
        let part = |random: &mut Random| v * (random.below(1 << 20) as f32 / (1 << 20) as f32);
        let mut pixel = [v, part(random), part(random)];
        pixel.rotate_left(random.below(3));
        samples.extend(pixel);
    }
    let theirs = convert(&samples);
    for (pixel, bytes) in samples.chunks_exact(3).zip(theirs.chunks_exact(4)) {
        one_pixel(band, pixel, bytes);
    }
}

fn one_pixel(band: &mut Band, samples: &[f32], bytes: &[u8]) {
    band.pixels += 1;
    let Some(ours) = by_documents(samples) else {
        band.differ += 1;
        band.unlike += 1;
        return;
    };
    if ours == bytes {
        return;
    }
    band.differ += 1;
    band.too_low += (bytes[3] < ours[3]) as usize;
    band.too_high += (bytes[3] > ours[3]) as usize;
    band.mantissas += (ours[3] == bytes[3]) as usize;
    band.black += (value(bytes, 0) + value(bytes, 1) + value(bytes, 2) == 0.0) as usize;
    let v = samples.iter().copied().fold(0.0, f32::max);
    let step = (exponent_of(v) as f64 - 8.0).exp2();
    for i in 0..3 {
        band.furthest = band.furthest.max((value(&ours, i) - value(bytes, i)).abs() / step);
    }
}

/// The lower edge of a pixel's step: m·2^(E-136), and 0 if E is 0.
fn value(pixel: &[u8], i: usize) -> f64 {
    if pixel[3] == 0 {
        0.0
    } else {
        pixel[i] as f64 * (pixel[3] as f64 - 136.0).exp2()
    }
}

fn shown(pixel: Option<[u8; 4]>) -> String {
    pixel.map_or("refusal 12".to_string(), |p| format!("{},{},{},{}", p[0], p[1], p[2], p[3]))
}

fn print_one(name: &str, samples: [f32; 3]) {
    let theirs: [u8; 4] = convert(&samples).try_into().unwrap();
    println!("| {name} | {} | {} |", shown(Some(theirs)), shown(by_documents(&samples)));
}

/// The samples that the issue names.
fn named() {
    let two127 = 2f32.powi(127);
    let below = f32::from_bits(two127.to_bits() - 1);
    let signalling = f32::from_bits(0x7f80_0001);
    println!("\nOn this processor ({}):\n", std::env::consts::ARCH);
    println!("| samples | the crate | the documents |\n|---|---|---|");
    print_one("0.003 three times", [0.003; 3]);
    print_one("0.004 three times", [0.004; 3]);
    print_one("0.25 three times", [0.25; 3]);
    print_one("0.5 three times", [0.5; 3]);
    print_one("1, 0.5, 0.25", [1.0, 0.5, 0.25]);
    print_one("1 three times", [1.0; 3]);
    print_one("2 three times", [2.0; 3]);
    print_one("2^-32 three times", [2f32.powi(-32); 3]);
    print_one("2^126 three times", [2f32.powi(126); 3]);
    print_one("the largest below 2^10, 0, 0", [f32::from_bits(2f32.powi(10).to_bits() - 1), 0.0, 0.0]);
    print_one("the largest below 2^100, 0, 0", [f32::from_bits(2f32.powi(100).to_bits() - 1), 0.0, 0.0]);
    print_one("the largest below 2^127, 0, 0", [below, 0.0, 0.0]);
    print_one("2^127, 1, 1", [two127, 1.0, 1.0]);
    print_one("the largest f32, 0, 0", [f32::MAX, 0.0, 0.0]);
    print_one("infinity, 1, 1", [f32::INFINITY, 1.0, 1.0]);
    print_one("minus infinity, 1, 1", [f32::NEG_INFINITY, 1.0, 1.0]);
    print_one("-1, no number, 2^-32", [-1.0, f32::NAN, 2f32.powi(-32)]);
    print_one("no number, 5, 1", [f32::NAN, 5.0, 1.0]);
    print_one("5, no number, 1", [5.0, f32::NAN, 1.0]);
    print_one("signalling no-number, 5, 1", [signalling, 5.0, 1.0]);
    print_one("5, signalling no-number, 1", [5.0, signalling, 1.0]);
    print_one("5, 1, signalling no-number", [5.0, 1.0, signalling]);
    print_one("three no-numbers", [f32::NAN; 3]);
    print_one("the f32 nearest to 1e-32", [f32::from_bits(0x0a4f_b11f), 0.0, 0.0]);
    print_one("the next f32", [f32::from_bits(0x0a4f_b120), 0.0, 0.0]);
}

/// Powers of two as single samples, in one line for each stretch of a sort.
fn powers() {
    println!("\n| 2^k, 0, 0, for k from | to | by the crate | its bytes | the documents' bytes |\n|---|---|---|---|---|");
    let mut k = -106;
    while k <= 127 {
        let (sort, first) = power_of_two(k);
        let mut end = k;
        while end < 127 && power_of_two(end + 1).0 == sort {
            end += 1;
        }
        let (_, last) = power_of_two(end);
        println!("| {k} | {end} | {sort} | {} ... {} | {} ... {} |", first[0], last[0], first[1], last[1]);
        k = end + 1;
    }
}

/// What the crate makes of 2^k, and both sides' bytes.
fn power_of_two(k: i32) -> (&'static str, [String; 2]) {
    let samples = [(k as f64).exp2() as f32, 0.0, 0.0];
    let theirs: [u8; 4] = convert(&samples).try_into().unwrap();
    let ours = by_documents(&samples);
    let sort = match ours {
        Some(pixel) if pixel == theirs => "the same",
        _ if value(&theirs, 0) == 0.0 => "black",
        Some(pixel) if pixel[3] == theirs[3] + 1 => "one exponent too low",
        _ => "exponent byte 128",
    };
    (sort, [shown(Some(theirs)), shown(ours)])
}

fn print_read(name: &str, bytes: &[u8], length: usize) {
    let reading = crate_side::read(65_535, 65_535, length, bytes);
    let answer = match reading.answer {
        Read::Panicked => "panic".to_string(),
        Read::Torn => "torn output".to_string(),
        Read::Refused { number, row } => format!("error of number {number}, row {row}"),
        Read::Sizes { width, height } => format!("{width} by {height}, {} of {} bytes taken", reading.taken, bytes.len()),
    };
    let output: Vec<String> = reading
        .output
        .iter()
        .map(|s| if *s == crate_side::UNWRITTEN { "untouched".to_string() } else { f32::from_bits(*s).to_string() })
        .collect();
    println!(
        "{name}\n  bytes  {}\n  answer {answer}\n  output {}\n  store  {:?}\n",
        bytes.escape_ascii(),
        output.join(" "),
        reading.store
    );
}

/// Runs the crate on a small input for each difference, and prints what it did.
pub fn differences() {
    let after = |header: &[u8], row: &[u8]| [header, row].concat();
    print_read("exponent byte 96, as 128 (257·2^-41 by the document)", &after(b"#?RGBE\n\n-Y 1 +X 1\n", &[128, 0, 0, 96]), 3);
    print_read("exponent byte 160 (257·2^23 by the document)", &after(b"#?RGBE\n\n-Y 1 +X 1\n", &[128, 0, 0, 160]), 3);
    print_read("no mantissa at exponent byte 128 (2^-9 by the document)", &after(b"#?RGBE\n\n-Y 1 +X 1\n", &[0, 0, 0, 128]), 3);
    print_read("old run after one pixel: not taken", &after(b"#?RGBE\n\n-Y 1 +X 2\n", &[10, 10, 10, 129, 1, 1, 1, 1]), 6);
    print_read(
        "old run after two pixels: one copy ends a row of four",
        &after(b"#?RGBE\n\n-Y 1 +X 4\n", &[10, 10, 10, 129, 20, 20, 20, 129, 1, 1, 1, 2]),
        12,
    );
    let row: Vec<u8> = [&[9, 9, 9, 136, 8, 8, 8, 136, 1, 1, 1, 3][..], &[7, 7, 7, 136]].concat();
    print_read("old run in a row of seven: four pixels fewer for each copy", &after(b"#?RGBE\n\n-Y 1 +X 7\n", &row), 21);
    print_read(
        "row of repeats alone: shown with what the row store had",
        &after(b"#?RGBE\n\n-Y 1 +X 1\n", &[1, 1, 1, 0, 1, 1, 1, 0, 1, 1, 1, 0]),
        3,
    );
    print_read(
        "missing run byte in the last channel",
        &after(b"#?RGBE\n\n-Y 1 +X 8\n", &[2, 2, 0, 8, 136, 128, 136, 64, 136, 32, 136]),
        24,
    );
    print_read(
        "missing literal bytes in the last channel",
        &after(b"#?RGBE\n\n-Y 1 +X 8\n", &[2, 2, 0, 8, 136, 128, 136, 64, 136, 32, 8, 129, 129]),
        24,
    );
    print_read("missing count", &after(b"#?RGBE\n\n-Y 1 +X 8\n", &[2, 2, 0, 8, 136, 128, 136, 64, 136, 32]), 24);
    print_read(
        "mark of width 1 in a row of 8",
        &after(b"#?RGBE\n\n-Y 1 +X 8\n", &[2, 2, 0, 1, 136, 128, 136, 64, 136, 32, 136, 129]),
        24,
    );
    print_read(
        "count past the row's end",
        &after(b"#?RGBE\n\n-Y 1 +X 8\n", &[2, 2, 0, 8, 255, 128, 136, 64, 136, 32, 136, 129]),
        24,
    );
    print_read("count of 0", &after(b"#?RGBE\n\n-Y 1 +X 8\n", &[2, 2, 0, 8, 0, 136, 128, 136, 64, 136, 32, 136, 129]), 24);
    let four = [1, 0, 0, 136, 2, 0, 0, 136, 3, 0, 0, 136, 4, 0, 0, 136];
    print_read(
        "+X 2 -Y 2: pixels 1, 2, 3, 4 are rows 1 2 and 3 4 (columns by the document)",
        &after(b"#?RGBE\n\n+X 2 -Y 2\n", &four),
        12,
    );
    print_read("+Y 1 +X 1: the rows from the bottom", &after(b"#?RGBE\n\n+Y 1 +X 1\n", &[128, 64, 32, 129]), 3);
    print_read("lower edge of the step", &after(b"#?RGBE\n\n-Y 1 +X 1\n", &[128, 64, 32, 129]), 3);
    print_read(
        "FORMAT xyze, EXPOSURE 2, unread",
        &after(b"#?RGBE\nFORMAT=32-bit_rle_xyze\nEXPOSURE=2\n\n-Y 1 +X 1\n", &[128, 64, 32, 129]),
        3,
    );
    print_read("FORMAT that no document knows", &after(b"#?RGBE\nFORMAT=x\n\n-Y 1 +X 1\n", &[128, 64, 32, 129]), 3);
    print_read("a size line with no empty line before it", b"#?RGBE\n-Y 1 +X 1\n", 3);
    for (name, space) in [("no-break space", "\u{a0}"), ("next line", "\u{85}"), ("ideographic space", "\u{3000}")] {
        let header = format!("#?RGBE\n\n-Y{space} 0 +X 1\n");
        print_read(&format!("{name} after an axis"), header.as_bytes(), 0);
    }
    print_read("row's first byte missing, width 8", b"#?RGBE\n\n-Y 1 +X 8\n", 24);
    print_read(
        "second row's first byte missing, width 8",
        &after(b"#?RGBE\n\n-Y 2 +X 8\n", &[2, 2, 0, 8, 136, 128, 136, 64, 136, 32, 136, 129]),
        48,
    );
    match crate_side::head(usize::MAX, usize::MAX, b"#?RGBE\n\n-Y 4294967296 +X 4294967296\n").0 {
        Head::Sizes { .. } => println!("sizes of 2^32 with no limits: the header is taken"),
        _ => println!("sizes of 2^32 with no limits: refused"),
    }
    print_read_unlimited();
    print_write("width 0, height 1", 0, 1, &[]);
    print_write("width 0, height 0", 0, 0, &[]);
    print_write("width 1, height 0", 1, 0, &[]);
    print_write("width 1, height 1, two samples", 1, 1, &[1.0, 1.0]);
    print_write("width 70,000, height 1", 70_000, 1, &vec![1.0; 210_000]);
    print_write("width 1, height 1, 0.004 three times", 1, 1, &[0.004; 3]);
    print_read("that pixel, 1,1,1,128, in a row of 1", &after(b"#?RGBE\n\n-Y 1 +X 1\n", &[1, 1, 1, 128]), 3);
    print_saves("1 three times", [1.0; 3]);
    print_saves("0.75 three times", [0.75; 3]);
    print_saves("0.1, 0.2, 0.4", [0.1, 0.2, 0.4]);
    print_saves("100, 10, 1", [100.0, 10.0, 1.0]);
    let (fits, used) = crate_side::write_into(1, 1, &[1.0; 3], 66);
    println!("writer, width 1, height 1, room of 66 bytes: {}, {used} bytes written", if fits { "done" } else { "error" });
    guarantee();
}

fn print_read_unlimited() {
    let reading = crate_side::read(usize::MAX, usize::MAX, 0, b"#?RGBE\n\n-Y 4294967296 +X 4294967296\n");
    let word = match reading.answer {
        Read::Panicked => "panic",
        _ => "no panic",
    };
    println!("  and the reading of it: {word}\n");
}

fn print_write(name: &str, width: usize, height: usize, samples: &[f32]) {
    let word = match crate_side::write(width, height, samples) {
        Written::Panicked => "panic".to_string(),
        Written::WrongCount => "error: wrong input size".to_string(),
        Written::NoRoom => "error: no room".to_string(),
        Written::Other => "another error".to_string(),
        Written::File(file) => format!("{} bytes: {}", file.len(), file[..file.len().min(90)].escape_ascii()),
    };
    println!("writer, {name}: {word}");
}

/// Writes a pixel, reads that file, writes what was read, and so on: the four bytes in each file.
fn print_saves(name: &str, pixel: [f32; 3]) {
    let mut samples = pixel.to_vec();
    let mut words = Vec::new();
    for _ in 0..5 {
        let Written::File(file) = crate_side::write(1, 1, &samples) else { break };
        words.push(file[file.len() - 4..].iter().map(u8::to_string).collect::<Vec<_>>().join(","));
        samples = crate_side::read(1, 1, 3, &file).output.into_iter().map(f32::from_bits).collect();
    }
    println!("saved five times, {name}: {}", words.join(" "));
}

/// Sample sky 9: the crate's file beside `expected_buffer_size`.
fn guarantee() {
    for height in [119, 120] {
        let samples: Vec<f32> = (0..8 * height).flat_map(|i| [if i % 2 == 0 { 1.0 } else { 2.5 }; 3]).collect();
        let Written::File(file) = crate_side::write(8, height, &samples) else { continue };
        let expected = crate_side::expected_buffer_size(8, height).unwrap();
        println!("writer, width 8, height {height}, 1 and 2.5 in turn: {} bytes, expected_buffer_size {expected}", file.len());
    }
}
