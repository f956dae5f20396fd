//! Reads and writes skies by this project and by the Rust, to be measured. In the folder that it is run in:
//!   bench make SKY             both write and read the sky, what they give is compared, and it is kept as SKY.f32 and SKY.hdr
//!   bench WHO WHAT SKY FRAMES  that many frames by `ours` or `rust`: decode, document (decode, ours by the document), encode,
//!                              exact (encode into room for no byte more), or axes as +X-Y (document, of stored rows that lie so)
//!   bench time WHAT SKY        nanoseconds per pixel, ours and the Rust's, or of axes ours and ours of -Y+X: the best of ROUNDS turns of each

mod skies;

use skies::{HEIGHT, WIDTH};
use std::fs;
use std::time::Instant;
use zune_core::bit_depth::BitDepth;
use zune_core::bytestream::ZCursor;
use zune_core::colorspace::ColorSpace;
use zune_core::options::EncoderOptions;
use zune_hdr::{HdrDecoder, HdrEncoder};

const PIXELS: usize = WIDTH * HEIGHT;
const ROUNDS: usize = 9;

/// Room for a header, and for the rows at their worst.
const WORST: usize = 1024 + HEIGHT * (4 + 4 * (WIDTH + WIDTH / 128));

/// A call that reads a file.
type Read = unsafe extern "C" fn(
    bytes: *const u8,
    length: usize,
    widest: usize,
    highest: usize,
    out: *mut f32,
    out_length: usize,
    store: *mut u8,
    store_length: usize,
    answer: *mut [u64; 8],
);

#[link(name = "doorwhisp", kind = "static")]
extern "C" {
    fn doorwhisp_read(
        bytes: *const u8,
        length: usize,
        widest: usize,
        highest: usize,
        out: *mut f32,
        out_length: usize,
        store: *mut u8,
        store_length: usize,
        answer: *mut [u64; 8],
    );
    fn doorwhisp_read_document(
        bytes: *const u8,
        length: usize,
        widest: usize,
        highest: usize,
        out: *mut f32,
        out_length: usize,
        store: *mut u8,
        store_length: usize,
        answer: *mut [u64; 8],
    );
    fn doorwhisp_write(
        width: usize,
        height: usize,
        samples: *const f32,
        count: usize,
        out: *mut u8,
        out_length: usize,
        answer: *mut [u64; 8],
    );
}

/// The other seven orientations, by their axes.
const TURNED: [&str; 7] = ["-Y-X", "+Y+X", "+Y-X", "+X-Y", "-X-Y", "+X+Y", "-X+Y"];

/// The width and the height of a picture whose stored rows, HEIGHT of WIDTH pixels, lie so.
fn sizes(axes: &str) -> (usize, usize) {
    if axes[1..2] == *"X" { (HEIGHT, WIDTH) } else { (WIDTH, HEIGHT) }
}

/// The same stored rows under another line of sizes.
fn turned(file: &[u8], axes: &str) -> Vec<u8> {
    let line = format!("-Y {HEIGHT} +X {WIDTH}\n");
    let at = file.windows(line.len()).position(|part| part == line.as_bytes()).expect("a line of sizes");
    let other = format!("{} {HEIGHT} {} {WIDTH}\n", &axes[..2], &axes[2..]);
    [&file[..at], other.as_bytes(), &file[at + line.len()..]].concat()
}

/// The samples of stored rows, laid as the axes say: -Y from the top, +X from the left.
fn laid(stored: &[f32], axes: &str) -> Vec<f32> {
    let (width, height) = sizes(axes);
    let mut picture = vec![0.0; stored.len()];
    for (n, pixel) in stored.chunks_exact(3).enumerate() {
        let (row, column) = (n / WIDTH, n % WIDTH);
        let (along_x, along_y) = if width == HEIGHT { (row, column) } else { (column, row) };
        let x = if axes.contains("+X") { along_x } else { width - 1 - along_x };
        let y = if axes.contains("-Y") { along_y } else { height - 1 - along_y };
        picture[3 * (y * width + x)..][..3].copy_from_slice(pixel);
    }
    picture
}

/// Our reader, by one of its calls, of a picture of these sizes.
fn read_ours(call: Read, file: &[u8], sizes: (usize, usize), out: &mut [f32]) {
    let mut store = vec![0; 4 * WIDTH];
    let mut answer = [1; 8];
    unsafe {
        call(
            file.as_ptr(),
            file.len(),
            65535,
            65535,
            out.as_mut_ptr(),
            out.len(),
            store.as_mut_ptr(),
            store.len(),
            &mut answer,
        )
    };
    assert_eq!(answer[..5], [0, 0, sizes.0 as u64, sizes.1 as u64, file.len() as u64], "our reader's answer");
}

/// The Rust's reader.
fn read_rust(file: &[u8], out: &mut [f32]) {
    let mut decoder = HdrDecoder::new(ZCursor::new(file));
    decoder.decode_headers().expect("a header");
    assert_eq!(decoder.dimensions(), Some((WIDTH, HEIGHT)));
    decoder.decode_into(out).expect("a picture");
}

/// Our writer, and the length of the file.
fn write_ours(samples: &[f32], out: &mut [u8]) -> usize {
    let mut answer = [1; 8];
    unsafe { doorwhisp_write(WIDTH, HEIGHT, samples.as_ptr(), samples.len(), out.as_mut_ptr(), out.len(), &mut answer) };
    assert_eq!(answer[..2], [0, 0], "our writer's answer");
    answer[4] as usize
}

/// The Rust's writer, and the length of the file.
fn write_rust(samples: &[f32], out: &mut [u8]) -> usize {
    let options = EncoderOptions::new(WIDTH, HEIGHT, ColorSpace::RGB, BitDepth::Float32);
    HdrEncoder::new(samples, options).encode(out).expect("a file")
}

/// A sky, its file, and memory for the results that has been written to before.
struct Bench {
    samples: Vec<f32>,
    file: Vec<u8>,
    turned: Vec<u8>,
    out: Vec<u8>,
    read: Vec<f32>,
}

impl Bench {
    fn new(sky: &str, what: &str) -> Bench {
        let kept = |kind: &str| fs::read(format!("{sky}.{kind}")).expect("bench make comes first");
        let file = kept("hdr");
        let turned = if TURNED.contains(&what) { turned(&file, what) } else { Vec::new() };
        Bench { samples: from_bytes(&kept("f32")), file, turned, out: vec![7; WORST], read: vec![7.0; 3 * PIXELS] }
    }

    fn turn(&mut self, who: &str, what: &str) {
        let exact = self.file.len();
        match (who, what) {
            ("ours", "decode") => read_ours(doorwhisp_read, &self.file, (WIDTH, HEIGHT), &mut self.read),
            ("ours", "document") => read_ours(doorwhisp_read_document, &self.file, (WIDTH, HEIGHT), &mut self.read),
            ("ours", axes) if TURNED.contains(&axes) => read_ours(doorwhisp_read_document, &self.turned, sizes(axes), &mut self.read),
            ("rust", "decode" | "document") => read_rust(&self.file, &mut self.read),
            ("ours", "encode") => assert_eq!(write_ours(&self.samples, &mut self.out), exact),
            ("rust", "encode") => assert_eq!(write_rust(&self.samples, &mut self.out), exact),
            ("ours", "exact") => assert_eq!(write_ours(&self.samples, &mut self.out[..exact]), exact),
            ("rust", "exact") => assert_eq!(write_rust(&self.samples, &mut self.out[..exact]), exact),
            _ => panic!("no {who} {what}"),
        }
    }

    /// Nanoseconds per pixel of one turn.
    fn timed(&mut self, who: &str, what: &str) -> f64 {
        let start = Instant::now();
        self.turn(who, what);
        start.elapsed().as_nanos() as f64 / PIXELS as f64
    }
}

fn to_bytes(samples: &[f32]) -> Vec<u8> {
    samples.iter().flat_map(|x| x.to_le_bytes()).collect()
}

fn from_bytes(bytes: &[u8]) -> Vec<f32> {
    bytes.chunks_exact(4).map(|b| f32::from_le_bytes([b[0], b[1], b[2], b[3]])).collect()
}

/// Both write the same file, byte for byte. Both read it as the same samples, bit for bit, and our document reading as those that
/// were written, which stand in the middle of their steps; in the other seven orientations too, each laid as its axes say.
fn make(sky: &str) {
    let samples = skies::samples(sky);
    let (mut ours, mut rust) = (vec![7; WORST], vec![9; WORST]);
    let length = write_ours(&samples, &mut ours);
    ours.truncate(length);
    let length = write_rust(&samples, &mut rust);
    rust.truncate(length);
    assert!(ours == rust, "the files differ");
    let file = ours;
    let (mut ours, mut rust) = (vec![7.0; 3 * PIXELS], vec![9.0; 3 * PIXELS]);
    read_rust(&file, &mut rust);
    for (call, wanted) in [(doorwhisp_read as Read, &rust), (doorwhisp_read_document, &samples)] {
        ours.fill(7.0);
        read_ours(call, &file, (WIDTH, HEIGHT), &mut ours);
        assert!(to_bytes(&ours) == to_bytes(wanted), "the samples differ");
    }
    for axes in TURNED {
        ours.fill(7.0);
        read_ours(doorwhisp_read_document, &turned(&file, axes), sizes(axes), &mut ours);
        assert!(to_bytes(&ours) == to_bytes(&laid(&samples, axes)), "the samples under {axes} differ");
    }
    fs::write(format!("{sky}.f32"), to_bytes(&samples)).expect("room for the samples");
    fs::write(format!("{sky}.hdr"), &file).expect("room for the file");
    println!("{sky}: {} bytes, written alike and read alike by both", file.len());
}

/// The best of several turns of two: ours and the Rust's, or ours of turned rows and ours of the same rows as they lie.
fn time(what: &str, sky: &str) {
    let mut bench = Bench::new(sky, what);
    let other = if TURNED.contains(&what) { ("ours", "document") } else { ("rust", what) };
    let mut best = [f64::INFINITY; 2];
    for round in 0..=ROUNDS {
        for ((who, what), best) in [("ours", what), other].iter().zip(&mut best) {
            let t = bench.timed(who, what);
            if round > 0 {
                *best = best.min(t);
            }
        }
    }
    println!("{:.2} {:.2}", best[0], best[1]);
}

fn main() {
    let words: Vec<String> = std::env::args().skip(1).collect();
    let words: Vec<&str> = words.iter().map(String::as_str).collect();
    match words[..] {
        ["make", sky] => make(sky),
        ["time", what, sky] => time(what, sky),
        [who, what, sky, frames] => {
            let mut bench = Bench::new(sky, what);
            for _ in 0..frames.parse::<usize>().expect("a number of frames") {
                bench.turn(who, what);
            }
        }
        _ => panic!("the words are not understood"),
    }
}
