//! How much memory a few bytes that say an immense picture make `decode` ask for: a row, and 191 times their number; by
//! the document, 65,535 times.

use doorwhisp::{DecoderOptions, HdrDecoder, HdrError, Reading};
use std::alloc::{GlobalAlloc, Layout, System};
use std::sync::atomic::{AtomicUsize, Ordering};

/// The most bytes that were asked for at once.
static MOST: AtomicUsize = AtomicUsize::new(0);

struct Watched;

unsafe impl GlobalAlloc for Watched {
    unsafe fn alloc(&self, layout: Layout) -> *mut u8 {
        MOST.fetch_max(layout.size(), Ordering::Relaxed);
        System.alloc(layout)
    }

    unsafe fn dealloc(&self, place: *mut u8, layout: Layout) {
        System.dealloc(place, layout)
    }
}

#[global_allocator]
static WATCHED: Watched = Watched;

/// A picture of 65,535 rows of a width, and by the document one of as many columns of that height.
fn lines_of_sizes(reading: Reading, width: usize) -> Vec<String> {
    let by_rows = format!("-Y 65535 +X {width}");
    match reading {
        Reading::Crate => vec![by_rows],
        Reading::Document => vec![by_rows, format!("+X 65535 -Y {width}")],
    }
}

/// What `decode` says of a picture with this line of sizes, and the most bytes that it asks for at once.
fn told(reading: Reading, sizes: &str, rows: &[u8]) -> (HdrError, usize) {
    let header = format!("#?RGBE\n\n{sizes}\n");
    let file = [header.as_bytes(), rows].concat();
    let options = DecoderOptions::default().set_reading(reading);
    MOST.store(0, Ordering::Relaxed);
    let mut decoder = HdrDecoder::new_with_options(&file, options);
    let refusal = decoder.decode().unwrap_err();
    (refusal, MOST.load(Ordering::Relaxed))
}

#[test]
fn a_few_bytes_that_say_an_immense_picture_ask_for_little_memory() {
    use Reading::{Crate, Document};
    let pixel = [9, 9, 9, 129];
    let coded = [&[2, 2, 127, 255][..], &[255, 7].repeat(259 * 4)].concat();
    let repeats = [9, 9, 9, 129, 1, 1, 1, 254, 1, 1, 1, 255];
    let three = pixel.repeat(3 * 65_535);
    let end = |row| HdrError::BytesEnd { row };
    let cases = [
        (Crate, 65_535, vec![9; 5], end(0)),
        (Crate, 65_535, vec![1, 1, 1, 5], HdrError::OldRun { row: 0 }),
        (Crate, 65_535, three.clone(), end(3)),
        (Crate, 32_767, coded.repeat(2), end(2)),
        (Crate, 1, pixel.repeat(70), end(70)),
        (Document, 65_535, vec![9; 5], end(0)),
        (Document, 65_535, vec![1; 4], HdrError::BrokenRow { row: 0 }),
        (Document, 65_535, repeats.repeat(2), end(2)),
        (Document, 256, pixel.repeat(300), end(1)),
        (Document, 1, pixel.repeat(70), end(70)),
    ];
    for (reading, width, rows, refusal) in cases {
        let times = if reading == Crate {
            191
        } else {
            width.max(400)
        };
        for sizes in lines_of_sizes(reading, width) {
            let (found, most) = told(reading, &sizes, &rows);
            assert_eq!(found, refusal);
            assert!(
                most <= times * (rows.len() + 30) + 12 * width,
                "{most} bytes of {sizes}"
            );
        }
    }
}
