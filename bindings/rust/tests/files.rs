//! Real bytes through the linked calls. What is expected was worked out by hand from docs/RULES.md.

use doorwhisp::{
    document_pixel_from_bytes, pixel_from_bytes, pixel_to_bytes, DecoderOptions, EncoderOptions,
    HdrDecoder, HdrEncoder, HdrError, Reading,
};

/// A coded row of eight pixels, then a flat one; two bytes more follow the file.
const TWO_ROWS: &[u8] = &[
    b'#', b'?', b'R', b'G', b'B', b'E', b'\n', b'\n', // 8 bytes
    b'-', b'Y', b' ', b'2', b' ', b'+', b'X', b' ', b'8', b'\n', // 18
    2, 2, 0, 8, // the mark of a coded row of 8: 22
    136, 128, // red: eight times 128: 24
    8, 0, 1, 2, 3, 4, 5, 6, 7, // green: eight literals: 33
    132, 64, 4, 32, 32, 16, 16, // blue: four times 64, four literals: 40
    135, 129, 1, 136, // exponents: seven times 129, then 136: 44
    1, 2, 3, 136, 1, 2, 3, 136, 1, 2, 3, 136, 1, 2, 3, 136, // a flat row: 60
    1, 2, 3, 136, 1, 2, 3, 136, 1, 2, 3, 136, 255, 255, 255, 0, // 76
    9, 9,
];

/// At exponent byte 129 a mantissa is worth 1/128, at 136 it is worth 1, at 0 nothing.
#[rustfmt::skip]
const TWO_ROWS_SAMPLES: [f32; 48] = [
    1.0, 0.0 / 128.0, 0.5, 1.0, 1.0 / 128.0, 0.5, 1.0, 2.0 / 128.0, 0.5, 1.0, 3.0 / 128.0, 0.5,
    1.0, 4.0 / 128.0, 0.25, 1.0, 5.0 / 128.0, 0.25, 1.0, 6.0 / 128.0, 0.125, 128.0, 7.0, 16.0,
    1.0, 2.0, 3.0, 1.0, 2.0, 3.0, 1.0, 2.0, 3.0, 1.0, 2.0, 3.0,
    1.0, 2.0, 3.0, 1.0, 2.0, 3.0, 1.0, 2.0, 3.0, 0.0, 0.0, 0.0,
];

/// The same by the document: half a step more, but at exponent byte 0.
#[rustfmt::skip]
const TWO_ROWS_BY_DOCUMENT: [f32; 48] = [
    257.0 / 256.0, 1.0 / 256.0, 129.0 / 256.0, 257.0 / 256.0, 3.0 / 256.0, 129.0 / 256.0,
    257.0 / 256.0, 5.0 / 256.0, 129.0 / 256.0, 257.0 / 256.0, 7.0 / 256.0, 129.0 / 256.0,
    257.0 / 256.0, 9.0 / 256.0, 65.0 / 256.0, 257.0 / 256.0, 11.0 / 256.0, 65.0 / 256.0,
    257.0 / 256.0, 13.0 / 256.0, 33.0 / 256.0, 128.5, 7.5, 16.5,
    1.5, 2.5, 3.5, 1.5, 2.5, 3.5, 1.5, 2.5, 3.5, 1.5, 2.5, 3.5,
    1.5, 2.5, 3.5, 1.5, 2.5, 3.5, 1.5, 2.5, 3.5, 0.0, 0.0, 0.0,
];

/// What a file of ours starts with; the height, the width and the pixels follow.
const LINES: &str = "#?RADIANCE\nSOFTWARE=zune-hdr\nFORMAT=32-bit_rle_rgbe\n\n-Y ";

/// 2^127, the least sample that no file holds.
const TOO_BRIGHT: f32 = 170141183460469231731687303715884105728.0;

/// The refusal of a file that is read with room for everything.
fn refusal(file: &str) -> HdrError {
    HdrDecoder::new(file).decode().unwrap_err()
}

/// A decoder that reads by the document.
fn by_document<B: AsRef<[u8]> + ?Sized>(file: &B) -> HdrDecoder<'_> {
    let options = DecoderOptions::default().set_reading(Reading::Document);
    HdrDecoder::new_with_options(file, options)
}

#[test]
fn the_reading_is_zune_hdrs_unless_it_is_chosen() {
    let options = DecoderOptions::default();
    assert_eq!(options.reading(), Reading::Crate);
    let chosen = options.set_reading(Reading::Document).set_max_width(9);
    assert_eq!(chosen.reading(), Reading::Document);
}

#[test]
fn coded_and_flat_rows_are_read_by_the_document() {
    let mut out = [7.0; 50];
    let mut decoder = by_document(TWO_ROWS);
    assert_eq!(decoder.decode().unwrap(), TWO_ROWS_BY_DOCUMENT);
    assert_eq!(decoder.dimensions(), Some((8, 2)));
    assert_eq!(decoder.header_size(), Some(18));
    assert_eq!(decoder.decode_into(&mut out), Ok(76));
    assert_eq!(out[48..], [7.0, 7.0]);
}

#[test]
fn old_runs_repeat_the_pixel_before_them_by_the_document() {
    let row = |rows: &[u8], width: usize| {
        let file = [format!("#?RGBE\n\n-Y 1 +X {width}\n").as_bytes(), rows].concat();
        let samples = by_document(&file).decode().unwrap();
        samples.chunks(3).map(|pixel| pixel[0]).collect::<Vec<_>>()
    };
    let (a, b) = ([7, 0, 0, 136], [8, 0, 0, 136]);
    let run = |n: u8| [1, 1, 1, n];
    assert_eq!(row(&[a, run(2), b].concat(), 4), [7.5, 7.5, 7.5, 8.5]);
    assert_eq!(row(&[a, run(0), b, run(1)].concat(), 3), [7.5, 8.5, 8.5]);
    // 3 and then 1 * 256
    let long = [vec![7.5; 260], vec![8.5]].concat();
    assert_eq!(row(&[a, run(3), run(1), b].concat(), 261), long);
    // a first pixel that starts with 2 is repeated too
    let two = [2, 3, 4, 136];
    assert_eq!(row(&[two, run(7)].concat(), 8), [2.5; 8]);
}

#[test]
fn a_broken_row_is_told_by_the_document() {
    let broken = |row: &[u8]| {
        let file = [&TWO_ROWS[..44], row].concat();
        let mut out = [7.0; 48];
        let answer = by_document(&file).decode_into(&mut out);
        assert_eq!(out[..24], TWO_ROWS_BY_DOCUMENT[..24]);
        assert_eq!(out[24..], [7.0; 24]);
        answer.unwrap_err()
    };
    let wrong = HdrError::BrokenRow { row: 1 };
    // another width in the mark; a count over the end; a repeat of nothing, and one over the end
    assert_eq!(broken(&[2, 2, 0, 9]), wrong);
    assert_eq!(broken(&[2, 2, 0, 8, 137]), wrong);
    assert_eq!(broken(&[1, 1, 1, 0]), wrong);
    assert_eq!(broken(&[9, 9, 9, 129, 1, 1, 1, 8]), wrong);
    // and before that bytes are missing
    assert_eq!(broken(&[2, 2, 0]), HdrError::BytesEnd { row: 1 });
    assert_eq!(broken(&[1, 1, 1]), HdrError::BytesEnd { row: 1 });
}

#[test]
fn every_cut_is_refused_by_the_document() {
    let coded = [&TWO_ROWS[..44], &TWO_ROWS[18..44]].concat();
    assert_eq!(by_document(&coded).decode().map(|s| s.len()), Ok(48));
    for length in 18..70 {
        let row = usize::from(length >= 44);
        let answer = by_document(&coded[..length]).decode();
        assert_eq!(answer, Err(HdrError::BytesEnd { row }));
    }
    // zune-hdr reads the last of them, and its last pixel is black
    let samples = HdrDecoder::new(&coded[..69]).decode().unwrap();
    assert_eq!(samples[45..], [0.0; 3]);
}

#[test]
fn light_is_the_documents_at_every_exponent_byte() {
    for e in 0..=255 {
        let half = if e == 0 {
            0.0
        } else {
            2f64.powi(i32::from(e) - 137)
        };
        let light = document_pixel_from_bytes([128, 0, 255, e]).map(f64::from);
        assert_eq!(light, [257.0 * half, half, 511.0 * half]);
        // zune-hdr's is half a step below from 97 to 159, and 0 too at 0
        let shown = pixel_from_bytes([128, 0, 255, e]).map(f64::from);
        let below = light.map(|sample| sample - half);
        assert_eq!(shown == below, e == 0 || (97..=159).contains(&e));
    }
}

#[test]
fn samples_come_back_to_half_a_step_by_the_document() {
    let written = [1.0, 0.999, 0.0, 1e-30, 3e-31, 0.0, 1e38, 2e37, 5e36, 0.0, 0.0, 0.0];
    let options = EncoderOptions::new(4, 1);
    let file = HdrEncoder::new(&written, options).encode_to_vec().unwrap();
    let back = by_document(&file).decode().unwrap();
    // half a step is 2^(E-137), and 1 is halfway between two middles
    for (i, e) in [129, 29, 255].into_iter().enumerate() {
        let half = 2f64.powi(e - 137);
        for k in 3 * i..3 * i + 3 {
            assert!((f64::from(back[k]) - f64::from(written[k])).abs() <= half);
        }
    }
    assert_eq!(back[0], 257.0 / 256.0);
    assert_eq!(back[9..], [0.0; 3]);
}

#[test]
fn coded_and_flat_rows_are_read() {
    let mut decoder = HdrDecoder::new(TWO_ROWS);
    assert_eq!(decoder.dimensions(), None);
    assert_eq!(decoder.output_buffer_size(), None);
    decoder.decode_headers().unwrap();
    assert_eq!(decoder.dimensions(), Some((8, 2)));
    assert_eq!(decoder.header_size(), Some(18));
    assert_eq!(decoder.output_buffer_size(), Some(48));
    assert_eq!(decoder.row_store_size(), Some(32));
    assert_eq!(decoder.decode().unwrap(), TWO_ROWS_SAMPLES);
}

#[test]
fn bytes_taken_end_before_what_follows_and_so_does_the_output() {
    let mut out = [7.0; 50];
    let mut decoder = HdrDecoder::new(TWO_ROWS);
    assert_eq!(decoder.decode_into(&mut out), Ok(76));
    assert_eq!(out[..48], TWO_ROWS_SAMPLES);
    assert_eq!(out[48..], [7.0, 7.0]);
}

#[test]
fn the_row_store_can_be_lent() {
    let mut out = [7.0; 48];
    let mut store = [5; 33];
    let taken = HdrDecoder::new(TWO_ROWS).decode_with(&mut out, &mut store);
    assert_eq!(taken, Ok(76));
    assert_eq!(out, TWO_ROWS_SAMPLES);
    assert_eq!(store[..32], TWO_ROWS[44..76]);
    assert_eq!(store[32], 5);
}

#[test]
fn the_other_axes_and_comments_are_read() {
    let file =
        b"#?RADIANCE\n# a comment\nEXPOSURE=2\n\n+X 2 -Y 1\n\x80\x40\x20\x81\x01\x02\x03\x88";
    let mut decoder = HdrDecoder::new(file);
    assert_eq!(decoder.decode().unwrap(), [1.0, 0.5, 0.25, 1.0, 2.0, 3.0]);
    assert_eq!(decoder.dimensions(), Some((2, 1)));
}

#[test]
fn no_rows_are_no_samples() {
    assert_eq!(
        HdrDecoder::new("#?RGBE\n\n-Y 0 +X 3\n").decode(),
        Ok(vec![])
    );
}

#[test]
fn a_file_is_refused_by_number() {
    assert_eq!(refusal(""), HdrError::FirstLine);
    assert_eq!(refusal("P6\n\n-Y 1 +X 1\n"), HdrError::FirstLine);
    assert_eq!(refusal("#?RGBE\n\n+Y 1 +X 1\n"), HdrError::Axes);
    assert_eq!(refusal("#?RGBE\n\n-Y -1 +X 1\n"), HdrError::Size);
    assert_eq!(
        refusal("#?RGBE\n\n-Y 65536 +X 65536\n"),
        HdrError::TooHigh { limit: 65_535 }
    );
    assert_eq!(
        refusal("#?RGBE\n\n-Y 1 +X 65536\n"),
        HdrError::TooWide { limit: 65_535 }
    );
    assert_eq!(refusal("#?RGBE\n\n-Y 1 +X 0\n"), HdrError::NoWidth);
    let short = HdrDecoder::new("#?RGBE\n\n-Y 1 +X 1\n123").decode_into(&mut [0.0; 3]);
    assert_eq!(short, Err(HdrError::BytesEnd { row: 0 }));
}

#[test]
fn limits_are_kept() {
    let limited = |width, height| {
        let options = DecoderOptions::default()
            .set_max_width(width)
            .set_max_height(height);
        let mut decoder = HdrDecoder::new_with_options(TWO_ROWS, options);
        let read = decoder.decode_with(&mut [0.0; 48], &mut [0; 32]);
        assert_eq!(decoder.decode_headers(), read.clone().map(|_| ()));
        read
    };
    assert_eq!(limited(8, 2), Ok(76));
    assert_eq!(limited(8, 1), Err(HdrError::TooHigh { limit: 1 }));
    assert_eq!(limited(7, 2), Err(HdrError::TooWide { limit: 7 }));
}

#[test]
fn memory_that_is_too_short_is_left_as_it_was_lent() {
    let mut out = [7.0; 48];
    let mut store = [5; 32];
    let decoder = HdrDecoder::new(TWO_ROWS);
    let (found, wanted) = (47, 48);
    let short_output = decoder.decode_with(&mut out[..47], &mut store);
    assert_eq!(short_output, Err(HdrError::ShortOutput { found, wanted }));
    let (found, wanted) = (31, 32);
    let short_store = decoder.decode_with(&mut out, &mut store[..31]);
    assert_eq!(short_store, Err(HdrError::ShortStore { found, wanted }));
    assert_eq!(out, [7.0; 48]);
    assert_eq!(store, [5; 32]);
}

#[test]
fn rows_before_the_end_of_the_bytes_stay() {
    let mut out = [7.0; 48];
    let mut decoder = HdrDecoder::new(&TWO_ROWS[..75]);
    let answer = decoder.decode_into(&mut out);
    assert_eq!(answer, Err(HdrError::BytesEnd { row: 1 }));
    assert_eq!(out[..24], TWO_ROWS_SAMPLES[..24]);
    assert_eq!(out[24..], [7.0; 24]);
}

#[test]
fn a_flat_frame_is_written_byte_by_byte() {
    let samples = [1.0, 0.5, 0.25, 0.003, 0.003, 0.003];
    let encoder = HdrEncoder::new(&samples, EncoderOptions::new(2, 1));
    let mut expected = format!("{LINES}1 +X 2\n").into_bytes();
    expected.extend([128, 64, 32, 129, 196, 196, 196, 120]);
    let mut file = Vec::with_capacity(encoder.expected_buffer_size().unwrap());
    assert_eq!(encoder.encode(&mut file), Ok(71));
    assert_eq!(file, expected);
    assert_eq!(encoder.encode(&mut file), Ok(71));
    assert_eq!(file, [expected.clone(), expected.clone()].concat());
    assert_eq!(encoder.encode_to_vec(), Ok(expected));
}

#[test]
fn coded_pixels_are_written_byte_by_byte() {
    // in each channel two 5s and six 9s: runs of 2 and 6
    let pixels = [[5; 8].as_slice(), &[9; 24]].concat();
    let encoder = HdrEncoder::new_from_rgbe(&pixels, EncoderOptions::new(8, 1));
    let mut expected = format!("{LINES}1 +X 8\n").into_bytes();
    expected.extend([2, 2, 0, 8]);
    expected.extend([130, 5, 134, 9].repeat(4));
    let mut out = [77; 85];
    assert_eq!(encoder.exact_size(), Ok(83));
    assert_eq!(encoder.encode_into(&mut out), Ok(83));
    assert_eq!(out[..83], expected);
    assert_eq!(out[83..], [77, 77]);
}

#[test]
fn what_is_written_is_read_back() {
    // eighths below 32 in every order: each is a whole number of steps of its pixel
    let samples: Vec<f32> = (0..3 * 20 * 11)
        .map(|i| (i * 37 % 256) as f32 / 8.0)
        .collect();
    let mut file = Vec::new();
    HdrEncoder::new(&samples, EncoderOptions::new(20, 11))
        .encode(&mut file)
        .unwrap();
    let mut decoder = HdrDecoder::new(&file);
    assert_eq!(decoder.decode().unwrap(), samples);
    assert_eq!(decoder.dimensions(), Some((20, 11)));
    assert_eq!(decoder.decode_into(&mut [0.0; 660]), Ok(file.len()));
}

#[test]
fn the_worst_file_passes_the_guess() {
    // 1 and 2.5 in turn: no byte equals the next, so that a channel of 8 takes 9 bytes
    let samples: Vec<f32> = (0..8 * 120)
        .flat_map(|i| [[1.0; 3], [2.5; 3]][i % 2])
        .collect();
    let encoder = HdrEncoder::new(&samples, EncoderOptions::new(8, 120));
    assert_eq!(encoder.expected_buffer_size(), Some(8 * 120 * 4 + 1024));
    assert_eq!(encoder.worst_size(), Ok(61 + 3 + 1 + 120 * (4 + 4 * 9)));
    assert_eq!(encoder.exact_size(), Ok(4865));
    assert_eq!(encoder.encode_into(&mut [0; 4865]), Ok(4865));
    let (found, wanted) = (4864, 4865);
    let short = encoder.encode_into(&mut [0; 4864]);
    assert_eq!(short, Err(HdrError::NoRoom { found, wanted }));
}

#[test]
fn a_frame_is_refused_by_number_and_the_output_is_left() {
    let frame = |samples: &[f32], width, height| {
        let mut out = [77; 70];
        let encoder = HdrEncoder::new(samples, EncoderOptions::new(width, height));
        let answer = encoder.encode_into(&mut out);
        assert_eq!(out, [77; 70]);
        let mut file = vec![1, 2];
        let refusal = answer.unwrap_err();
        if refusal.number() != Some(13) {
            assert_eq!(encoder.encode(&mut file), Err(refusal.clone()));
            assert_eq!(file, [1, 2]);
        }
        refusal
    };
    assert_eq!(frame(&[], 0, 65_536), HdrError::NoWidth);
    let (width, height) = (65_536, 1);
    assert_eq!(
        frame(&[], width, height),
        HdrError::OverLimit { width, height }
    );
    let (found, wanted) = (4, 3);
    assert_eq!(
        frame(&[0.0; 4], 1, 1),
        HdrError::WrongLength { found, wanted }
    );
    let bright = [
        0.0,
        0.0,
        0.0,
        f32::NAN,
        -1.0,
        TOO_BRIGHT,
        f32::INFINITY,
        0.0,
        0.0,
    ];
    assert_eq!(frame(&bright, 1, 3), HdrError::TooBright { pixel: 1 });
    let (found, wanted) = (70, 71);
    assert_eq!(frame(&[0.0; 6], 2, 1), HdrError::NoRoom { found, wanted });
}

#[test]
fn a_frame_of_four_byte_pixels_is_refused_by_number() {
    let encoder = HdrEncoder::new_from_rgbe(&[9; 12], EncoderOptions::new(3, 1));
    let (found, wanted) = (74, 75);
    let short = encoder.encode_into(&mut [0; 74]);
    assert_eq!(short, Err(HdrError::NoRoom { found, wanted }));
    assert_eq!(encoder.encode_into(&mut [0; 75]), Ok(75));
    let encoder = HdrEncoder::new_from_rgbe(&[9; 12], EncoderOptions::new(4, 1));
    let (found, wanted) = (12, 16);
    let wrong = Err(HdrError::WrongLength { found, wanted });
    assert_eq!(encoder.exact_size(), wrong);
    assert_eq!(encoder.encode_into(&mut [0; 100]), wrong);
}

#[test]
fn four_byte_pixels_that_start_1_1_1_are_written_as_they_are_given() {
    // in a flat row such a pixel is an old run; in a coded row it is a pixel
    let flat = HdrEncoder::new_from_rgbe(&[1, 1, 1, 136], EncoderOptions::new(1, 1));
    let file = flat.encode_to_vec().unwrap();
    assert!(file.ends_with(b"+X 1\n\x01\x01\x01\x88"));
    let told = HdrDecoder::new(&file).decode();
    assert_eq!(told, Err(HdrError::OldRun { row: 0 }));
    let told = by_document(&file).decode();
    assert_eq!(told, Err(HdrError::BrokenRow { row: 0 }));
    let pixels = [1, 1, 1, 136].repeat(8);
    let coded = HdrEncoder::new_from_rgbe(&pixels, EncoderOptions::new(8, 1));
    let file = coded.encode_to_vec().unwrap();
    assert_eq!(HdrDecoder::new(&file).decode(), Ok(vec![1.0; 24]));
    // and from samples there is none
    assert_eq!(pixel_to_bytes([0.004; 3]), Ok([131, 131, 131, 121]));
}

#[test]
fn sizes_that_pass_2_to_the_64_are_none() {
    let of = |width, height| HdrEncoder::new(&[], EncoderOptions::new(width, height));
    assert_eq!(of(usize::MAX, 2).expected_buffer_size(), None);
    assert_eq!(of(1 << 62, 1).expected_buffer_size(), None);
    assert_eq!(
        of((1 << 62) - 257, 1).expected_buffer_size(),
        Some(usize::MAX - 3)
    );
    assert_eq!(of(0, 0).expected_buffer_size(), Some(1024));
}

#[test]
fn one_pixel_goes_to_bytes_and_back() {
    assert_eq!(pixel_from_bytes([128, 64, 32, 129]), [1.0, 0.5, 0.25]);
    assert_eq!(pixel_from_bytes([255, 255, 255, 0]), [0.0; 3]);
    assert_eq!(pixel_to_bytes([0.003; 3]), Ok([196, 196, 196, 120]));
    assert_eq!(pixel_to_bytes([f32::NAN, -1.0, 1.0]), Ok([0, 0, 128, 129]));
    let below = f32::from_bits(TOO_BRIGHT.to_bits() - 1);
    assert_eq!(pixel_to_bytes([below, 0.0, 0.0]), Ok([255, 0, 0, 255]));
    let bright = HdrError::TooBright { pixel: 0 };
    assert_eq!(pixel_to_bytes([TOO_BRIGHT, 0.0, 0.0]), Err(bright));
}

#[test]
fn refusals_have_numbers_places_and_words() {
    let (found, wanted, width, height) = (5, 6, 65_536, 2);
    let in_order = [
        HdrError::FirstLine,
        HdrError::Axes,
        HdrError::Size,
        HdrError::TooHigh { limit: 7 },
        HdrError::TooWide { limit: 8 },
        HdrError::ShortOutput { found, wanted },
        HdrError::NoWidth,
        HdrError::ShortStore { found, wanted },
        HdrError::BytesEnd { row: 3 },
        HdrError::OverLimit { width, height },
        HdrError::WrongLength { found, wanted },
        HdrError::TooBright { pixel: 4 },
        HdrError::NoRoom { found, wanted },
        HdrError::BrokenRow { row: 5 },
    ];
    for (i, error) in in_order.iter().enumerate() {
        assert_eq!(error.number().map(usize::from), Some(i + 1));
        let places = [(9, 3), (12, 4), (14, 5)];
        let place = places.iter().find(|pair| pair.0 == i + 1);
        assert_eq!(error.place(), place.map(|pair| pair.1));
        let start = format!("refusal {}: ", i + 1);
        assert!(error.to_string().starts_with(&start));
    }
    let words = in_order[8].to_string();
    assert_eq!(words, "refusal 9: the file ends in row 3");
    let words = in_order[12].to_string();
    assert_eq!(words, "refusal 13: the file has 6 bytes, the output 5");
    let none = HdrError::NoMemory { wanted };
    assert_eq!((none.number(), none.place()), (None, None));
    assert_eq!(none.to_string(), "memory for 6 bytes cannot be had");
}

#[test]
fn threads_read_side_by_side() {
    let threads: Vec<_> = (0..4)
        .map(|_| std::thread::spawn(|| HdrDecoder::new(TWO_ROWS).decode().unwrap()))
        .collect();
    for thread in threads {
        assert_eq!(thread.join().unwrap(), TWO_ROWS_SAMPLES);
    }
}
