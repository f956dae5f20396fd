//! Pictures stored in all eight orientations, through the linked calls. What is expected was worked out by hand from the Radiance
//! document: the first axis named runs from row to row, the second along a row; -Y starts at the top, +X at the left.

use doorwhisp::{DecoderOptions, HdrDecoder, HdrError, Orientation, Reading};

/// The picture A B C over D E F: its line of sizes, its stored rows, and the orientation.
const EIGHT: [(&str, &[&str], Orientation); 8] = [
    ("-Y 2 +X 3", &["ABC", "DEF"], Orientation::MinusYPlusX),
    ("-Y 2 -X 3", &["CBA", "FED"], Orientation::MinusYMinusX),
    ("+Y 2 -X 3", &["FED", "CBA"], Orientation::PlusYMinusX),
    ("+Y 2 +X 3", &["DEF", "ABC"], Orientation::PlusYPlusX),
    ("+X 3 -Y 2", &["AD", "BE", "CF"], Orientation::PlusXMinusY),
    ("-X 3 -Y 2", &["CF", "BE", "AD"], Orientation::MinusXMinusY),
    ("-X 3 +Y 2", &["FC", "EB", "DA"], Orientation::MinusXPlusY),
    ("+X 3 +Y 2", &["DA", "EB", "FC"], Orientation::PlusXPlusY),
];

/// A grey pixel for each letter; at exponent byte 136 a step is 1.
fn pixels(letters: &str) -> Vec<u8> {
    letters.bytes().flat_map(|b| [b, b, b, 136]).collect()
}

/// A file with this line of sizes.
fn file(sizes: &str, rows: &[u8]) -> Vec<u8> {
    [format!("#?RGBE\n\n{sizes}\n").as_bytes(), rows].concat()
}

fn by_document(file: &[u8]) -> HdrDecoder<'_> {
    let options = DecoderOptions::default().set_reading(Reading::Document);
    HdrDecoder::new_with_options(file, options)
}

/// The letters of grey samples, and a dot for each pixel that is as it was lent, 7.
fn letters(samples: &[f32]) -> String {
    let letter = |pixel: &[f32]| {
        assert!(pixel.iter().all(|sample| *sample == pixel[0]), "{pixel:?}");
        if pixel[0] == 7.0 {
            '.'
        } else {
            assert_eq!(pixel[0].fract(), 0.5);
            pixel[0] as u8 as char
        }
    };
    samples.chunks(3).map(letter).collect()
}

#[test]
fn all_eight_have_numbers_and_axes() {
    for (i, (sizes, _, orientation)) in EIGHT.into_iter().enumerate() {
        assert_eq!(Orientation::ALL[i], orientation);
        assert_eq!(orientation as usize, i + 1);
        assert_eq!(orientation.is_by_columns(), i >= 4);
        let axes = sizes.replace(" 2", "").replace(" 3", "");
        assert_eq!(orientation.to_string(), axes);
    }
}

#[test]
fn the_header_tells_the_orientation() {
    for (sizes, _, orientation) in EIGHT {
        let header = file(sizes, &[]);
        let mut decoder = by_document(&header);
        assert_eq!(decoder.orientation(), None);
        decoder.decode_headers().unwrap();
        assert_eq!(decoder.orientation(), Some(orientation));
        assert_eq!(decoder.dimensions(), Some((3, 2)));
        assert_eq!(decoder.output_buffer_size(), Some(18));
        let row = if orientation.is_by_columns() { 2 } else { 3 };
        assert_eq!(decoder.row_store_size(), Some(4 * row));
    }
}

#[test]
fn the_picture_is_upright_in_all_eight() {
    for (sizes, rows, orientation) in EIGHT {
        let file = file(sizes, &pixels(&rows.concat()));
        let mut decoder = by_document(&file);
        assert_eq!(letters(&decoder.decode().unwrap()), "ABCDEF", "{sizes}");
        assert_eq!(decoder.orientation(), Some(orientation));
        // a row store of a stored row's length is enough, and holds the last one
        let mut out = [7.0; 21];
        let mut store = vec![5; 4 * rows[0].len() + 1];
        assert_eq!(decoder.decode_with(&mut out, &mut store), Ok(file.len()));
        assert_eq!(letters(&out), "ABCDEF.");
        assert_eq!(store, [pixels(rows[rows.len() - 1]), vec![5]].concat());
        let (found, wanted) = (store.len() - 2, store.len() - 1);
        assert_eq!(
            decoder.decode_with(&mut [7.0; 18], &mut store[..found]),
            Err(HdrError::ShortStore { found, wanted })
        );
    }
}

#[test]
fn a_refusal_names_the_stored_row_and_leaves_those_before_it_in_their_places() {
    for (sizes, rows, _) in EIGHT {
        for row in 0..rows.len() {
            let before = rows[..row].concat();
            let left: String = "ABCDEF"
                .chars()
                .map(|c| if before.contains(c) { c } else { '.' })
                .collect();
            let cut = file(sizes, &pixels(&before));
            let broken = [cut.clone(), vec![1, 1, 1, 1]].concat();
            for (bytes, refusal) in [
                (cut, HdrError::BytesEnd { row }),
                (broken, HdrError::BrokenRow { row }),
            ] {
                let mut out = [7.0; 18];
                let mut decoder = by_document(&bytes);
                assert_eq!(decoder.decode_into(&mut out), Err(refusal.clone()));
                assert_eq!(letters(&out), left, "{sizes}");
                assert_eq!(decoder.decode(), Err(refusal));
            }
        }
    }
}

#[test]
fn rows_are_coded_by_the_stored_rows_length() {
    // three columns of nine, from the top: A to I, J to R, S to Z and a
    let column = |mark: u8, first: u8| {
        let greys: Vec<u8> = (first..first + 9)
            .map(|b| if b == 91 { 97 } else { b })
            .collect();
        let channel = [vec![9], greys].concat();
        [vec![2, 2, 0, mark], channel.repeat(3), vec![137, 136]].concat()
    };
    let columns = |mark| [column(9, 65), column(mark, 74), column(9, 83)].concat();
    let sound = file("+X 3 -Y 9", &columns(9));
    let samples = by_document(&sound).decode().unwrap();
    assert_eq!(letters(&samples), "AJSBKTCLUDMVENWFOXGPYHQZIRa");
    // a mark of the picture's width is another width than the stored row's
    let wrong = file("+X 3 -Y 9", &columns(3));
    let refusal = Err(HdrError::BrokenRow { row: 1 });
    assert_eq!(by_document(&wrong).decode(), refusal);
    // nine columns of three are flat: what would be a mark is a pixel
    let flat = file(
        "+X 9 -Y 3",
        &[[2, 2, 0, 3], [2, 2, 0, 9], [2, 2, 0, 9]]
            .concat()
            .repeat(9),
    );
    assert_eq!(by_document(&flat).decode().unwrap().len(), 81);
}

#[test]
fn old_runs_run_along_columns() {
    let rows = [
        pixels("A"),
        vec![1, 1, 1, 3],
        pixels("BC"),
        vec![1, 1, 1, 2],
    ]
    .concat();
    for (sizes, picture) in [
        ("+X 2 -Y 4", "ABACACAC"),
        ("+X 2 +Y 4", "ACACACAB"),
        ("-X 2 -Y 4", "BACACACA"),
        ("-X 2 +Y 4", "CACACABA"),
    ] {
        let file = file(sizes, &rows);
        assert_eq!(letters(&by_document(&file).decode().unwrap()), picture);
    }
    let long = file("+X 4 -Y 2", &rows);
    let refusal = Err(HdrError::BrokenRow { row: 0 });
    assert_eq!(by_document(&long).decode(), refusal);
}

#[test]
fn height_0_is_no_samples_and_width_0_is_refused_wherever_they_are_named() {
    for axes in ["+X 3 -Y 0", "-X 3 +Y 0", "-Y 0 +X 3", "+Y 0 -X 3"] {
        let none = file(axes, &[1, 1, 1, 1]);
        let mut decoder = by_document(&none);
        assert_eq!(decoder.decode(), Ok(vec![]));
        let store = if axes.ends_with('0') { 0 } else { 12 };
        assert_eq!(decoder.row_store_size(), Some(store));
        let mut lent = vec![5; store];
        assert_eq!(decoder.decode_with(&mut [], &mut lent), Ok(18));
    }
    for axes in ["+X 0 -Y 3", "-X 0 +Y 0", "-Y 3 +X 0", "+Y 0 -X 0"] {
        let none = file(axes, &[]);
        assert_eq!(by_document(&none).decode(), Err(HdrError::NoWidth));
    }
}

#[test]
fn the_height_and_the_width_have_their_limits_wherever_they_are_named() {
    for (sizes, rows, _) in EIGHT {
        let bytes = file(sizes, &pixels(&rows.concat()));
        let limited = |width, height| {
            let options = DecoderOptions::default()
                .set_reading(Reading::Document)
                .set_max_width(width)
                .set_max_height(height);
            HdrDecoder::new_with_options(&bytes, options).decode()
        };
        assert_eq!(letters(&limited(3, 2).unwrap()), "ABCDEF");
        assert_eq!(limited(2, 3), Err(HdrError::TooWide { limit: 2 }));
        assert_eq!(limited(2, 1), Err(HdrError::TooHigh { limit: 1 }));
    }
    // a column higher than the widest picture, and more of them than the bytes hold
    let options = DecoderOptions::default()
        .set_reading(Reading::Document)
        .set_max_width(5);
    let few = file("+X 5 -Y 300", &pixels("A").repeat(4));
    let mut decoder = HdrDecoder::new_with_options(&few, options);
    assert_eq!(decoder.decode(), Err(HdrError::BytesEnd { row: 0 }));
}

#[test]
fn other_pairs_of_axes_are_refused() {
    for axes in [
        "-Y 2 +Y 3",
        "+X 2 -X 3",
        "Y 2 X 3",
        "-y 2 +x 3",
        "-Y+X 2 3 4",
    ] {
        let other = file(axes, &pixels("ABCDEF"));
        assert_eq!(by_document(&other).decode(), Err(HdrError::Axes), "{axes}");
    }
}

#[test]
fn as_zune_hdr_reads_two_are_taken_and_both_are_rows() {
    for (sizes, _, orientation) in EIGHT {
        let file = file(sizes, &pixels("ABCDEF"));
        let mut decoder = HdrDecoder::new(&file);
        let taken = [Orientation::MinusYPlusX, Orientation::PlusXMinusY];
        if taken.contains(&orientation) {
            let samples = decoder.decode().unwrap();
            let greys: Vec<u8> = samples.chunks(3).map(|pixel| pixel[0] as u8).collect();
            assert_eq!(greys, b"ABCDEF");
            assert_eq!(decoder.orientation(), Some(Orientation::MinusYPlusX));
            assert_eq!(decoder.row_store_size(), Some(12));
        } else {
            assert_eq!(decoder.decode(), Err(HdrError::Axes));
            assert_eq!(decoder.orientation(), None);
        }
    }
}
