//! What headers state, through the linked calls. What is expected was worked out by hand from the rules in the crate's page.

use doorwhisp::{Colour, DecoderOptions, HdrDecoder, HdrError, Reading};

/// A file of one pixel with these lines in its header.
fn file(lines: &str) -> Vec<u8> {
    let mut file = format!("#?RADIANCE\n{lines}\n-Y 1 +X 1\n").into_bytes();
    file.extend([8, 4, 2, 136]);
    file
}

fn by_document(file: &[u8]) -> HdrDecoder<'_> {
    HdrDecoder::new_with_options(
        file,
        DecoderOptions::default().set_reading(Reading::Document),
    )
}

/// What is stated by such lines, by the document. The samples are as they are stored, whatever that is.
fn stated(lines: &str) -> (Option<Colour>, Option<f32>) {
    let file = file(lines);
    let mut decoder = by_document(&file);
    assert_eq!((decoder.colour(), decoder.exposure()), (None, None));
    decoder.decode_headers().unwrap();
    assert_eq!(decoder.dimensions(), Some((1, 1)), "{lines:?}");
    assert_eq!(decoder.decode().unwrap(), [8.5, 4.5, 2.5], "{lines:?}");
    (decoder.colour(), decoder.exposure())
}

/// The refusal of such lines by the document, of the header and of the file. As zune-hdr reads there is none.
fn refusal(lines: &str) -> HdrError {
    let file = file(lines);
    let mut decoder = HdrDecoder::new(&file);
    assert_eq!(decoder.decode().unwrap(), [8.0, 4.0, 2.0], "{lines:?}");
    assert_eq!((decoder.colour(), decoder.exposure()), (None, None));
    let mut decoder = by_document(&file);
    let error = decoder.decode_headers().unwrap_err();
    let mut out = [7.0; 3];
    let mut store = [9; 4];
    assert_eq!(
        by_document(&file).decode_with(&mut out, &mut store),
        Err(error.clone())
    );
    assert_eq!((out, store), ([7.0; 3], [9; 4]));
    assert_eq!((decoder.colour(), decoder.exposure()), (None, None));
    error
}

/// So many lines of one exposure.
fn exposures(text: &str, count: usize) -> String {
    format!("EXPOSURE={text}\n").repeat(count)
}

#[test]
fn the_last_format_counts() {
    assert_eq!(stated(""), (None, None));
    let (rgbe, xyze) = ("FORMAT=32-bit_rle_rgbe\n", "FORMAT=32-bit_rle_xyze\n");
    assert_eq!(stated(rgbe), (Some(Colour::Rgbe), None));
    assert_eq!(stated(xyze), (Some(Colour::Xyze), None));
    assert_eq!(stated(&[rgbe, xyze].concat()).0, Some(Colour::Xyze));
    assert_eq!(stated(&[xyze, rgbe].concat()).0, Some(Colour::Rgbe));
    let trimmed = "FORMAT=\t 32-bit_rle_xyze \r\n";
    assert_eq!(stated(trimmed).0, Some(Colour::Xyze));
}

#[test]
fn exposures_are_rounded_once_and_multiply() {
    for (text, number) in [
        ("1", 1.0),
        ("2.5", 2.5),
        (".5", 0.5),
        ("3.", 3.0),
        ("0.1", 0.1),
        ("0000007", 7.0),
        ("9999999", 9_999_999.0),
        ("1e10", 1e10),
        ("1E-10", 1e-10),
        ("1.0e+11", 1e11),
        (".1234567e-3", 1.234567e-4),
        ("3355445e1", 33_554_448.0),
        ("3355447e1", 33_554_472.0),
        (" \t2\r", 2.0),
    ] {
        assert_eq!(stated(&exposures(text, 1)).1, Some(number), "{text:?}");
    }
    assert_eq!(stated("EXPOSURE=2\nEXPOSURE=1.5\n").1, Some(3.0));
    assert_eq!(stated(&exposures(".1", 2)).1, Some(0.1 * 0.1));
    // subnormal: 2^-140, and 2^-149 times 2.5, a tie
    let small = exposures("9765625e-10", 14);
    assert_eq!(stated(&small).1, Some(f32::from_bits(512)));
    let least = small + &exposures(".5", 9);
    assert_eq!(stated(&least).1, Some(f32::from_bits(1)));
    let tie = least + "EXPOSURE=2.5\n";
    assert_eq!(stated(&tie).1, Some(f32::from_bits(2)));
    // the largest: 4095 times 4097 times 2^104
    let large = "EXPOSURE=4095\nEXPOSURE=65536\n".to_owned() + &exposures("2048", 8);
    assert_eq!(stated(&(large + "EXPOSURE=4097\n")).1, Some(f32::MAX));
}

#[test]
fn lines_with_other_names_say_nothing() {
    for line in [
        " FORMAT=x",
        "FORMAT =x",
        "format=x",
        "FORMATS=x",
        "FORMAT",
        " EXPOSURE=x",
        "EXPOSURE =x",
        "Exposure=x",
        "EXPOSURE",
        "#EXPOSURE=x",
    ] {
        assert_eq!(stated(&format!("{line}\n")), (None, None), "{line:?}");
    }
}

#[test]
fn an_unknown_format_is_15_wherever_it_stands() {
    for text in ["", "x", "16-bit_any", "32-bit_rle_RGBE", "rgbe xyze"] {
        let wrong = format!("FORMAT={text}\n");
        let known = "FORMAT=32-bit_rle_rgbe\n";
        for lines in [wrong.clone(), known.to_owned() + &wrong, wrong + known] {
            assert_eq!(refusal(&lines), HdrError::UnknownFormat, "{lines:?}");
        }
    }
    let error = HdrError::UnknownFormat;
    assert_eq!((error.number(), error.place()), (Some(15), None));
    let words = "refusal 15: the file states a FORMAT that is not known";
    assert_eq!(error.to_string(), words);
}

#[test]
fn an_exposure_that_cannot_be_read_is_16() {
    #[rustfmt::skip]
    let wrong = [
        "", ".", "0", "0.00", "-1", "+1", "1 2", "1,5", "nan", "inf", "0x1", "e5", "1e", "1e+",
        "1e123", "12345678", "0.0000001", "1e11", "1e-11", "1.0e-10", "1.2.3", "1\0",
    ];
    for text in wrong {
        assert_eq!(refusal(&exposures(text, 1)), HdrError::Exposure, "{text:?}");
    }
    let error = HdrError::Exposure;
    assert_eq!((error.number(), error.place()), (Some(16), None));
    let words = "the file states an EXPOSURE that is no number, or is or becomes zero or infinite";
    assert_eq!(error.to_string(), format!("refusal 16: {words}"));
}

#[test]
fn a_product_that_becomes_zero_or_infinite_is_16_whatever_follows() {
    for (text, count, back) in [("1e10", 4, "1e-10"), ("1e-10", 5, "1e10")] {
        let lines = exposures(text, count);
        assert_eq!(refusal(&lines), HdrError::Exposure);
        assert_eq!(refusal(&(lines + &exposures(back, 3))), HdrError::Exposure);
        let turns = exposures(text, 2) + &exposures(back, 2);
        stated(&turns.repeat(9));
    }
}

#[test]
fn the_first_fault_is_told_after_1_and_before_2() {
    assert_eq!(refusal("FORMAT=x\nEXPOSURE=x\n"), HdrError::UnknownFormat);
    assert_eq!(refusal("EXPOSURE=x\nFORMAT=x\n"), HdrError::Exposure);
    let told = |file: &str| by_document(file.as_bytes()).decode_headers().unwrap_err();
    assert_eq!(told("#?WRONG\nFORMAT=x\n\n"), HdrError::FirstLine);
    assert_eq!(
        told("#?RGBE\nFORMAT=x\n\n-X 1 +X 1\n"),
        HdrError::UnknownFormat
    );
    assert_eq!(told("#?RGBE\nEXPOSURE=0"), HdrError::Exposure);
    assert_eq!(told("#?RGBE\nEXPOSURE=2"), HdrError::Axes);
    assert_eq!(told("#?RGBE\n\nFORMAT=x\n"), HdrError::Axes);
}
