//! Frames from images, and what is told of them.

#[path = "../../../tests/reference/tests/common/mod.rs"]
mod common;

use bayer_tool::commands::facts::{ties, Ties};
use bayer_tool::commands::frame::masked;
use bayer_tool::input::Input;
use bayer_tool::netpbm::{load_within, parse, Image};
use common::{frame, Generator, KINDS};
use reference::green::{first_pass, Outcome};

#[test]
fn ties_are_those_of_the_first_pass() {
    let mut generator = Generator::new(211);
    let mut tied = 0;
    for _ in 0..100 {
        for kind in KINDS {
            let frame = frame(&mut generator, kind, 16);
            let sites = first_pass(&frame);
            let points = (0..frame.height).flat_map(|row| (0..frame.width).map(move |j| (row, j)));
            let found: Vec<_> = points
                .filter_map(|(row, column)| sites.at(row as i64, column as i64))
                .collect();
            let expected = Ties {
                sites: found.len(),
                tied: found
                    .iter()
                    .filter(|site| site.outcome == Outcome::Equal)
                    .count(),
            };
            assert_eq!(ties(&frame), expected, "{frame:?}");
            tied += expected.tied;
        }
    }
    assert!(tied > 1_000, "{tied}");
}

fn image(channels: usize, most: u16, values: &[u16]) -> Image {
    Image {
        width: 2,
        height: 2,
        channels,
        most,
        values: values.to_vec(),
    }
}

#[test]
fn images_of_the_four_forms() {
    let grey = image(1, 1000, &[0, 999, 1000, 7]);
    let plain = b"P2 # grey\n2 2\n#a comment\n1000\n0 999\n1000 7\n";
    assert_eq!(parse(plain), Ok(grey.clone()));
    let raw = b"P5 2 2 1000\n\x00\x00\x03\xe7\x03\xe8\x00\x07";
    assert_eq!(parse(raw), Ok(grey));
    let colours: Vec<u16> = (1..=12).collect();
    let colour = image(3, 255, &colours);
    let plain = b"P3\n2 2 255 1 2 3 4 5 6 7 8 9 10 11 12";
    assert_eq!(parse(plain), Ok(colour.clone()));
    let raw = b"P6\n2 2\n255\n\x01\x02\x03\x04\x05\x06\x07\x08\x09\x0a\x0b\x0c";
    assert_eq!(parse(raw), Ok(colour));
}

#[test]
fn what_is_no_image() {
    let wrong: [&[u8]; 12] = [
        b"",
        b"P4 2 2\n\x00",
        b"P5",
        b"P5 2 2",
        b"P5 2 x 255\n1234",
        b"P5 2 2 0\n1234",
        b"P5 2 2 65536\n1234",
        b"P5 2 2 255\n123",
        b"P5 2 2 255\n12345",
        b"P5 2 2 48\n1234",
        b"P2 2 2 9 1 2 3 4 5",
        b"P5 18446744073709551615 18446744073709551615 255\n",
    ];
    for bytes in wrong {
        assert!(parse(bytes).is_err(), "{bytes:?}");
    }
}

#[test]
fn a_file_longer_than_what_is_read() {
    let name = concat!(env!("CARGO_TARGET_TMPDIR"), "/long.pgm");
    let whole = b"P2 2 2 99 1 2 3 45";
    std::fs::write(name, whole).unwrap();
    let most = whole.len() as u64;
    assert_eq!(
        load_within(Input::of(name), most).unwrap().values,
        [1, 2, 3, 45]
    );
    let problem = load_within(Input::of(name), most - 1).unwrap_err();
    assert_eq!(problem.to_string(), format!("{name}: longer than 17 bytes"));
}

#[test]
fn the_mosaic_takes_the_colour_of_each_site() {
    let values = [10, 20, 30, 11, 21, 31, 12, 22, 32, 13, 23, 33];
    let colour = image(3, 1023, &values);
    let expected = [
        [10, 21, 22, 33],
        [20, 11, 32, 23],
        [20, 31, 12, 23],
        [30, 21, 22, 13],
    ];
    for (phase, samples) in expected.into_iter().enumerate() {
        assert_eq!(masked(&colour, phase, false).samples, samples);
    }
}

#[test]
fn values_are_scaled_to_the_nearest_unless_asked_otherwise() {
    let of = |most, values: &[u16], unscaled| masked(&image(1, most, values), 0, unscaled).samples;
    assert_eq!(of(255, &[0, 1, 128, 255], false), [0, 4, 514, 1023]);
    assert_eq!(of(65535, &[31, 32, 33, 65535], false), [0, 0, 1, 1023]);
    assert_eq!(of(1023, &[0, 1, 512, 1023], false), [0, 1, 512, 1023]);
    assert_eq!(of(255, &[0, 1, 128, 255], true), [0, 1, 128, 255]);
}
