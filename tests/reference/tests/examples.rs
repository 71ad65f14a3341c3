//! The document's example, as the files in the examples directory.

mod common;

use common::{set_check, written};
use reference::frame_file::{read, Description};
use reference::program::{curve_text, text};
use reference::sites::Frame;

const FILE: &[u8] = include_bytes!("../../../examples/glaze.bayr");
const TEXT: &str = include_str!("../../../examples/glaze.txt");
const CURVE_TEXT: &str = include_str!("../../../examples/glaze_curve.txt");

#[test]
fn the_file_is_what_the_writer_makes() {
    let frame = Frame {
        width: 2,
        height: 2,
        phase: 0,
        samples: vec![100, 40, 61, 200],
    };
    assert_eq!(written(&frame), FILE);
}

#[test]
fn the_file_byte_by_byte() {
    let mut file = [0u8; 1024];
    file[4..13].copy_from_slice(&[b'B', b'A', b'Y', b'R', 2, 0, 2, 0, 0]);
    // 100 = 4·25, 40 = 4·10, 61 = 4·15 + 1, 200 = 4·50; the low bits 1 stand third
    file[512] = 1;
    file[516..521].copy_from_slice(&[25, 10, 15, 50, 16]);
    set_check(&mut file, 0);
    set_check(&mut file, 1);
    assert_eq!(file, FILE);
    assert_eq!(file[508..512], [0xf7, 0x07, 0, 0]);
    assert_eq!(file[1020..], [0x43, 0x03, 0, 0]);
}

#[test]
fn the_file_reads_as_the_frame() {
    let mut samples = [9; 6];
    let description = Description {
        width: 2,
        height: 2,
        phase: 0,
    };
    assert_eq!(read(FILE, &mut samples), Ok(description));
    assert_eq!(samples, [100, 40, 61, 200, 9, 9]);
}

#[test]
fn the_program_prints_the_text() {
    let document = "\
row col red green blue
0 0 100 51 200
0 1 90 40 190
1 0 111 61 211
1 1 100 51 200
";
    assert_eq!(TEXT, document);
    assert_eq!(text(FILE), document);
}

/// Document 02, A4: (2·320 − 1)² = 408,321 < 4,092·100 = 409,200 < 410,881 = (2·320 + 1)², and so on.
#[test]
fn the_curve_program_prints_its_text() {
    let expected = "\
row col red green blue
0 0 320 228 452
0 1 303 202 441
1 0 337 250 465
1 1 320 228 452
";
    assert_eq!(CURVE_TEXT, expected);
    assert_eq!(curve_text(FILE), expected);
}
