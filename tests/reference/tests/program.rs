//! The printing program and the curve program: their texts, their room, and the binaries themselves.

mod common;

use common::{developed, frame, frame_of_sides, set_check, written, Generator, Kind, KINDS};
use reference::curve::entry;
use reference::program::{curve_text, text};
use reference::sites::Frame;
use std::io::Write;
use std::process::{Command, Stdio};

/// The text of an accepted frame, by its planes and what is printed for a clamped number.
fn expected(frame: &Frame, shown: fn(i32) -> i32) -> String {
    let planes = developed(frame);
    let mut lines = vec!["row col red green blue".to_string()];
    for row in 0..frame.height {
        for column in 0..frame.width {
            let site = row * frame.width + column;
            let numbers = [planes.red[site], planes.green[site], planes.blue[site]];
            let shown = numbers.map(|number| shown(number.clamp(0, 1023)).to_string());
            lines.push(format!("{row} {column} {}", shown.join(" ")));
        }
    }
    lines.join("\n") + "\n"
}

fn expected_text(frame: &Frame) -> String {
    expected(frame, |number| number)
}

fn expected_curve_text(frame: &Frame) -> String {
    expected(frame, |number| entry(number.into()) as i32)
}

/// What a binary prints for the bytes of standard input.
fn printed(binary: &str, input: &[u8]) -> String {
    let mut program = Command::new(binary)
        .stdin(Stdio::piped())
        .stdout(Stdio::piped())
        .spawn()
        .unwrap();
    program.stdin.take().unwrap().write_all(input).unwrap();
    let output = program.wait_with_output().unwrap();
    assert!(output.status.success());
    String::from_utf8(output.stdout).unwrap()
}

#[test]
fn texts_of_accepted_frames() {
    let mut generator = Generator::new(90);
    let mut clamped = 0;
    for turn in 0..300 {
        let frame = frame(&mut generator, KINDS[turn % KINDS.len()], 12);
        let planes = developed(&frame);
        let numbers = [planes.red, planes.green, planes.blue].concat();
        clamped += usize::from(numbers.iter().any(|number| !(0..=1023).contains(number)));
        assert_eq!(text(&written(&frame)), expected_text(&frame));
        let curved = curve_text(&written(&frame));
        assert_eq!(curved, expected_curve_text(&frame));
    }
    assert!(clamped > 50, "{clamped}");
}

#[test]
fn room_for_1024_samples() {
    let mut generator = Generator::new(91);
    for (width, height) in [(32, 32), (2, 512), (512, 2), (31, 33)] {
        let frame = frame_of_sides(&mut generator, Kind::Random, width, height);
        assert_eq!(text(&written(&frame)), expected_text(&frame));
        let curved = curve_text(&written(&frame));
        assert_eq!(curved, expected_curve_text(&frame));
    }
    // 1,025 to 1,200 samples fit 2,048 bytes but not 1,024 samples
    for (width, height) in [(25, 41), (41, 25), (2, 513), (30, 40), (600, 2)] {
        let frame = frame_of_sides(&mut generator, Kind::Random, width, height);
        let file = written(&frame);
        assert_eq!(file.len(), 2_048);
        assert_eq!(text(&file), "refused 4 0\n");
    }
}

#[test]
fn room_for_2048_bytes() {
    let mut generator = Generator::new(92);
    let mut file = written(&frame_of_sides(&mut generator, Kind::Random, 601, 2));
    assert_eq!(file.len(), 2_560);
    assert_eq!(text(&file), "refused 4 0\n");
    // also when damaged, and when the length is no multiple of 512
    file[0] = 9;
    assert_eq!(text(&file), "refused 4 0\n");
    assert_eq!(text(&file[..2_049]), "refused 4 0\n");
    assert_eq!(text(&file[..2_048]), "refused 7 0\n");
    assert_eq!(text(&vec![255; 100_000]), "refused 4 0\n");
}

#[test]
fn texts_of_refusals() {
    let mut generator = Generator::new(93);
    let file = written(&frame_of_sides(&mut generator, Kind::Random, 30, 30));
    assert_eq!(text(&[]), "refused 6 0\n");
    assert_eq!(text(&file[..511]), "refused 6 0\n");
    assert_eq!(text(&file[..1_024]), "refused 6 0\n");
    assert_eq!(text(&[0; 2_048]), "refused 8 0\n");
    let spoiled = |place: usize, byte: u8, fit: bool| {
        let mut file = file.clone();
        file[place] = byte;
        if fit {
            set_check(&mut file, place / 512);
        }
        text(&file)
    };
    assert_eq!(spoiled(511, 1, false), "refused 7 0\n");
    assert_eq!(spoiled(1_600, file[1_600] ^ 1, false), "refused 7 3\n");
    assert_eq!(spoiled(12, 4, true), "refused 8 0\n");
    assert_eq!(spoiled(1_024, 7, true), "refused 9 2\n");
    assert_eq!(spoiled(100, 7, true), "refused 10 0\n");
    assert_eq!(spoiled(1_536 + 507, 7, true), "refused 10 3\n");
    // with room for fewer samples than the header asks, a damaged block 1 is not reached
    let mut large = written(&frame_of_sides(&mut generator, Kind::Random, 30, 35));
    large[600] ^= 1;
    assert_eq!(text(&large), "refused 4 0\n");
}

/// A refused file has one text by both programs.
#[test]
fn refusals_by_the_curve_program() {
    let mut generator = Generator::new(95);
    for kind in KINDS {
        let mut file = written(&frame(&mut generator, kind, 30));
        file[generator.size(0, 511)] ^= 1;
        let refused = text(&file);
        assert!(refused.starts_with("refused "), "{refused}");
        assert_eq!(curve_text(&file), refused);
    }
    assert_eq!(curve_text(&[]), "refused 6 0\n");
    assert_eq!(curve_text(&[0; 2_049]), "refused 4 0\n");
}

#[test]
fn the_binaries_print_the_texts() {
    let mut generator = Generator::new(94);
    let develop = env!("CARGO_BIN_EXE_develop");
    let curve = env!("CARGO_BIN_EXE_curve");
    for kind in KINDS {
        let file = written(&frame(&mut generator, kind, 9));
        assert_eq!(printed(develop, &file), text(&file));
        assert_eq!(printed(curve, &file), curve_text(&file));
    }
    for binary in [develop, curve] {
        assert_eq!(printed(binary, &[]), "refused 6 0\n");
        assert_eq!(printed(binary, &[0; 700]), "refused 6 0\n");
        assert_eq!(printed(binary, &[0; 3_000]), "refused 4 0\n");
    }
}
