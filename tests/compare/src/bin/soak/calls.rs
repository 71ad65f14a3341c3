//! One random or damaged call of an export.

use crate::both::plane::{both_clamp, both_curve, clamped, UNCLAMPED};
use crate::both::read::{both_read, damage};
use crate::both::write::{both_write, disturb_frame, file_length};
use crate::both::{both_develop, disturb};
use crate::common::black::{bright_enough, level};
use crate::common::lent::Lent;
use crate::common::{frame, set_check, written, Generator, KINDS};
use reference::calls::returned;
use reference::frame_file::BLOCK;
use reference::sites::Frame;

#[derive(Clone, Copy, Debug)]
pub enum Export {
    Develop,
    Read,
    Write,
    Clamp,
    Curve,
    Text,
}

pub const EXPORTS: [Export; 6] = [
    Export::Develop,
    Export::Read,
    Export::Write,
    Export::Clamp,
    Export::Curve,
    Export::Text,
];

impl Export {
    pub fn name(self) -> &'static str {
        match self {
            Export::Develop => "develop",
            Export::Read => "read",
            Export::Write => "write",
            Export::Clamp => "clamp",
            Export::Curve => "curve",
            Export::Text => "text",
        }
    }

    /// The numbers that the export returns.
    pub fn numbers(self) -> &'static [usize] {
        match self {
            Export::Develop => &[0, 1, 2, 11, 3, 4, 5, 12],
            Export::Read => &[0, 4, 6, 7, 8, 9, 10],
            Export::Write => &[0, 1, 2, 3, 4, 5],
            Export::Clamp => &[0, 4],
            Export::Curve => &[0, 4, 13],
            Export::Text => &[0],
        }
    }
}

/// The call of the seed at a position: its export, and the number that both implementations return.
pub fn one(seed: u64, call: u64) -> (Export, usize) {
    let start = seed ^ call.wrapping_mul(0xd134_2543_de82_ef95).rotate_left(29);
    let generator = &mut Generator::new(start);
    let (export, number) = match generator.size(0, 99) {
        0..=29 => (Export::Develop, develop(generator)),
        30..=59 => (Export::Read, read(generator)),
        60..=84 => (Export::Write, write(generator)),
        85..=90 => (Export::Clamp, clamp(generator)),
        91..=97 => (Export::Curve, curve(generator)),
        _ => (Export::Text, text(generator)),
    };
    (export, number as usize)
}

/// A frame that is accepted, with sides from 2 to 12 and now and then to 24.
fn some_frame(generator: &mut Generator) -> Frame {
    let kind = generator.one_of(&KINDS);
    let greatest = generator.one_of(&[5, 8, 12, 12, 24]);
    frame(generator, kind, greatest)
}

/// Of four frames three have no sample too dark for the black level, before half of the calls are disturbed.
fn develop(generator: &mut Generator) -> u32 {
    let mut frame = some_frame(generator);
    let black = level(generator);
    if generator.size(0, 3) > 0 {
        frame = bright_enough(frame, black);
    }
    let more = generator.one_of(&[0, 0, 1, 77]);
    let mut lent = Lent::new(generator, &frame, black, more);
    if generator.size(0, 1) == 0 {
        disturb(generator, &mut lent);
    }
    returned(&both_develop("soak", &lent)).0
}

/// Any bytes, of a few blocks or of any length, some with checks that are right.
fn any_file(generator: &mut Generator) -> Vec<u8> {
    let length = match generator.size(0, 1) {
        0 => generator.size(0, 3) * BLOCK,
        _ => generator.size(0, 3 * BLOCK),
    };
    let mut file: Vec<u8> = (0..length).map(|_| generator.size(0, 255) as u8).collect();
    if generator.size(0, 1) == 0 {
        (0..length / BLOCK).for_each(|block| set_check(&mut file, block));
    }
    file
}

fn read(generator: &mut Generator) -> u32 {
    let frame = some_frame(generator);
    let count = frame.samples.len();
    let file = if generator.size(0, 15) == 0 {
        any_file(generator)
    } else {
        let mut file = written(&frame);
        (0..generator.size(0, 3)).for_each(|_| damage(generator, &mut file));
        file
    };
    let room = generator.one_of(&[count, count, count + 5, count - 1, 0, 700]);
    returned(&both_read(&file, room)).0
}

fn write(generator: &mut Generator) -> u32 {
    let mut frame = some_frame(generator);
    let length = match generator.size(0, 2) {
        0 => file_length(&frame),
        _ => disturb_frame(generator, &mut frame),
    };
    returned(&both_write(&frame, length)).0
}

fn clamp(generator: &mut Generator) -> u32 {
    let length = generator.size(0, 300);
    let mut plane = generator.numbers(length);
    if generator.size(0, 1) == 0 {
        plane.iter_mut().for_each(|number| *number %= 2_000);
    }
    returned(&both_clamp(&plane, &to_fill(generator, length))).0
}

/// A plane of any numbers, one time in four of any length.
fn to_fill(generator: &mut Generator, length: usize) -> Vec<i32> {
    let filled = match generator.size(0, 3) {
        0 => generator.size(0, 300),
        _ => length,
    };
    generator.numbers(filled)
}

/// A clamped plane, half of the time with up to three numbers that are not.
fn curve(generator: &mut Generator) -> u32 {
    let length = generator.size(0, 300);
    let mut plane = clamped(generator, length);
    if length > 0 && generator.size(0, 1) == 0 {
        for _ in 0..generator.size(1, 3) {
            let any = generator.between(i32::MIN.into(), i32::MAX.into()) as i32;
            let number = generator.one_of(&UNCLAMPED);
            let place = generator.size(0, length - 1);
            plane[place] = generator.one_of(&[any, number]);
        }
    }
    returned(&both_curve(&plane, &to_fill(generator, length))).0
}

/// A text for every number and code, one and the same for all that no call returns and no map holds, and a version of three numbers.
fn text(generator: &mut Generator) -> u32 {
    let any = generator.between(0, i64::MAX - 1) as usize;
    let number = generator.one_of(&[any, any % 16, any % 4_096]);
    for text in [bayer::text(number), bayer::decision_text(number)] {
        assert!(!text.is_empty() && text.is_ascii(), "{number}: {text}");
    }
    assert_eq!(bayer::text(number), bayer::text(number.min(14)), "{number}");
    let same = bayer::decision_text(number.min(7));
    assert_eq!(bayer::decision_text(number), same, "code {number}");
    let version: Vec<&str> = bayer::version().split('.').collect();
    let is_number = |part: &&str| part.parse::<u32>().is_ok();
    assert!(version.len() == 3 && version.iter().all(is_number));
    0
}
