//! Writes the programs' cases into the folder named as argument: NAME.bayr, and NAME.txt with the text that the printing program prints of
//! it. The curve program prints the same of a file that is refused; of the others NAME.curve.txt has what it prints.

use reference::frame_file::{block_count, check, write, BLOCK};
use reference::program::{curve_text, text};
use std::path::Path;
use std::{env, fs, io};

/// Numbers from 0 to 1,023 from one seed.
struct Numbers(u64);

impl Numbers {
    fn next(&mut self) -> u16 {
        self.0 = self
            .0
            .wrapping_mul(6364136223846793005)
            .wrapping_add(1442695040888963407);
        (self.0 >> 54) as u16
    }
}

/// The sample at a row and column of one kind of frame.
fn sample(kind: &str, row: usize, column: usize, numbers: &mut Numbers) -> u16 {
    match kind {
        "noise" => numbers.next(),
        "extremes" => 1023 * (numbers.next() % 2),
        "ramp" => (row * 17 + column * 29) as u16 % 1024,
        "edge" => 1023 * u16::from(row > column),
        "grey" => 1023,
        _ => 512 + numbers.next() % 9,
    }
}

/// The file of a frame.
fn file_of(kind: &str, width: usize, height: usize, phase: usize) -> Vec<u8> {
    let mut numbers = Numbers((width * 4096 + height * 4 + phase) as u64);
    let sites = (0..height).flat_map(|row| (0..width).map(move |column| (row, column)));
    let samples: Vec<u16> = sites
        .map(|(row, column)| sample(kind, row, column, &mut numbers))
        .collect();
    let mut file = vec![0; BLOCK * block_count(width, height)];
    write(width, height, phase, &samples, &mut file).expect("the frame is admitted");
    file
}

/// The file with one byte of a block set, and that block's check made to hold.
fn with_byte(mut file: Vec<u8>, block: usize, place: usize, byte: u8) -> Vec<u8> {
    file[block * BLOCK + place] = byte;
    let sum = check(&file[block * BLOCK..(block + 1) * BLOCK]);
    file[block * BLOCK + 508..(block + 1) * BLOCK].copy_from_slice(&sum.to_le_bytes());
    file
}

/// The file with one bit of a byte changed.
fn damaged(mut file: Vec<u8>, place: usize) -> Vec<u8> {
    file[place] ^= 1;
    file
}

/// A file for each refusal that a file can cause.
fn refusals() -> Vec<(String, Vec<u8>)> {
    let good = || file_of("noise", 20, 25, 1);
    let mut long = file_of("noise", 32, 32, 0);
    long.push(0);
    let cases = [
        ("refused_4_samples", file_of("noise", 33, 33, 2)),
        ("refused_4_samples_1026", file_of("noise", 2, 513, 3)),
        ("refused_4_long", long),
        ("refused_4_long_zeros", vec![0; 2049]),
        ("refused_6_empty", Vec::new()),
        ("refused_6_short", good()[..511].to_vec()),
        ("refused_6_no_multiple", good()[..1023].to_vec()),
        ("refused_6_block_missing", good()[..1024].to_vec()),
        ("refused_6_block_more", [good(), vec![0; BLOCK]].concat()),
        ("refused_7_block_0", damaged(good(), 300)),
        ("refused_7_block_1", damaged(good(), BLOCK + 4)),
        ("refused_7_block_2", damaged(good(), 2 * BLOCK + 510)),
        ("refused_8_tag", with_byte(good(), 0, 4, b'C')),
        ("refused_8_width", with_byte(good(), 0, 8, 1)),
        ("refused_8_height", with_byte(good(), 0, 11, 17)),
        ("refused_8_phase", with_byte(good(), 0, 12, 4)),
        ("refused_9_block_0", with_byte(good(), 0, 3, 1)),
        ("refused_9_block_1", with_byte(good(), 1, 0, 2)),
        ("refused_9_block_2", with_byte(good(), 2, 1, 1)),
        ("refused_10_block_0", with_byte(good(), 0, 507, 1)),
        ("refused_10_block_1", with_byte(good(), 1, 504, 255)),
        ("refused_10_sample", with_byte(good(), 2, 503, 64)),
    ];
    cases.map(|(name, file)| (name.to_string(), file)).to_vec()
}

/// Frames of many sizes, phases and kinds.
fn frames() -> Vec<(String, Vec<u8>)> {
    let sides = [
        (2, 2),
        (3, 2),
        (2, 3),
        (3, 3),
        (4, 5),
        (7, 6),
        (8, 8),
        (20, 20),
        (13, 31),
        (32, 32),
        (2, 512),
        (512, 2),
        (341, 3),
    ];
    let kinds = ["noise", "extremes", "ramp", "edge", "grey", "flat"];
    let mut files = Vec::new();
    for (turn, (width, height)) in sides.into_iter().enumerate() {
        let phases = if width * height <= 64 {
            0..4
        } else {
            turn % 4..turn % 4 + 1
        };
        for phase in phases {
            let kind = kinds[(turn + phase) % kinds.len()];
            let name = format!("frame_{width}x{height}_phase_{phase}_{kind}");
            files.push((name, file_of(kind, width, height, phase)));
        }
    }
    files
}

fn main() -> io::Result<()> {
    let folder = env::args().nth(1).expect("the folder to write into");
    fs::create_dir_all(&folder)?;
    let save = |name: String, bytes: &[u8]| fs::write(Path::new(&folder).join(name), bytes);
    let accepted = frames();
    for (name, file) in refusals().iter().chain(&accepted) {
        save(format!("{name}.bayr"), file)?;
        save(format!("{name}.txt"), text(file).as_bytes())?;
    }
    for (name, file) in &accepted {
        save(format!("{name}.curve.txt"), curve_text(file).as_bytes())?;
    }
    Ok(())
}
