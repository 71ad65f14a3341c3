//! Document 01, the printing program: one file in, its text out; document 02, A4: "a program prints a developed frame through it in
//! document 01's lines".

use crate::calls::{clamp, curve, develop, refused, Refusal};
use crate::frame_file::read;
use std::io::{self, Read, Write};

/// The room for the file, in bytes.
pub const FILE_ROOM: usize = 2048;
/// The room for the samples.
pub const SAMPLE_ROOM: usize = 1024;
/// Document 02, A2: the programs use b = 0.
const BLACK: usize = 0;

/// What becomes of a developed plane before it is printed.
type Toned = fn(&[i32]) -> Result<Vec<i32>, Refusal>;

/// The text that the printing program prints for the bytes of standard input.
pub fn text(input: &[u8]) -> String {
    printed(input, held)
}

/// The text that the program of A4 prints for them.
pub fn curve_text(input: &[u8]) -> String {
    printed(input, through_the_curve)
}

/// Prints the text of standard input.
pub fn run(text: fn(&[u8]) -> String) -> io::Result<()> {
    let mut input = Vec::new();
    io::stdin().read_to_end(&mut input)?;
    io::stdout().write_all(text(&input).as_bytes())
}

fn printed(input: &[u8], toned: Toned) -> String {
    match colours(input, toned) {
        Ok(lines) => lines,
        Err(refusal) => format!("refused {} {}\n", refusal.number, refusal.place),
    }
}

/// The line of names and one line for each site.
fn colours(input: &[u8], toned: Toned) -> Result<String, Refusal> {
    if input.len() > FILE_ROOM {
        return refused(4, 0);
    }
    let mut samples = [0u16; SAMPLE_ROOM];
    let frame = read(input, &mut samples)?;
    let count = frame.width * frame.height;
    let mut red = vec![0; count];
    let mut green = vec![0; count];
    let mut blue = vec![0; count];
    develop(
        frame.width,
        frame.height,
        frame.phase,
        BLACK,
        &samples[..count],
        &mut red,
        &mut green,
        &mut blue,
        &mut vec![0; count],
        &mut vec![0; 4 * count],
    )?;
    let [red, green, blue] = [toned(&red)?, toned(&green)?, toned(&blue)?];
    let mut lines = String::from("row col red green blue\n");
    for site in 0..count {
        let (row, column) = (site / frame.width, site % frame.width);
        lines += &format!(
            "{row} {column} {} {} {}\n",
            red[site], green[site], blue[site]
        );
    }
    Ok(lines)
}

/// A clamped plane.
fn held(plane: &[i32]) -> Result<Vec<i32>, Refusal> {
    let mut out = vec![0; plane.len()];
    clamp(plane, &mut out)?;
    Ok(out)
}

/// A clamped plane, through the curve.
fn through_the_curve(plane: &[i32]) -> Result<Vec<i32>, Refusal> {
    let mut out = vec![0; plane.len()];
    curve(&held(plane)?, &mut out)?;
    Ok(out)
}
