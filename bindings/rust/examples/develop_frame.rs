//! develop_frame FILE: reads a frame file, develops and clamps it, and prints each site's colours by the tone curve of
//! display panels. What fails is told in one line on standard error, with status 1; a refusal of the library's by its
//! number, place and text. FILE may be a pipe.

use std::collections::TryReserveError;
use std::error::Error;
use std::io::Write;
use std::path::Path;
use std::process::ExitCode;

use bayer::{clamp, curve, develop, read, read_length, Shape};

type Plane = Vec<i32>;

/// The camera's black level: the sample that stands for no light. A frame file does not hold it. 0 is right for samples
/// that had it taken off before, as those of the document's example.
const BLACK: usize = 0;

/// A buffer of so many zeros. `vec!` would abort the program where there is no memory.
fn zeros<T: Clone + Default>(count: usize) -> Result<Vec<T>, TryReserveError> {
    let mut buffer = Vec::new();
    buffer.try_reserve_exact(count)?;
    buffer.resize(count, T::default());
    Ok(buffer)
}

/// The frame's shape and its three planes, clamped and curved.
fn developed(file: &[u8]) -> Result<(Shape, [Plane; 3]), Box<dyn Error>> {
    let mut samples = zeros(read_length(file.len()))?;
    let shape = read(file, &mut samples)?;
    let count = shape.plane_length();
    let (mut red, mut green, mut blue) = (zeros(count)?, zeros(count)?, zeros(count)?);
    let mut map = zeros(shape.map_length())?;
    let mut work = zeros(shape.work_length())?;
    develop(
        shape,
        BLACK,
        &samples[..count],
        &mut red,
        &mut green,
        &mut blue,
        &mut map,
        &mut work,
    )?;
    let mut clamped = zeros(count)?;
    for plane in [&mut red, &mut green, &mut blue] {
        clamp(plane, &mut clamped)?;
        curve(&clamped, plane)?;
    }
    Ok((shape, [red, green, blue]))
}

/// A full disk shows where the output is written, at the latest where it is flushed.
fn print(shape: Shape, [red, green, blue]: &[Plane; 3]) -> std::io::Result<()> {
    let mut out = std::io::BufWriter::new(std::io::stdout().lock());
    writeln!(out, "row col red green blue")?;
    for k in 0..shape.plane_length() {
        let (row, column) = (k / shape.width, k % shape.width);
        writeln!(out, "{row} {column} {} {} {}", red[k], green[k], blue[k])?;
    }
    out.flush()
}

fn run(path: &Path) -> Result<(), Box<dyn Error>> {
    let file = std::fs::read(path).map_err(|error| format!("{}: {error}", path.display()))?;
    let (shape, planes) = developed(&file)?;
    print(shape, &planes).map_err(|error| format!("standard output: {error}"))?;
    Ok(())
}

fn main() -> ExitCode {
    let mut words = std::env::args_os().skip(1);
    let (Some(path), None) = (words.next(), words.next()) else {
        eprintln!("usage: develop_frame FILE");
        return ExitCode::from(2);
    };
    match run(Path::new(&path)) {
        Ok(()) => ExitCode::SUCCESS,
        Err(error) => {
            eprintln!("{error}");
            ExitCode::FAILURE
        }
    }
}
