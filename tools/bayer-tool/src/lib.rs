//! The commands of bayer-tool over the library's binding, bindings/rust. Standard library alone.

pub mod arguments;
pub mod bordered;
pub mod commands;
pub mod decision_map;
pub mod frames;
pub mod glaze;
pub mod input;
pub mod netpbm;
pub mod old_way;
pub mod output;
pub mod picture;
pub mod problem;
pub mod progress;
mod standard;
mod ways;

use problem::Problem;
use std::ffi::OsString;

const USAGE: &str = "\
usage: bayer-tool show FRAME PICTURE                       a frame file, developed, as .ppm or .png
       bayer-tool show --curve FRAME PICTURE               the same through the tone curve, as display panels show it
       bayer-tool show --map FRAME PICTURE                 how the green of each site was decided, one colour for each code
       bayer-tool frame IMAGE FRAME --phase P [--unscaled]  a PGM, or a PPM masked to the mosaic, as a frame file
       bayer-tool facts FRAME                              size, phase, range, and how many sites tie
       bayer-tool turned [--frame FRAME | --size WxH] [--picture PICTURE] CHANGE ..
                                                           develops, changes, develops again, and compares
       bayer-tool help                                     these lines
       bayer-tool version                                  the library's version
P is 0 or RGGB, 1 or GRBG, 2 or GBRG, 3 or BGGR. CHANGE is left-right, top-bottom, transpose or trade.
A file named - is standard input where it is read, and standard output where it is written: a picture there is a .ppm.
";

/// Does what the words ask for.
pub fn run(words: impl Iterator<Item = OsString>) -> Result<(), Problem> {
    let as_text = |word: OsString| {
        word.into_string()
            .map_err(|word| Problem::Usage(format!("{word:?} is not UTF-8")))
    };
    let words: Vec<String> = words.map(as_text).collect::<Result<_, _>>()?;
    match words.split_first() {
        None => Err(Problem::Usage("no command".into())),
        Some((command, rest)) => match command.as_str() {
            "show" => commands::show::run(rest),
            "frame" => commands::frame::run(rest),
            "facts" => commands::facts::run(rest),
            "turned" => commands::turned::run(rest),
            "help" | "--help" | "-h" => output::print(USAGE),
            "version" | "--version" => output::print(&format!("{}\n", bayer::version())),
            other => Err(Problem::Usage(format!("no command {other}"))),
        },
    }
}
