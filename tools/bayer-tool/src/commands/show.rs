//! show FRAME PICTURE: the developed and clamped frame, each number of 0..1,023 as the nearest of 0..255; with --curve through the tone
//! curve, which is what display panels show; with --map how the green of each site was decided, and its legend printed.

use crate::arguments::Arguments;
use crate::decision_map;
use crate::frames::{self, Planes};
use crate::input::Input;
use crate::output::Output;
use crate::picture::{Kind, Picture};
use crate::problem::Problem;
use crate::progress::Progress;
use bayer::{Refusal, SAMPLE_MOST};
use reference::sites::Frame;

/// Planes of the same lengths that a call of the library fills from these.
fn filled(
    planes: &Planes,
    call: fn(&[i32], &mut [i32]) -> Result<(), Refusal>,
) -> Result<Planes, Refusal> {
    let mut filled = planes.clone();
    for (plane, filled) in planes.iter().zip(&mut filled) {
        call(plane, filled)?;
    }
    Ok(filled)
}

/// The planes of a frame held to 0..1,023.
pub fn clamped(frame: &Frame) -> Result<Planes, Refusal> {
    filled(&frames::developed(frame)?, bayer::clamp)
}

/// The same through the tone curve.
pub fn curved(frame: &Frame) -> Result<Planes, Refusal> {
    filled(&clamped(frame)?, bayer::curve)
}

/// The nearest byte: 255/1,023 of the number.
pub fn byte(number: i32) -> u8 {
    let most = i32::from(SAMPLE_MOST);
    ((2 * 255 * number + most) / (2 * most)) as u8
}

/// The picture of planes that hold 0..1,023.
fn picture(frame: &Frame, planes: &Planes) -> Picture {
    let (width, height) = (frame.width, frame.height);
    let at = |row, column| [0, 1, 2].map(|k: usize| byte(planes[k][row * width + column]));
    Picture::form(width, height, at)
}

/// Makes of a frame a picture, and the text that is printed with it.
type Show = fn(&Frame) -> Result<(Picture, String), Refusal>;

/// The picture of the decision map, and the text that tells its colours.
fn map_and_legend(frame: &Frame) -> Result<(Picture, String), Refusal> {
    let decisions = frames::decisions(frame)?;
    let picture = decision_map::picture(frame.width, &decisions);
    Ok((picture, decision_map::legend(&decisions)))
}

/// What the options ask to be shown.
fn asked(arguments: &Arguments) -> Result<Show, Problem> {
    match (arguments.flag("--map"), arguments.flag("--curve")) {
        (false, false) => Ok(|frame| Ok((picture(frame, &clamped(frame)?), String::new()))),
        (false, true) => Ok(|frame| Ok((picture(frame, &curved(frame)?), String::new()))),
        (true, false) => Ok(map_and_legend),
        (true, true) => Err(Problem::Usage(
            "--map and --curve exclude each other".into(),
        )),
    }
}

pub fn run(words: &[String]) -> Result<(), Problem> {
    let arguments = Arguments::parse(words, &[], &["--map", "--curve"])?;
    let [from, to] = arguments.exactly(["FRAME", "PICTURE"])?;
    let show = asked(&arguments)?;
    let kind = Kind::of(to)?;
    let from = Input::of(from);
    let to = Output::of(to, Some(from))?;
    let frame = frames::load(from)?;
    let progress = Progress::of(frame.samples.len());
    progress.step("developing");
    let (picture, legend) = show(&frame).map_err(|why| from.refused(why))?;
    progress.step("writing the picture");
    picture.save(kind, &to)?;
    to.print_beside(&legend)
}
