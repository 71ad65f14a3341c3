//! facts FRAME: size, phase, range of the samples, and how many red and blue sites tie, that is have h = v.

use crate::arguments::{Arguments, PHASES};
use crate::bordered::{Border, Bordered};
use crate::frames;
use crate::input::Input;
use crate::output;
use crate::problem::Problem;
use crate::progress::Progress;
use reference::sites::{Colour, Frame};

/// The red and blue sites of a frame, and those of them that tie.
#[derive(Clone, Copy, Debug, Default, PartialEq, Eq)]
pub struct Ties {
    pub sites: usize,
    pub tied: usize,
}

pub fn ties(frame: &Frame) -> Ties {
    Progress::of(frame.samples.len()).step("counting ties");
    let samples = Bordered::new(frame, Border::Reflected);
    let mut found = Ties::default();
    for row in 0..frame.height as i64 {
        for column in 0..frame.width as i64 {
            if frame.colour(row, column) != Colour::Green {
                let [e, w, s, n] = samples.gradients(row, column);
                found.sites += 1;
                found.tied += usize::from(e + w == s + n);
            }
        }
    }
    found
}

fn text(frame: &Frame) -> String {
    let least = frame.samples.iter().min().unwrap_or(&0);
    let most = frame.samples.iter().max().unwrap_or(&0);
    let Ties { sites, tied } = ties(frame);
    let (width, height, phase) = (frame.width, frame.height, frame.phase);
    let colours = PHASES[phase];
    format!(
        "width {width}\nheight {height}\nphase {phase} {colours}\nsamples {least} to {most}\nred and blue sites {sites}\ntied {tied}\n"
    )
}

pub fn run(words: &[String]) -> Result<(), Problem> {
    let arguments = Arguments::parse(words, &[], &[])?;
    let [from] = arguments.exactly(["FRAME"])?;
    output::print(&text(&frames::load(Input::of(from))?))
}
