//! turned CHANGE ..: develops a frame, changes it by the list, develops the last frame, and compares at matching points: by the library,
//! and by the old way.

use crate::arguments::{size, Arguments, PHASES};
use crate::commands::facts::{ties, Ties};
use crate::frames::{self, Planes};
use crate::glaze::glaze;
use crate::input::Input;
use crate::old_way;
use crate::output::{self, Output};
use crate::picture::{Kind, Picture};
use crate::problem::Problem;
use crate::progress::Progress;
use reference::sites::Frame;
use reference::turning::{changed_by_list, matching_point, trades_an_odd_number, Change, CHANGES};

/// The names of `CHANGES`, in the same order.
const NAMES: [&str; 4] = ["left-right", "top-bottom", "transpose", "trade"];

const GLAZE: (usize, usize) = (240, 160);

fn change(name: &String) -> Result<Change, Problem> {
    let place = NAMES.iter().position(|known| known == name);
    place
        .map(|place| CHANGES[place])
        .ok_or_else(|| Problem::Usage(format!("no change {name}")))
}

/// The last frame's planes at the first frame's points, red and blue traded back.
fn drawn_back(first: &Frame, changes: &[Change], last_width: usize, planes: Planes) -> Planes {
    let places: Vec<usize> = (0..first.samples.len())
        .map(|site| {
            let point = (site / first.width, site % first.width);
            let (row, column) = matching_point(first, changes, point);
            row * last_width + column
        })
        .collect();
    let mut back = planes.map(|plane| places.iter().map(|&place| plane[place]).collect());
    if trades_an_odd_number(changes) {
        back.swap(0, 2);
    }
    back
}

/// The planes of the first frame, and those of the last at its points.
pub struct Turned {
    pub before: Planes,
    pub after: Planes,
}

impl Turned {
    /// By one way of developing.
    pub fn by<E>(
        develop: impl Fn(&Frame) -> Result<Planes, E>,
        first: &Frame,
        changes: &[Change],
    ) -> Result<Self, E> {
        let last = changed_by_list(first, changes);
        Ok(Turned {
            before: develop(first)?,
            after: drawn_back(first, changes, last.width, develop(&last)?),
        })
    }

    /// How many entries differ.
    pub fn differ(&self) -> usize {
        let pairs = self
            .before
            .iter()
            .flatten()
            .zip(self.after.iter().flatten());
        pairs.filter(|(before, after)| before != after).count()
    }

    /// By how much the three numbers of a site differ.
    fn moved(&self, site: usize) -> [u32; 3] {
        [0, 1, 2].map(|k| self.before[k][site].abs_diff(self.after[k][site]))
    }
}

fn mean(plane: &[i32]) -> f64 {
    let sum: i64 = plane.iter().map(|&number| i64::from(number)).sum();
    sum as f64 / plane.len() as f64
}

fn table(library: &Turned, old: &Turned) -> String {
    let line =
        |what: &str, library: String, old: String| format!("{what:22}{library:>12}{old:>12}\n");
    let count = |turned: &Turned| {
        turned
            .before
            .iter()
            .map(Vec::len)
            .sum::<usize>()
            .to_string()
    };
    let three = |plane: &[i32]| format!("{:.3}", mean(plane));
    let mut text = line("", "library".into(), "old way".into());
    text += &line("entries", count(library), count(old));
    text += &line(
        "entries that differ",
        library.differ().to_string(),
        old.differ().to_string(),
    );
    for (k, colour) in ["red", "green", "blue"].into_iter().enumerate() {
        text += &line(
            &format!("mean {colour} before"),
            three(&library.before[k]),
            three(&old.before[k]),
        );
        text += &line(
            &format!("mean {colour} after"),
            three(&library.after[k]),
            three(&old.after[k]),
        );
    }
    text
}

/// The library's differences, a grey line, and the old way's: a difference of 1 is drawn as 64, of 4 and more as 255.
fn picture(first: &Frame, library: &Turned, old: &Turned) -> Picture {
    const LINE: usize = 4;
    let width = first.width;
    let shade = |moved: [u32; 3]| moved.map(|by| (64 * by.min(4)).min(255) as u8);
    Picture::form(2 * width + LINE, first.height, |row, column| {
        if column < width {
            shade(library.moved(row * width + column))
        } else if column < width + LINE {
            [128; 3]
        } else {
            shade(old.moved(row * width + column - width - LINE))
        }
    })
}

/// The frame of a file, or the glaze of a size.
fn first_frame(arguments: &Arguments) -> Result<(String, Frame), Problem> {
    match (arguments.option("--frame"), arguments.option("--size")) {
        (Some(_), Some(_)) => Err(Problem::Usage(
            "--frame and --size exclude each other".into(),
        )),
        (Some(word), None) => {
            let from = Input::of(word);
            Ok((from.name().into(), frames::load(from)?))
        }
        (None, given) => {
            let (width, height) = given.map_or(Ok(GLAZE), size)?;
            let name = "built-in glaze";
            frames::admitted(width, height).map_err(|why| Problem::Refused(name.into(), why))?;
            Ok((name.into(), glaze(width, height)))
        }
    }
}

/// What is asked to be drawn, and where, apart from what is read.
fn drawn(arguments: &Arguments) -> Result<Option<(Kind, Output)>, Problem> {
    let from = arguments.option("--frame").map(Input::of);
    let Some(word) = arguments.option("--picture") else {
        return Ok(None);
    };
    Ok(Some((Kind::of(word)?, Output::of(word, from)?)))
}

fn headline(name: &str, frame: &Frame) -> String {
    let Ties { sites, tied } = ties(frame);
    let (width, height, phase) = (frame.width, frame.height, frame.phase);
    let colours = PHASES[phase];
    format!(
        "{name}: {width} by {height}, phase {phase} {colours}; {tied} of {sites} red and blue sites tie\n"
    )
}

pub fn run(words: &[String]) -> Result<(), Problem> {
    let arguments = Arguments::parse(words, &["--frame", "--size", "--picture"], &[])?;
    let changes: Vec<Change> = arguments
        .words
        .iter()
        .map(change)
        .collect::<Result<_, _>>()?;
    let drawn = drawn(&arguments)?;
    let (name, first) = first_frame(&arguments)?;
    let progress = Progress::of(first.samples.len());
    progress.step("developing by the library, before and after");
    let library = Turned::by(frames::developed, &first, &changes)
        .map_err(|why| Problem::Refused(name.clone(), why))?;
    progress.step("developing by the old way, before and after");
    let developed = |frame: &Frame| Ok::<_, Problem>(old_way::develop(frame, old_way::OLD));
    let old = Turned::by(developed, &first, &changes)?;
    let listed = arguments.words.join(" ");
    let head = headline(&name, &first);
    let text = format!("{head}changes: {listed}\n\n{}", table(&library, &old));
    match drawn {
        None => output::print(&text)?,
        Some((kind, to)) => {
            picture(&first, &library, &old).save(kind, &to)?;
            to.print_beside(&text)?;
        }
    }
    match library.differ() {
        0 => Ok(()),
        count => Err(Problem::Differs(count)),
    }
}
