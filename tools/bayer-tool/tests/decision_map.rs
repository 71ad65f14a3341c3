//! The decision map as a picture and as text.

#[path = "../../../tests/reference/tests/common/mod.rs"]
mod common;

use bayer::Decision;
use bayer_tool::decision_map::{colour, legend, picture};
use bayer_tool::frames::decisions;
use bayer_tool::picture::Picture;
use common::{developed, frame, Generator, KINDS};

const WHITE: [u8; 3] = [255; 3];

/// The colour of a point.
fn at(picture: &Picture, row: usize, column: usize) -> [u8; 3] {
    let first = 3 * (row * picture.width + column);
    picture.bytes[first..first + 3].try_into().unwrap()
}

/// A map of these sides with decisions of any kind.
fn any_map(generator: &mut Generator, width: usize, height: usize) -> Vec<Decision> {
    (0..width * height)
        .map(|_| generator.one_of(&Decision::ALL))
        .collect()
}

#[test]
fn the_library_decides_as_the_independent_implementation() {
    let mut generator = Generator::new(220);
    for _ in 0..100 {
        for kind in KINDS {
            let frame = frame(&mut generator, kind, 20);
            let codes = decisions(&frame).unwrap().into_iter().map(Decision::code);
            assert_eq!(codes.collect::<Vec<_>>(), developed(&frame).map);
        }
    }
}

#[test]
fn every_site_has_the_colour_of_its_decision() {
    let mut generator = Generator::new(221);
    for (width, height) in [(2, 2), (3, 40), (62, 5), (63, 4), (64, 4), (150, 3)] {
        let map = any_map(&mut generator, width, height);
        let picture = picture(width, &map);
        assert_eq!(
            (picture.width, picture.height),
            (width.max(63), height + 11)
        );
        assert_eq!(picture.bytes.len(), 3 * picture.width * picture.height);
        for row in 0..height + 2 {
            for column in 0..picture.width {
                let expected = if row < height && column < width {
                    colour(map[row * width + column])
                } else {
                    WHITE
                };
                assert_eq!(at(&picture, row, column), expected, "({row},{column})");
            }
        }
    }
}

/// The middle columns of the swatches, # where a point has not its swatch's colour; the three columns on each side have it.
#[test]
fn each_swatch_has_its_colour_and_its_digit() {
    let map = any_map(&mut Generator::new(222), 70, 3);
    let picture = picture(70, &map);
    let strip = [
        "... ... ... ... ... ... ...",
        "... ... ... ... ... ... ...",
        "### .#. ### ### #.# ### ###",
        "#.# ##. ..# ..# #.# #.. #..",
        "#.# .#. ### ### ### ### ###",
        "#.# .#. #.. ..# ..# ..# #.#",
        "### ### ### ### ..# ### ###",
        "... ... ... ... ... ... ...",
        "... ... ... ... ... ... ...",
    ];
    for (row, digits) in (3 + 2..).zip(strip) {
        let differs =
            |column: usize| at(&picture, row, column) != colour(Decision::ALL[column / 9]);
        let drawn: String = (0..63)
            .map(|column| if differs(column) { '#' } else { '.' })
            .collect();
        let expected: Vec<String> = digits.split(' ').map(|d| format!("...{d}...")).collect();
        assert_eq!(drawn, expected.concat(), "row {row}");
        assert!((63..70).all(|column| at(&picture, row, column) == WHITE));
    }
}

#[test]
fn colours_differ() {
    let all: std::collections::HashSet<_> = Decision::ALL.map(colour).into_iter().collect();
    assert_eq!(all.len(), Decision::ALL.len());
    assert!(!all.contains(&WHITE));
}

#[test]
fn the_legend_counts_every_decision() {
    let map: Vec<Decision> = Decision::ALL
        .into_iter()
        .flat_map(|decision| vec![decision; 1 + usize::from(decision.code()).pow(4)])
        .collect();
    let expected = "\
colour              code  decision                      sites
black      #000000     0  measured                          1
grey       #c8c8c8     1  equal                             2
vermilion  #d55e00     2  strong across                    17
blue       #0072b2     3  strong down                      82
orange     #e69f00     4  weak resolved across            257
sky blue   #56b4e9     5  weak resolved down              626
green      #009e73     6  weak resolved to the mean      1297
";
    assert_eq!(legend(&map), expected);
}
