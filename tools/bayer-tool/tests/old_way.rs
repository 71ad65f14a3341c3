//! The old way is the method but for its two faults, and each fault lets a turn show.

#[path = "../../../tests/reference/tests/common/mod.rs"]
mod common;

use bayer_tool::bordered::Border;
use bayer_tool::commands::turned::Turned;
use bayer_tool::frames::{developed, Planes};
use bayer_tool::glaze::glaze;
use bayer_tool::old_way::{develop, Rules, DOCUMENT, OLD};
use common::demand3::list;
use common::{frame, Generator, KINDS};
use reference::sites::Frame;
use reference::turning::Change;

#[test]
fn without_the_faults_it_is_the_method() {
    let mut generator = Generator::new(201);
    for _ in 0..100 {
        for kind in KINDS {
            let frame = frame(&mut generator, kind, 16);
            let expected = common::developed(&frame);
            let [red, green, blue] = develop(&frame, DOCUMENT);
            assert_eq!(red, expected.red, "{frame:?}");
            assert_eq!(green, expected.green, "{frame:?}");
            assert_eq!(blue, expected.blue, "{frame:?}");
        }
    }
}

/// How many entries differ after a list of changes.
fn differ(rules: Rules, first: &Frame, changes: &[Change]) -> usize {
    let by = |frame: &Frame| Ok::<Planes, ()>(develop(frame, rules));
    Turned::by(by, first, changes).unwrap().differ()
}

#[test]
fn each_fault_lets_a_turn_show() {
    let first = glaze(48, 36);
    let turn = [Change::Transpose, Change::MirrorLeftToRight];
    let border = Rules {
        border: Border::LastColumnRepeated,
        ..DOCUMENT
    };
    let choice = Rules {
        first_of_equal: true,
        ..DOCUMENT
    };
    assert_eq!(differ(DOCUMENT, &first, &turn), 0);
    assert!(differ(border, &first, &turn) > 100);
    assert!(differ(choice, &first, &turn) > 1_000);
    assert!(differ(OLD, &first, &turn) > 1_000);
}

#[test]
fn no_list_of_changes_shows_in_the_library() {
    let mut generator = Generator::new(202);
    for _ in 0..100 {
        for kind in KINDS {
            let first = frame(&mut generator, kind, 20);
            let changes = list(&mut generator);
            let turned = Turned::by(developed, &first, &changes).unwrap();
            assert_eq!(turned.differ(), 0, "{changes:?} of {first:?}");
        }
    }
}
