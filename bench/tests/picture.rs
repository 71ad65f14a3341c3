//! The picture's bars.

use bench::picture::{drawn, Chart, Group};

#[test]
fn bars_stand_on_one_line_and_are_as_high_as_their_numbers() {
    let chart = Chart {
        title: "speeds".to_string(),
        groups: vec![Group {
            label: "noise".to_string(),
            bars: vec![40.0, 20.0, 0.5],
        }],
    };
    let svg = drawn(&[chart], &["one", "two", "three"]);
    assert!(svg.starts_with("<svg ") && svg.ends_with("</svg>\n"));
    for bar in [
        r#"y="50.0" width="20" height="240.0""#,
        r#"y="170.0" width="20" height="120.0""#,
        r#"y="287.0" width="20" height="3.0""#,
        ">40.0</text>",
        ">0.5</text>",
        ">noise</text>",
        ">three</text>",
    ] {
        assert!(svg.contains(bar), "{bar} in {svg}");
    }
}
