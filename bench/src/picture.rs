//! The figures as an SVG picture: groups of bars.

use std::fmt::Write;

const COLOURS: [&str; 4] = ["#1b6ca8", "#e08e2b", "#8a9a5b", "#9c9c9c"];
const HEIGHT: f64 = 240.0;
const TOP: f64 = 50.0;
const BAR: f64 = 22.0;
const GAP: f64 = 18.0;

/// One bar for each series, in the order of the series.
pub struct Group {
    pub label: String,
    pub bars: Vec<f64>,
}

/// A chart of groups.
pub struct Chart {
    pub title: String,
    pub groups: Vec<Group>,
}

impl Chart {
    fn width(&self) -> f64 {
        let group = |group: &Group| group.bars.len() as f64 * BAR + GAP;
        self.groups.iter().map(group).sum::<f64>() + GAP
    }

    /// A round number that no bar passes.
    fn ceiling(&self) -> f64 {
        let bars = self.groups.iter().flat_map(|group| &group.bars);
        let greatest = bars.fold(1.0, |most: f64, &bar| most.max(bar));
        (greatest / 20.0).ceil() * 20.0
    }

    /// Draws the chart from x on.
    fn draw(&self, x: f64, svg: &mut String) {
        let (ceiling, width) = (self.ceiling(), self.width());
        text(svg, x, TOP - 22.0, "start", 14, &self.title);
        for quarter in 0..=4 {
            let value = ceiling * f64::from(quarter) / 4.0;
            let y = TOP + HEIGHT * (1.0 - value / ceiling);
            let line = format!(
                r##"<line x1="{x:.0}" x2="{:.0}" y1="{y:.1}" y2="{y:.1}" stroke="#d0d0d0"/>"##,
                x + width
            );
            let _ = writeln!(svg, "{line}");
            text(svg, x - 6.0, y + 4.0, "end", 11, &format!("{value:.0}"));
        }
        let mut left = x + GAP;
        for group in &self.groups {
            group.draw(left, ceiling, svg);
            left += group.bars.len() as f64 * BAR + GAP;
        }
    }
}

impl Group {
    fn draw(&self, left: f64, ceiling: f64, svg: &mut String) {
        for (bar, (&value, colour)) in self.bars.iter().zip(COLOURS).enumerate() {
            let (x, height) = (left + bar as f64 * BAR, HEIGHT * value / ceiling);
            let y = TOP + HEIGHT - height;
            let width = BAR - 2.0;
            let bar = format!(
                r#"<rect x="{x:.1}" y="{y:.1}" width="{width:.0}" height="{height:.1}" fill="{colour}"/>"#
            );
            let _ = writeln!(svg, "{bar}");
            let number = format!("{value:.1}");
            text(svg, x + width / 2.0, y - 4.0, "middle", 9, &number);
        }
        let middle = left + self.bars.len() as f64 * BAR / 2.0;
        text(svg, middle, TOP + HEIGHT + 18.0, "middle", 11, &self.label);
    }
}

fn text(svg: &mut String, x: f64, y: f64, anchor: &str, size: u32, words: &str) {
    let place = format!(r#"x="{x:.1}" y="{y:.1}" text-anchor="{anchor}" font-size="{size}""#);
    let _ = writeln!(svg, "<text {place}>{words}</text>");
}

/// The charts beside each other, and below them the names of the series.
pub fn drawn(charts: &[Chart], series: &[&str]) -> String {
    let margin = 50.0;
    let width: f64 = charts
        .iter()
        .map(|chart| chart.width() + margin)
        .sum::<f64>()
        + 20.0;
    let height = TOP + HEIGHT + 60.0;
    let mut svg = format!(
        "<svg xmlns=\"http://www.w3.org/2000/svg\" width=\"{width:.0}\" height=\"{height:.0}\" font-family=\"sans-serif\">\n\
         <rect width=\"100%\" height=\"100%\" fill=\"white\"/>\n"
    );
    let mut x = margin;
    for chart in charts {
        chart.draw(x, &mut svg);
        x += chart.width() + margin;
    }
    for (place, (name, colour)) in series.iter().zip(COLOURS).enumerate() {
        let (x, y) = (margin + 150.0 * place as f64, TOP + HEIGHT + 34.0);
        let _ = writeln!(
            svg,
            r#"<rect x="{x:.0}" y="{y:.0}" width="12" height="12" fill="{colour}"/>"#
        );
        text(&mut svg, x + 18.0, y + 10.0, "start", 12, name);
    }
    svg + "</svg>\n"
}
