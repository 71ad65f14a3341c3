//! The built-in glaze: lines one site wide and two levels apart, with specks. Away from specks every gradient is 0, so that red and blue
//! sites tie, while the greens beside them differ from those above and below.

use reference::sites::Frame;

/// A number that follows from the site alone.
fn mixed(row: usize, column: usize) -> u64 {
    let site = (row * 4096 + column) as u64;
    let mixed = site.wrapping_mul(0x9e37_79b9_7f4a_7c15);
    let mixed = (mixed ^ (mixed >> 30)).wrapping_mul(0xbf58_476d_1ce4_e5b9);
    mixed ^ (mixed >> 27)
}

/// A glaze of these sides.
pub fn glaze(width: usize, height: usize) -> Frame {
    let sample = |site: usize| {
        let (row, column) = (site / width, site % width);
        let line = 2 * (row % 2) as u16;
        let speck = u16::from(mixed(row, column) % 64 == 0);
        500 + line + speck
    };
    Frame {
        width,
        height,
        phase: 0,
        samples: (0..width * height).map(sample).collect(),
    }
}
