//! The stages of the sweep: each takes one row further. Rows above and below the frame are reflected here.

use super::differences::{fill_chroma_sites, fill_green_sites, form_other, form_own};
use super::green::{first_pass, second_pass, Around, Reach};
use super::half_rows::{columns, part_mut, MARGIN};
use super::Optimised;
use crate::decisions::MEASURED;
use crate::sites::Sites;

/// Two half rows, column by column, less the black level.
fn weave<E: Copy + Into<i32>, O: Copy + Into<i32>>(
    even: &[E],
    odd: &[O],
    black: i32,
    out: &mut [i32],
) {
    let pairs = out.len() / 2;
    let (e, o) = (&even[..pairs], &odd[..pairs]);
    for (k, pair) in out.chunks_exact_mut(2).enumerate() {
        pair[0] = e[k].into() - black;
        pair[1] = o[k].into() - black;
    }
    if let [last] = out.chunks_exact_mut(2).into_remainder() {
        *last = even[pairs].into() - black;
    }
}

/// The half row of the red and blue sites and that of the green sites, less the black level.
fn weave_sites<C: Copy + Into<i32>, G: Copy + Into<i32>>(
    chroma: &[C],
    green: &[G],
    parity: usize,
    black: i32,
    out: &mut [i32],
) {
    let (chroma, green) = (&chroma[MARGIN..], &green[MARGIN..]);
    if parity == 0 {
        weave(chroma, green, black, out);
    } else {
        weave(green, chroma, black, out);
    }
}

/// A row of the map: the codes of the half row of red and blue sites, and 0, measured, at the green sites.
#[inline(never)]
fn weave_codes(codes: &[u16], parity: usize, map: &mut [u8]) {
    let codes = &codes[MARGIN..];
    let pairs = map.len() / 2;
    // a code and the 0 beside it, in the order of their columns
    for (pair, &code) in map.chunks_exact_mut(2).zip(&codes[..pairs]) {
        pair.copy_from_slice(&(code << (8 * parity)).to_le_bytes());
    }
    if let [last] = map.chunks_exact_mut(2).into_remainder() {
        *last = if parity == 0 {
            codes[pairs] as u8
        } else {
            MEASURED
        };
    }
}

impl Optimised {
    /// Splits a row of the mosaic.
    pub(super) fn load(&mut self, row: isize, mosaic: &[u16]) {
        let (even, odd) = self.samples.row_mut(row);
        let pairs = mosaic.len() / 2;
        let (e, o) = (part_mut(even, 0, pairs), part_mut(odd, 0, pairs));
        for (k, pair) in mosaic.chunks_exact(2).enumerate() {
            e[k] = pair[0];
            o[k] = pair[1];
        }
        if let [last] = mosaic.chunks_exact(2).remainder() {
            even[MARGIN + pairs] = *last;
        }
        self.samples.reflect(row, 0);
        self.samples.reflect(row, 1);
    }

    pub(super) fn run_first_pass(&mut self, sites: Sites, row: isize) {
        let parity = sites.first_chroma(row);
        let count = columns(sites.width, parity);
        let z = |off, parity| self.samples.half(sites.reflected_row(row + off), parity);
        let around = Around {
            parity,
            same: [z(0, parity), z(-2, parity), z(2, parity)],
            green: [z(0, 1 - parity), z(-1, parity), z(1, parity)],
        };
        let across = part_mut(self.across.half_mut(row, parity), 0, count);
        let down = part_mut(self.down.half_mut(row, parity), 0, count);
        let both = part_mut(self.both.half_mut(row, parity), 0, count);
        let codes = part_mut(self.codes.half_mut(row, parity), 0, count);
        let gradients = self.gradients.half(row, parity);
        first_pass(around, gradients, across, down, both, codes);
        self.across.reflect(row, parity);
        self.both.reflect(row, parity);
    }

    pub(super) fn run_second_pass(&mut self, sites: Sites, row: isize, map: &mut [u8]) {
        let parity = sites.first_chroma(row);
        let rows = [-6, -4, -2, 2, 4, 6].map(|off| sites.reflected_row(row + off));
        let reach = Reach {
            across: self.across.half(row, parity),
            down: self.down.half(row, parity),
            both: self.both.half(row, parity),
            down_rows: rows.map(|row| self.down.half(row, parity)),
            both_rows: rows.map(|row| self.both.half(row, parity)),
        };
        let count = columns(sites.width, parity);
        let out = part_mut(self.differences.half_mut(row, parity), 0, count);
        let codes = self.codes.half_mut(row, parity);
        second_pass(reach, out, part_mut(codes, 0, count));
        weave_codes(codes, parity, map);
        self.differences.reflect(row, parity);
    }

    pub(super) fn enhance(&mut self, sites: Sites, row: isize) {
        let parity = sites.first_chroma(row);
        let rows = [0, 2, -2].map(|off| sites.reflected_row(row + off));
        let rows = rows.map(|row| self.differences.half(row, parity));
        let out = part_mut(
            self.own.half_mut(row, parity),
            0,
            columns(sites.width, parity),
        );
        form_own(rows, self.gradients.half(row, parity), out);
        self.own.reflect(row, parity);
    }

    pub(super) fn form_diagonals(&mut self, sites: Sites, row: isize) {
        let parity = sites.first_chroma(row);
        let rows = [-1, 1].map(|off| sites.reflected_row(row + off));
        let rows = rows.map(|row| self.own.half(row, 1 - parity));
        let out = part_mut(
            self.other.half_mut(row, parity),
            0,
            columns(sites.width, parity),
        );
        form_other(rows, parity, self.gradients.half(row, parity), out);
        self.other.reflect(row, parity);
    }

    /// The three numbers of each site of a row, less the black level.
    pub(super) fn output_row(
        &mut self,
        sites: Sites,
        row: isize,
        black: i32,
        planes: [&mut [i32]; 3],
    ) {
        self.fill_sites(sites, row);
        let parity = sites.first_chroma(row);
        let [red, green, blue] = planes;
        let (own, other) = if sites.measures_red(row) {
            (red, blue)
        } else {
            (blue, red)
        };
        let [chroma, greens] = [parity, 1 - parity].map(|parity| self.samples.half(row, parity));
        let [green_there, other_there, own_missing, other_missing] = &self.filled;
        weave_sites(chroma, own_missing, parity, black, own);
        weave_sites(green_there, greens, parity, black, green);
        weave_sites(other_there, other_missing, parity, black, other);
    }

    /// The colours that a row does not measure, in half rows.
    fn fill_sites(&mut self, sites: Sites, row: isize) {
        let parity = sites.first_chroma(row);
        let [chroma, greens] = [parity, 1 - parity].map(|parity| columns(sites.width, parity));
        let [green_there, other_there, own_missing, other_missing] = &mut self.filled;
        let [below, above] = [1, -1].map(|off| sites.reflected_row(row + off));
        let near = [(row, parity), (below, 1 - parity), (above, 1 - parity)];
        let own = near.map(|(row, parity)| self.own.half(row, parity));
        let other = near.map(|(row, parity)| self.other.half(row, parity));
        fill_chroma_sites(
            self.samples.half(row, parity),
            [own[0], other[0]],
            part_mut(green_there, 0, chroma),
            part_mut(other_there, 0, chroma),
        );
        fill_green_sites(
            self.samples.half(row, 1 - parity),
            [own, other],
            1 - parity,
            self.gradients.half(row, 1 - parity),
            part_mut(own_missing, 0, greens),
            part_mut(other_missing, 0, greens),
        );
    }
}
