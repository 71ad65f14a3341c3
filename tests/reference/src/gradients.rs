//! Document 01, "Gradients": the four gradients of a site, times 8.

use crate::sites::Frame;

/// The samples by row and column, or with rows and columns exchanged.
type View<'a> = &'a dyn Fn(i64, i64) -> i64;

/// The gradients E, W, S, N of the site, in this order.
pub fn gradients(frame: &Frame, row: i64, column: i64) -> [i64; 4] {
    let upright = |row, column| frame.sample(row, column);
    let exchanged = |row, column| frame.sample(column, row);
    [
        eastbound(&upright, row, column),
        westbound(&upright, row, column),
        eastbound(&exchanged, column, row),
        westbound(&exchanged, column, row),
    ]
}

/// E(i,j) = 8·|Z(i,j) − Z(i,j+2)| + 2·a(i,j) + a(i−1,j) + a(i+1,j)
fn eastbound(view: View, row: i64, column: i64) -> i64 {
    8 * (view(row, column) - view(row, column + 2)).abs()
        + 2 * pair(view, row, column)
        + pair(view, row - 1, column)
        + pair(view, row + 1, column)
}

/// W(i,j) = E(i,j−2), also by reflected Z
fn westbound(view: View, row: i64, column: i64) -> i64 {
    eastbound(view, row, column - 2)
}

/// a(i,j) = |s(i,j)| + |s(i,j+1)|
fn pair(view: View, row: i64, column: i64) -> i64 {
    sum(view, row, column).abs() + sum(view, row, column + 1).abs()
}

/// s(i,j) = Z(i,j−2) − 2Z(i,j−1) + Z(i,j) + Z(i,j+1) − 2Z(i,j+2) + Z(i,j+3)
fn sum(view: View, row: i64, column: i64) -> i64 {
    view(row, column - 2) - 2 * view(row, column - 1) + view(row, column) + view(row, column + 1)
        - 2 * view(row, column + 2)
        + view(row, column + 3)
}
