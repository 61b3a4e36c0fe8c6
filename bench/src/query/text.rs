//! Pieces of a page.

use crate::figures::figure;

/// A row of a table.
pub fn row(cells: impl IntoIterator<Item = String>) -> String {
    format!("| {} |\n", cells.into_iter().collect::<Vec<_>>().join(" | "))
}

/// Two digits or more.
pub fn ratio(x: f64) -> String {
    if x < 0.1 {
        format!("{x:.3}")
    } else {
        figure(x)
    }
}

pub fn micro(seconds: f64) -> String {
    figure(seconds * 1e6)
}
