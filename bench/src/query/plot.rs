//! The plot: time against regions, both logarithmic, a panel for each drawing.

use crate::contest::{Cell, NAMES, PROVED, UNPROVED};
use crate::figures::count;
use crate::frame::SIZES;
use crate::Results;

const COLOURS: [&str; 5] = ["#0072b2", "#d55e00", "#009e73", "#8c8c8c", "#cc79a7"];

/// Panels in a row, and the size of each with its title and its axis.
const ACROSS: usize = 4;
const WIDTH: f64 = 232.0;
const HEIGHT: f64 = 226.0;
const MARGIN: f64 = 52.0;

/// A panel's square, from its corner.
const LEFT: f64 = 8.0;
const TOP: f64 = 26.0;
const INNER_WIDTH: f64 = 208.0;
const INNER_HEIGHT: f64 = 168.0;

/// Decades of seconds, lowest and highest.
struct Scale {
    low: i32,
    high: i32,
}

impl Scale {
    fn of(cells: &[Vec<Cell>]) -> Self {
        let times = || cells.iter().flatten().flat_map(|cell| (0..NAMES.len()).map(|which| cell.time(which).log10()));
        Scale { low: times().fold(f64::MAX, f64::min).floor() as i32, high: times().fold(f64::MIN, f64::max).ceil() as i32 }
    }

    fn x(&self, regions: usize) -> f64 {
        let (first, last) = (SIZES[0] as f64, SIZES[SIZES.len() - 1] as f64);
        let inset = 12.0;
        LEFT + inset + (INNER_WIDTH - 2.0 * inset) * (regions as f64 / first).ln() / (last / first).ln()
    }

    fn y(&self, seconds: f64) -> f64 {
        TOP + INNER_HEIGHT * (self.high as f64 - seconds.log10()) / (self.high - self.low) as f64
    }
}

fn text(x: f64, y: f64, anchor: &str, words: &str) -> String {
    format!("<text x=\"{x:.1}\" y=\"{y:.1}\" text-anchor=\"{anchor}\">{words}</text>\n")
}

fn line(from: (f64, f64), to: (f64, f64), style: &str) -> String {
    format!("<line x1=\"{:.1}\" y1=\"{:.1}\" x2=\"{:.1}\" y2=\"{:.1}\" {style}/>\n", from.0, from.1, to.0, to.1)
}

/// 10 to a power, in seconds, in words.
fn decade(power: i32) -> String {
    let unit = |scaled: i32, name: &str| format!("{} {name}", 10f64.powi(scaled));
    match power {
        ..=-7 => unit(power + 9, "ns"),
        -6..=-4 => unit(power + 6, "µs"),
        -3..=-1 => unit(power + 3, "ms"),
        _ => unit(power, "s"),
    }
}

/// A matcher's mark: circle, square, triangle, diamond or a triangle on its tip.
fn mark(which: usize, (x, y): (f64, f64)) -> String {
    let colour = COLOURS[which];
    match which {
        0 => format!("<circle cx=\"{x:.1}\" cy=\"{y:.1}\" r=\"3.4\" fill=\"{colour}\"/>\n"),
        1 => format!("<rect x=\"{:.1}\" y=\"{:.1}\" width=\"6\" height=\"6\" fill=\"{colour}\"/>\n", x - 3.0, y - 3.0),
        2 => format!("<path d=\"M{x:.1} {:.1}l3.8 6.4h-7.6z\" fill=\"{colour}\"/>\n", y - 3.8),
        3 => format!("<path d=\"M{x:.1} {:.1}l3.8 3.8l-3.8 3.8l-3.8-3.8z\" fill=\"{colour}\"/>\n", y - 3.8),
        _ => format!("<path d=\"M{x:.1} {:.1}l-3.8-6.4h7.6z\" fill=\"{colour}\"/>\n", y + 3.8),
    }
}

/// The square, its lines and, in the first column, the times beside it.
fn axes(scale: &Scale, first: bool, name: &str) -> String {
    let mut svg =
        format!("<rect x=\"{LEFT}\" y=\"{TOP}\" width=\"{INNER_WIDTH}\" height=\"{INNER_HEIGHT}\" fill=\"#fff\" stroke=\"#999\"/>\n");
    svg += &format!("<text x=\"{LEFT}\" y=\"{}\" font-weight=\"bold\" font-size=\"13\">{name}</text>\n", TOP - 8.0);
    for power in scale.low..=scale.high {
        let y = scale.y(10f64.powi(power));
        svg += &line((LEFT, y), (LEFT + INNER_WIDTH, y), "stroke=\"#e4e4e4\"");
        if first {
            svg += &text(LEFT - 5.0, y + 4.0, "end", &decade(power));
        }
    }
    for regions in SIZES {
        svg += &text(scale.x(regions), TOP + INNER_HEIGHT + 15.0, "middle", &count(regions));
    }
    svg
}

/// One matcher's times. The way to the last frame is dashed, since its regions touch fewer others.
fn series(scale: &Scale, cells: &[Cell], which: usize) -> String {
    let refused = |cell: &Cell| cell.refused.is_some() && (which == PROVED || which == UNPROVED);
    let point = |cell: &Cell| (scale.x(cell.regions), scale.y(cell.time(which)));
    let mut svg = String::new();
    for (i, pair) in cells.windows(2).enumerate() {
        if !pair.iter().any(refused) {
            let dashes = if i + 2 == cells.len() { " stroke-dasharray=\"4 3\"" } else { "" };
            let width = if which == PROVED { 2.4 } else { 1.5 };
            let style = format!("stroke=\"{}\" stroke-width=\"{width}\"{dashes}", COLOURS[which]);
            svg += &line(point(&pair[0]), point(&pair[1]), &style);
        }
    }
    svg + &cells.iter().filter(|cell| !refused(cell)).map(|cell| mark(which, point(cell))).collect::<String>()
}

fn panel(scale: &Scale, place: usize, name: &str, cells: &[Cell]) -> String {
    let mut svg = axes(scale, place % ACROSS == 0, name);
    for which in (0..NAMES.len()).rev() {
        svg += &series(scale, cells, which);
    }
    for (cell, (number, _)) in cells.iter().filter_map(|cell| Some((cell, cell.refused?))) {
        svg += &text(scale.x(cell.regions), TOP + 13.0, "middle", &format!("refused: {number}"));
    }
    at(place, &svg)
}

/// Moved to its place in the rows of panels.
fn at(place: usize, svg: &str) -> String {
    let (x, y) = (MARGIN + WIDTH * (place % ACROSS) as f64, HEIGHT * (place / ACROSS) as f64 + 6.0);
    format!("<g transform=\"translate({x} {y})\">\n{svg}</g>\n")
}

fn legend(place: usize) -> String {
    let mut svg = String::new();
    for (which, name) in NAMES.iter().enumerate() {
        let y = TOP + 24.0 + 22.0 * which as f64;
        svg += &line((LEFT + 10.0, y), (LEFT + 42.0, y), &format!("stroke=\"{}\" stroke-width=\"2\"", COLOURS[which]));
        svg += &mark(which, (LEFT + 26.0, y));
        svg += &text(LEFT + 52.0, y + 4.0, "start", name);
    }
    let notes = [
        "time of a query against regions,",
        "both logarithmic; lower is faster",
        "dashed: on the last frame a region",
        "touches about two others, and each",
        "pair stands in one direction",
    ];
    for (i, note) in notes.iter().enumerate() {
        svg += &text(LEFT + 10.0, TOP + 136.0 + 16.0 * i as f64, "start", note);
    }
    at(place, &svg)
}

pub fn plot(results: &Results) -> String {
    let scale = Scale::of(&results.cells);
    let count = results.drawings.len();
    let (width, height) = (MARGIN + WIDTH * ACROSS as f64, HEIGHT * (count + 1).div_ceil(ACROSS) as f64 + 6.0);
    let mut svg = format!(
        "<svg xmlns=\"http://www.w3.org/2000/svg\" viewBox=\"0 0 {width} {height}\" width=\"{width}\" height=\"{height}\" \
        font-family=\"sans-serif\" font-size=\"11\" fill=\"#222\">\n<rect width=\"{width}\" height=\"{height}\" fill=\"#fff\"/>\n"
    );
    for (place, (drawing, cells)) in results.drawings.iter().zip(&results.cells).enumerate() {
        svg += &panel(&scale, place, drawing.name, cells);
    }
    svg + &legend(count) + "</svg>\n"
}
