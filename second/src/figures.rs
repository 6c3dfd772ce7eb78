//! Four drawings: the grid with the weights of a cell, the rounding on both sides of zero, a grid across 180 degrees, and rows.

use std::fmt::Write;
use std::path::Path;

/// The width of a drawing in pixels.
const WIDTH: i32 = 800;
/// The colour of lines and words.
pub(crate) const INK: &str = "#1a1a1a";
/// The colour of what explains.
pub(crate) const GREY: &str = "#666666";
/// The colour of what is looked at.
pub(crate) const BLUE: &str = "#1f5fa8";
/// The colour of what is marked.
pub(crate) const RED: &str = "#c0392b";
/// The colours of the four parts of a cell: south-west, south-east, north-west, north-east.
const PARTS: [&str; 4] = ["#cfe3f5", "#d9efd3", "#fbe3c8", "#ead9f0"];

/// A drawing under way.
pub(crate) struct Drawing {
    body: String,
    height: i32,
}

/// Where words stand relative to their place.
#[derive(Clone, Copy)]
pub(crate) enum Stand {
    Start,
    Middle,
    End,
}

impl Drawing {
    /// An empty drawing.
    pub(crate) fn new(height: i32) -> Self {
        Drawing { body: String::new(), height }
    }

    /// Adds a line.
    pub(crate) fn line(&mut self, from: (i32, i32), to: (i32, i32), colour: &str, width: f32, dashed: bool) {
        let dash = if dashed { " stroke-dasharray=\"5 4\"" } else { "" };
        let ((x1, y1), (x2, y2)) = (from, to);
        writeln!(
            self.body,
            "<line x1=\"{x1}\" y1=\"{y1}\" x2=\"{x2}\" y2=\"{y2}\" stroke=\"{colour}\" stroke-width=\"{width}\"{dash}/>"
        )
        .expect("a string takes all");
    }

    /// Adds words.
    pub(crate) fn words(&mut self, (x, y): (i32, i32), size: i32, colour: &str, stand: Stand, words: &str) {
        let anchor = match stand {
            Stand::Start => "start",
            Stand::Middle => "middle",
            Stand::End => "end",
        };
        writeln!(
            self.body,
            "<text x=\"{x}\" y=\"{y}\" font-size=\"{size}\" fill=\"{colour}\" text-anchor=\"{anchor}\">{words}</text>"
        )
        .expect("a string takes all");
    }

    /// Adds a disc with a rim.
    pub(crate) fn disc(&mut self, (x, y): (i32, i32), radius: i32, fill: &str, rim: &str) {
        writeln!(
            self.body,
            "<circle cx=\"{x}\" cy=\"{y}\" r=\"{radius}\" fill=\"{fill}\" stroke=\"{rim}\" stroke-width=\"1.5\"/>"
        )
        .expect("a string takes all");
    }

    /// Adds a part of a circle, drawn counterclockwise from one place to another.
    fn arc(&mut self, from: (i32, i32), to: (i32, i32), radius: i32, more_than_half: bool, colour: &str, dashed: bool) {
        let dash = if dashed { " stroke-dasharray=\"5 4\"" } else { "" };
        let ((x1, y1), (x2, y2), large) = (from, to, i32::from(more_than_half));
        writeln!(
            self.body,
            "<path d=\"M {x1} {y1} A {radius} {radius} 0 {large} 0 {x2} {y2}\" fill=\"none\" stroke=\"{colour}\" stroke-width=\"2.5\"{dash}/>"
        )
        .expect("a string takes all");
    }

    /// Adds a rectangle without a rim.
    pub(crate) fn area(&mut self, (x, y): (i32, i32), (width, height): (i32, i32), fill: &str) {
        writeln!(self.body, "<rect x=\"{x}\" y=\"{y}\" width=\"{width}\" height=\"{height}\" fill=\"{fill}\"/>")
            .expect("a string takes all");
    }

    /// The whole file.
    pub(crate) fn file(&self, title: &str) -> String {
        format!(
            "<svg xmlns=\"http://www.w3.org/2000/svg\" width=\"{WIDTH}\" height=\"{h}\" viewBox=\"0 0 {WIDTH} {h}\" \
             font-family=\"Helvetica, Arial, 'DejaVu Sans', sans-serif\">\n<title>{title}</title>\n\
             <rect width=\"{WIDTH}\" height=\"{h}\" fill=\"white\"/>\n{}</svg>\n",
            self.body,
            h = self.height
        )
    }
}

/// The left edge, the upper edge and the spacing of the drawn grid.
const GRID: (i32, i32, i32) = (110, 110, 100);

/// The drawn place of the node in a row from the north and a column from the west.
fn node_at(row: i32, column: i32) -> (i32, i32) {
    (GRID.0 + column * GRID.2, GRID.1 + row * GRID.2)
}

/// Lines, cells, nodes and the origin.
fn draw_grid(drawing: &mut Drawing) {
    let names = ["I", "II", "III", "IV", "V", "VI", "VII", "VIII", "IX"];
    let half = GRID.2 / 2;
    drawing.area(node_at(1, 0), (GRID.2, GRID.2), "#eef4fa");
    for i in 0..4 {
        drawing.line(node_at(i, 0), node_at(i, 3), INK, 1.2, false);
        drawing.line(node_at(0, i), node_at(3, i), INK, 1.2, false);
    }
    for (i, name) in names.iter().enumerate() {
        let (x, y) = node_at(i as i32 / 3, i as i32 % 3);
        drawing.words((x + 26, y + 32), 14, GREY, Stand::Middle, name);
    }
    for node in 0..16 {
        let (x, y) = node_at(node / 4, node % 4);
        drawing.disc((x, y), 12, "white", INK);
        drawing.words((x, y + 5), 13, INK, Stand::Middle, &(node + 1).to_string());
    }
    let (x, y) = (node_at(1, 1).0 + half, node_at(1, 1).1 + half);
    drawing.line((x - 9, y), (x + 9, y), BLUE, 2.5, false);
    drawing.line((x, y - 9), (x, y + 9), BLUE, 2.5, false);
    drawing.words((x, y + 26), 13, BLUE, Stand::Middle, "origin");
}

/// Where the rows and columns stand.
fn draw_lines_of_grid(drawing: &mut Drawing) {
    let offsets = ["+ 3/2 H", "+ 1/2 H", "− 1/2 H", "− 3/2 H"];
    let columns = ["− 3/2 W", "− 1/2 W", "+ 1/2 W", "+ 3/2 W"];
    for i in 0..4usize {
        let (x, y) = node_at(i as i32, 0);
        drawing.words((x - 22, y + 5), 13, INK, Stand::End, offsets[i]);
        let (x, y) = node_at(3, i as i32);
        drawing.words((x, y + 32), 13, INK, Stand::Middle, columns[i]);
    }
    let (left, top) = node_at(0, 0);
    let (right, bottom) = node_at(3, 3);
    drawing.words((12, top - 22), 13, GREY, Stand::Start, "north of origin");
    drawing.words((right, bottom + 52), 13, GREY, Stand::End, "east of origin");
    drawing.words((left + 150, top - 48), 14, INK, Stand::Middle, "north");
    drawing.line((left + 150, top - 24), (left + 150, top - 42), INK, 1.5, false);
    drawing.line((left + 150, top - 42), (left + 146, top - 35), INK, 1.5, false);
    drawing.line((left + 150, top - 42), (left + 154, top - 35), INK, 1.5, false);
    drawing.words((left, bottom + 88), 14, INK, Stand::Start, "H is the spacing north (DF194, DF204),");
    drawing.words((left, bottom + 108), 14, INK, Stand::Start, "W the spacing east (DF195, DF205), in steps.");
    drawing.words((left, bottom + 128), 14, INK, Stand::Start, "Inside means on or within the outer rectangle.");
}

/// The left edge, the upper edge and the size of the enlarged cell.
const CELL: (i32, i32, i32) = (520, 150, 220);

/// The enlarged cell with the position, the four parts and the weights.
fn draw_cell(drawing: &mut Drawing) {
    let (left, top, size) = CELL;
    let (right, bottom) = (left + size, top + size);
    let (px, py) = (left + 80, top + 90);
    let parts = [
        ((px, top), (right - px, py - top)),
        ((left, top), (px - left, py - top)),
        ((px, py), (right - px, bottom - py)),
        ((left, py), (px - left, bottom - py)),
    ];
    parts.iter().zip(PARTS).for_each(|((at, span), fill)| drawing.area(*at, *span, fill));
    for (from, to) in [
        ((left, top), (right, top)),
        ((right, top), (right, bottom)),
        ((right, bottom), (left, bottom)),
        ((left, bottom), (left, top)),
    ] {
        drawing.line(from, to, INK, 1.2, false);
    }
    drawing.line((px, top), (px, bottom), BLUE, 1.2, true);
    drawing.line((left, py), (right, py), BLUE, 1.2, true);
    drawing.disc((px, py), 5, BLUE, BLUE);
    drawing.words((left + 40, bottom - 8), 14, BLUE, Stand::Middle, "x");
    drawing.words((px + 72, bottom - 8), 14, BLUE, Stand::Middle, "W − x");
    drawing.words((left + 10, bottom - 60), 14, BLUE, Stand::Start, "y");
    drawing.words((left + 10, top + 50), 14, BLUE, Stand::Start, "H − y");
    draw_corners(drawing, left, top, right, bottom);
}

/// The four corner nodes of the enlarged cell, each in the colour of the part that is its weight.
fn draw_corners(drawing: &mut Drawing, left: i32, top: i32, right: i32, bottom: i32) {
    let corners = [((left, bottom), "9", 0), ((right, bottom), "10", 1), ((left, top), "5", 2), ((right, top), "6", 3)];
    for (place, node, part) in corners {
        drawing.disc(place, 14, PARTS[part], INK);
        drawing.words((place.0, place.1 + 5), 13, INK, Stand::Middle, node);
    }
}

/// The weights in words, with the colour of each part.
fn draw_weights(drawing: &mut Drawing) {
    let (left, top, size) = CELL;
    drawing.words((left - 20, top - 60), 15, INK, Stand::Start, "Cell IV, enlarged");
    drawing.words((left - 20, top - 40), 13, GREY, Stand::Start, "y steps north of its southern edge,");
    drawing.words((left - 20, top - 24), 13, GREY, Stand::Start, "x steps east of its western edge");
    let lines = [
        ("node 9, south-west:  (W − x) (H − y)", 0),
        ("node 10, south-east:  x (H − y)", 1),
        ("node 5, north-west:  (W − x) y", 2),
        ("node 6, north-east:  x y", 3),
    ];
    for (i, (words, part)) in lines.into_iter().enumerate() {
        let y = top + size + 46 + 24 * i as i32;
        drawing.disc((left - 12, y - 5), 8, PARTS[part], INK);
        drawing.words((left + 6, y), 14, INK, Stand::Start, words);
    }
    drawing.words((left - 20, top + size + 146), 13, GREY, Stand::Start, "each over W · H; a node's weight is");
    drawing.words((left - 20, top + size + 163), 13, GREY, Stand::Start, "the part of the cell in its colour");
}

/// The drawing of the grid.
fn grid() -> String {
    let mut drawing = Drawing::new(570);
    drawing.words((30, 36), 18, INK, Stand::Start, "Grid of messages 1023 and 1024");
    draw_grid(&mut drawing);
    draw_lines_of_grid(&mut drawing);
    draw_cell(&mut drawing);
    draw_weights(&mut drawing);
    drawing.file("Grid of messages 1023 and 1024")
}

/// Pixels for one count in the drawing of the rounding.
const COUNT: i32 = 140;

/// One panel of the rounding: counts from a first to a last around a middle, drawn at a height.
struct Panel {
    middle: f64,
    top: i32,
}

impl Panel {
    /// The drawn place of an exact mean.
    fn x(&self, mean: f64) -> i32 {
        WIDTH / 2 + ((mean - self.middle) * COUNT as f64).round() as i32
    }
}

/// Draws which exact means go to one whole count: the bar, and whether its ends belong to it.
fn draw_bar(drawing: &mut Drawing, panel: &Panel, count: i32) {
    let (low, high) = (panel.x(count as f64 - 0.5), panel.x(count as f64 + 0.5));
    let y = panel.top + 60 + if count % 2 == 0 { 0 } else { 22 };
    drawing.line((low, y), (high, y), BLUE, 5.0, false);
    drawing.disc((low, y), 6, if count > 0 { BLUE } else { "white" }, BLUE);
    drawing.disc((high, y), 6, if count < 0 { BLUE } else { "white" }, BLUE);
    drawing.words(((low + high) / 2, y - 8), 14, BLUE, Stand::Middle, &format!("gives {}", signed(count)));
}

/// A whole number with a proper minus sign.
pub(crate) fn signed(number: i32) -> String {
    number.to_string().replace('-', "−")
}

/// Draws one panel: the axis with its halves, and the bars of the given counts.
fn draw_panel(drawing: &mut Drawing, panel: &Panel, title: &str, counts: std::ops::RangeInclusive<i32>) {
    drawing.words((30, panel.top), 15, INK, Stand::Start, title);
    let axis = panel.top + 120;
    let first = *counts.start() as f64 - 0.5;
    let last = *counts.end() as f64 + 0.5;
    drawing.line((panel.x(first) - 30, axis), (panel.x(last) + 30, axis), INK, 1.5, false);
    for count in counts.clone() {
        draw_bar(drawing, panel, count);
        let x = panel.x(count as f64);
        drawing.line((x, axis - 8), (x, axis + 8), INK, 1.5, false);
        drawing.words((x, axis + 26), 14, INK, Stand::Middle, &signed(count));
    }
    for half in (2 * counts.start() - 1..=2 * counts.end() + 1).step_by(2) {
        let x = panel.x(half as f64 / 2.0);
        drawing.line((x, panel.top + 40), (x, axis + 5), GREY, 1.0, true);
        drawing.words((x, axis + 26), 12, GREY, Stand::Middle, &format!("{:.1}", half as f64 / 2.0).replace('-', "−"));
    }
}

/// Marks a worked case at its exact mean.
fn mark(drawing: &mut Drawing, panel: &Panel, x: i32, words: &[&str], stand: Stand) {
    let axis = panel.top + 120;
    drawing.disc((x, axis), 5, RED, RED);
    drawing.line((x, axis + 31), (x, axis + 40), RED, 1.2, false);
    for (i, line) in words.iter().enumerate() {
        drawing.words((x, axis + 54 + 18 * i as i32), 14, RED, stand, line);
    }
}

/// The drawing of the rounding.
fn rounding() -> String {
    let mut drawing = Drawing::new(740);
    drawing.words((30, 36), 18, INK, Stand::Start, "Rounding of the exact mean of the nodes: halves go away from zero");
    drawing.words((30, 60), 13, GREY, Stand::Start, "A full end belongs to its bar, an open end does not.");
    drawing.words((30, 78), 13, GREY, Stand::Start, "The mean of grid K, 469,200 counts, is added afterwards.");
    let scale = "P6 is not drawn to scale: it lies 1/360,000 of a count below the half.";
    drawing.words((30, 96), 13, GREY, Stand::Start, scale);
    let above = Panel { middle: 60.5, top: 130 };
    draw_panel(&mut drawing, &above, "Above zero", 59..=62);
    let at_half = above.x(60.5);
    mark(&mut drawing, &above, at_half + 1, &["P5: 60.5 gives 61,", "so 469,261"], Stand::Start);
    mark(&mut drawing, &above, at_half - 8, &["P6: one step less gives 60,", "so 469,260"], Stand::End);
    let zero = Panel { middle: 0.0, top: 360 };
    draw_panel(&mut drawing, &zero, "Around zero", -2..=2);
    let below = Panel { middle: -60.5, top: 550 };
    draw_panel(&mut drawing, &below, "Below zero", -62..=-59);
    let at_half = below.x(-60.5);
    mark(&mut drawing, &below, at_half, &["P7: −60.5 gives −61, so 469,139"], Stand::Middle);
    drawing.file("Rounding of the exact mean of the nodes")
}

/// The middle of the drawn earth and its radius.
const EARTH: (i32, i32, i32) = (190, 225, 100);

/// A place some pixels right of and below the middle of the drawn earth.
fn on_earth(right: i32, below: i32) -> (i32, i32) {
    (EARTH.0 + right, EARTH.1 + below)
}

/// The earth from above the north pole, with both ways from the origin to the rover.
fn draw_ways_round(drawing: &mut Drawing) {
    drawing.words((190, 78), 14, INK, Stand::Middle, "The earth from above the north pole,");
    drawing.words((190, 96), 14, GREY, Stand::Middle, "angles near 180° drawn larger");
    drawing.disc(on_earth(0, 0), EARTH.2, "#f4f7fa", INK);
    drawing.disc(on_earth(0, 0), 3, INK, INK);
    drawing.line(on_earth(0, 0), on_earth(0, 128), GREY, 1.2, true);
    drawing.words(on_earth(0, -108), 13, INK, Stand::Middle, "0°");
    drawing.words(on_earth(-108, 5), 13, INK, Stand::End, "90°");
    drawing.words(on_earth(108, 5), 13, INK, Stand::Start, "−90°");
    drawing.words(on_earth(0, 146), 13, INK, Stand::Middle, "180° and −180°");
    drawing.arc(on_earth(40, 69), on_earth(-40, 69), 80, true, GREY, true);
    drawing.line(on_earth(40, 69), on_earth(46, 57), GREY, 2.5, false);
    drawing.line(on_earth(40, 69), on_earth(53, 67), GREY, 2.5, false);
    drawing.words(on_earth(0, -38), 14, GREY, Stand::Middle, "as plain numbers");
    drawing.words(on_earth(0, -18), 14, GREY, Stand::Middle, "359.80° west");
    drawing.arc(on_earth(-50, 87), on_earth(50, 87), 100, false, BLUE, false);
    drawing.disc(on_earth(50, 87), 5, BLUE, BLUE);
    draw_cross(drawing, on_earth(-50, 87));
    drawing.words(on_earth(-60, 108), 13, BLUE, Stand::End, "origin 179.95°");
    drawing.words(on_earth(60, 108), 13, BLUE, Stand::Start, "rover −179.85°");
}

/// The sign of an origin.
fn draw_cross(drawing: &mut Drawing, (x, y): (i32, i32)) {
    drawing.line((x - 9, y), (x + 9, y), BLUE, 2.5, false);
    drawing.line((x, y - 9), (x, y + 9), BLUE, 2.5, false);
}

/// The left edge, the upper edge, and the spacings east and north of the grid drawn across 180 degrees.
const ACROSS: (i32, i32, i32, i32) = (440, 135, 96, 60);

/// The grid with its columns on both sides of 180 degrees, and the short way from the origin to the rover.
fn draw_grid_across(drawing: &mut Drawing) {
    let (left, top, wide, high) = ACROSS;
    let (right, bottom) = (left + 3 * wide, top + 3 * high);
    let meridian = left + wide + 3 * wide / 4;
    drawing.words(((left + right) / 2, 82), 14, INK, Stand::Middle, "The grid on the map, east to the right");
    drawing.area((meridian, top), (right - meridian, bottom - top), PARTS[2]);
    for i in 0..4 {
        drawing.line((left, top + i * high), (right, top + i * high), INK, 1.2, false);
        drawing.line((left + i * wide, top), (left + i * wide, bottom), INK, 1.2, false);
    }
    (0..16).for_each(|node| drawing.disc((left + node % 4 * wide, top + node / 4 * high), 5, "white", INK));
    for (i, longitude) in ["179.65°", "179.85°", "−179.95°", "−179.75°"].into_iter().enumerate() {
        drawing.words((left + i as i32 * wide, bottom + 26), 13, INK, Stand::Middle, longitude);
    }
    drawing.line((meridian, top - 16), (meridian, bottom + 10), GREY, 1.5, true);
    drawing.words((meridian, top - 22), 13, INK, Stand::Middle, "180° and −180°");
    let (origin, rover, middle) = (left + 3 * wide / 2, left + 5 * wide / 2, top + 3 * high / 2);
    drawing.line((origin, middle), (rover, middle), BLUE, 2.5, false);
    drawing.line((rover - 6, middle), (rover - 16, middle - 6), BLUE, 2.5, false);
    drawing.line((rover - 6, middle), (rover - 16, middle + 6), BLUE, 2.5, false);
    drawing.disc((rover, middle), 5, BLUE, BLUE);
    draw_cross(drawing, (origin, middle));
    drawing.words((origin, middle + 24), 13, BLUE, Stand::Middle, "origin");
    drawing.words((rover, middle + 24), 13, BLUE, Stand::Middle, "rover");
    drawing.words((left + 2 * wide + 6, middle - 12), 13, BLUE, Stand::Start, "0.20° east");
    drawing.area((left, bottom + 46), (16, 16), PARTS[2]);
    drawing.words((left + 24, bottom + 59), 13, GREY, Stand::Start, "as plain numbers this part would be OUTSIDE");
}

/// The drawing of a grid across 180 degrees.
fn antimeridian() -> String {
    let mut drawing = Drawing::new(540);
    let title = "Grid across 180 degrees: the difference of longitudes is taken the short way round";
    drawing.words((30, 36), 18, INK, Stand::Start, title);
    draw_ways_round(&mut drawing);
    draw_grid_across(&mut drawing);
    let lines = [
        ("Rover minus origin as plain numbers:", "−179.85° − 179.95° = −359.80°"),
        ("Brought by one whole turn:", "−359.80° + 360° = 0.20°"),
        ("The same in steps of 0.0001″:", "−12,952,800,000 + 12,960,000,000 = 7,200,000"),
        ("Every difference is brought to:", "at least −6,480,000,000 and less than 6,480,000,000"),
    ];
    for (i, (words, numbers)) in lines.into_iter().enumerate() {
        drawing.words((60, 440 + 24 * i as i32), 14, INK, Stand::Start, words);
        drawing.words((330, 440 + 24 * i as i32), 14, BLUE, Stand::Start, numbers);
    }
    drawing.file("Grid across 180 degrees")
}

/// Writes the drawings into a folder.
pub fn write(dir: &Path) -> std::io::Result<()> {
    std::fs::create_dir_all(dir)?;
    std::fs::write(dir.join("grid.svg"), grid())?;
    std::fs::write(dir.join("rounding.svg"), rounding())?;
    std::fs::write(dir.join("antimeridian.svg"), antimeridian())?;
    std::fs::write(dir.join("rows.svg"), crate::figure_rows::rows())
}
