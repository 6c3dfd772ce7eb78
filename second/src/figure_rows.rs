//! A drawing of one grid's rows of shifts: the counts of each place on the map, and one row's counts as steps.

use crate::figures::{signed, Drawing, Stand, BLUE, GREY, INK, RED};
use crate::gridsamples::Grid;
use crate::rows::{shift_row, Ask};

/// The left edge and the upper edge of the map.
const MAP: (i32, i32) = (80, 112);
/// Pixels from one place of a row to the next, and from one row to the next.
const PLACE: (i32, i32) = (6, 10);
/// The places of a row and the rows of the map, from edge to edge of the three cells; no place stands on an inner column.
const PLACES: (i32, i32) = (98, 31);
/// The row of the map, from the south, that is drawn below it.
const CHOSEN: i32 = 13;
/// The height of count 0 in the drawing of one row, and the pixels of one count.
const STEPS: (i32, i32) = (600, 8);
/// The data's nodes of component 0 in the order of the message, 3 counts each.
const NODES: [i64; 16] = [4, 1, -3, -5, 5, 2, 0, -4, 1, 4, 3, -1, -4, -1, 5, 2];
/// The greatest count of a place without sign.
const MOST: i64 = 15;

/// The grid that is drawn.
fn grid() -> Grid {
    Grid::of(1023, [0, 0], [96, 96], [0, 0, 0], |component, node| if component == 0 { NODES[node - 1] } else { 0 })
}

/// The position of the first place of a row of the map, and the steps to the next place.
fn asked(row: i32) -> Ask {
    let grid = grid();
    let [high, wide] = grid.spacing().map(|spacing| 3 * spacing);
    let [south, west] = grid.at_node(13);
    let start = [south + high * i64::from(row) / i64::from(PLACES.1 - 1), west];
    Ask { component: 0, start, step: wide / i64::from(PLACES.0 - 1), count: PLACES.0 as usize }
}

/// The counts of a row of the map.
fn counts(row: i32) -> Vec<i64> {
    let ask = asked(row);
    shift_row(&grid().bytes(), &ask, ask.count).expect("a row within the grid")
}

/// The drawn place of a column of places in a row of the map.
fn at(place: i32, row: i32) -> (i32, i32) {
    (MAP.0 + place * PLACE.0, MAP.1 + (PLACES.1 - 1 - row) * PLACE.1)
}

/// The colour of a count: white for 0, blue below it and orange above.
fn colour(count: i64) -> String {
    let part = count.unsigned_abs() as f64 / MOST as f64;
    let full = if count < 0 { [31.0, 95.0, 168.0] } else { [214.0, 120.0, 20.0] };
    let [red, green, blue] = full.map(|end: f64| (255.0 + (end - 255.0) * part).round() as u8);
    format!("#{red:02x}{green:02x}{blue:02x}")
}

/// Places of a row that follow one another with the same count: the first, the place behind the last, and the count.
fn runs(counts: &[i64]) -> Vec<(usize, usize, i64)> {
    let mut runs: Vec<(usize, usize, i64)> = Vec::new();
    for (place, &count) in counts.iter().enumerate() {
        match runs.last_mut() {
            Some(run) if run.2 == count => run.1 = place + 1,
            _ => runs.push((place, place + 1, count)),
        }
    }
    runs
}

/// The rows of the map, places of the same count in one colour.
fn draw_rows(drawing: &mut Drawing) {
    for row in 0..PLACES.1 {
        for (first, end, count) in runs(&counts(row)) {
            let (x, y) = at(first as i32, row);
            let span = ((end - first) as i32 * PLACE.0, PLACE.1 - 1);
            drawing.area((x - PLACE.0 / 2, y - PLACE.1 / 2), span, &colour(count));
        }
    }
}

/// The drawn place of the node in a row from the south and a column from the west.
fn node_at(row: i32, column: i32) -> (i32, i32) {
    let (right, up) = ((PLACES.0 - 1) * PLACE.0, (PLACES.1 - 1) * PLACE.1);
    (MAP.0 + column * right / 3, MAP.1 + up - row * up / 3)
}

/// The lines of the cells and the nodes with their counts.
fn draw_cells(drawing: &mut Drawing) {
    for index in 0..4 {
        drawing.line(node_at(0, index), node_at(3, index), INK, 1.0, false);
        drawing.line(node_at(index, 0), node_at(index, 3), INK, 1.0, false);
    }
    for (node, value) in (0..16).zip(NODES) {
        let (x, y) = node_at(3 - node / 4, node % 4);
        drawing.disc((x, y), 14, "white", INK);
        drawing.words((x, y + 4), 11, INK, Stand::Middle, &signed(3 * value as i32));
    }
}

/// The colours of the counts.
fn draw_scale(drawing: &mut Drawing) {
    let (left, top) = (706, MAP.1 - 5);
    drawing.words((left, top - 8), 12, GREY, Stand::Start, "count");
    for count in -MOST..=MOST {
        let y = top + (MOST - count) as i32 * 10;
        drawing.area((left, y), (20, 9), &colour(count));
        if count % 5 == 0 {
            drawing.words((left + 28, y + 9), 12, INK, Stand::Start, &signed(count as i32));
        }
    }
}

/// The height at which a count is drawn below the map.
fn height(count: f64) -> i32 {
    STEPS.0 - (count * STEPS.1 as f64).round() as i32
}

/// The row below the map: its counts as steps, the exact mean, and where a cell begins.
fn draw_steps(drawing: &mut Drawing) {
    let (left, right) = (node_at(0, 0).0, node_at(0, 3).0);
    for count in (-5..=10).step_by(5) {
        drawing.line((left, height(count as f64)), (right, height(count as f64)), "#dddddd", 1.0, false);
        drawing.words((left - 22, height(count as f64) + 4), 12, INK, Stand::End, &signed(count));
    }
    for column in 0..4 {
        let x = node_at(0, column).0;
        drawing.line((x, height(13.5)), (x, height(-8.0)), INK, 1.0, false);
        if column > 0 {
            let [from, to] = [column - 1, column].map(|end| (node_at(0, end).0, height(exact_at_column(end))));
            drawing.line(from, to, GREY, 1.0, false);
        }
    }
    let mut cell = None;
    for (place, count) in counts(CHOSEN).into_iter().enumerate() {
        let enters = cell.replace(cell_of(place)) != Some(cell_of(place));
        let (radius, fill) = if enters { (5, RED) } else { (2, BLUE) };
        drawing.disc((at(place as i32, 0).0, height(count as f64)), radius, fill, fill);
    }
}

/// The cell from the west in which a place of a row stands.
fn cell_of(place: usize) -> i64 {
    place as i64 * asked(CHOSEN).step / grid().spacing()[1]
}

/// The exact mean of the chosen row at a column of nodes, which lies between the nodes south and north of it.
fn exact_at_column(column: i32) -> f64 {
    let cells = 3.0 * f64::from(CHOSEN) / f64::from(PLACES.1 - 1);
    let (south, part) = (cells.floor() as usize, cells.fract());
    let node = |from_south: usize| 3.0 * NODES[(3 - from_south) * 4 + column as usize] as f64;
    node(south) * (1.0 - part) + node(south + 1) * part
}

/// The words beside the map and below it.
fn draw_words(drawing: &mut Drawing) {
    drawing.words((30, 36), 18, INK, Stand::Start, "Rows of shifts over one grid");
    let lines = [
        "Each row has 98 places at equal steps east. A place is drawn in the colour of its count.",
        "The nodes carry their own counts; a change of colour is a step of one count.",
    ];
    for (i, line) in lines.into_iter().enumerate() {
        drawing.words((30, 58 + 18 * i as i32), 13, GREY, Stand::Start, line);
    }
    let (x, y) = at(0, CHOSEN);
    drawing.line((x - 36, y), (x - 8, y), RED, 2.0, false);
    drawing.line((x - 8, y), (x - 16, y - 5), RED, 2.0, false);
    drawing.line((x - 8, y), (x - 16, y + 5), RED, 2.0, false);
    let (right, y) = at(PLACES.0 - 1, 0);
    drawing.words((right, y + 34), 13, GREY, Stand::End, "east");
    drawing.words((MAP.0, height(13.5) - 14), 14, INK, Stand::Start, "The row at the arrow: its counts as steps");
    let bottom = height(-8.0);
    drawing.disc((MAP.0 + 6, bottom + 26), 5, RED, RED);
    let begins = "the row begins or enters a new cell: the sum is divided";
    drawing.words((MAP.0 + 20, bottom + 31), 13, INK, Stand::Start, begins);
    drawing.disc((MAP.0 + 6, bottom + 48), 2, BLUE, BLUE);
    let goes_on = "every other place: additions and comparisons, from the count before";
    drawing.words((MAP.0 + 20, bottom + 53), 13, INK, Stand::Start, goes_on);
    drawing.line((MAP.0, bottom + 70), (MAP.0 + 12, bottom + 70), GREY, 1.0, false);
    let exact = "the exact mean, of which each count is the nearest whole number, halves away from zero";
    drawing.words((MAP.0 + 20, bottom + 75), 13, INK, Stand::Start, exact);
}

/// The drawing of rows.
pub(crate) fn rows() -> String {
    let mut drawing = Drawing::new(770);
    draw_rows(&mut drawing);
    draw_cells(&mut drawing);
    draw_scale(&mut drawing);
    draw_steps(&mut drawing);
    draw_words(&mut drawing);
    drawing.file("Rows of shifts over one grid")
}
