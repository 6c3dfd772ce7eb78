//! The drawing of a map: places, line, nodes, sides and legend.

use crate::decimal::decimal_text;
use crate::grid::Units;
use crate::library::{shifts_at, Component, Header, Position, Refusal, MOST_FIELDS, NODES};
use crate::map_colours::Bands;
use crate::map_counts::Shown;
use crate::map_paths;
use crate::map_plan::SIDE;
use crate::value::sexagesimal;
use std::fmt::Write;

/// The width of a place in pixels.
const PLACE_WIDTH: f64 = 2.0;
/// The room around the places: left, top, right, and below for sides and legend.
const LEFT: f64 = 130.0;
const TOP: f64 = 46.0;
const RIGHT: f64 = 30.0;
const BELOW: f64 = 158.0;
/// The height of the legend's colours.
const BAR: f64 = 18.0;
/// The radius of a node's circle.
const RADIUS: f64 = 10.0;

const STYLE: &str =
    "text{font:13px sans-serif;fill:#000}.title{font-size:16px;font-weight:bold}.value{font-weight:bold}\
.middle{text-anchor:middle}.end{text-anchor:end}.box{fill:#fff;fill-opacity:.88}.bands{shape-rendering:crispEdges}\
.ring{fill:#fff;stroke:#000;stroke-width:1.5}.cross{stroke:#000;stroke-width:2.5}.under{stroke:#fff;stroke-width:6}\
.tick{stroke:#000;stroke-width:1.5}.frame{fill:none;stroke:#000}.cell{stroke:#fff;stroke-width:1;stroke-dasharray:2 4}";

/// A drawing that grows.
struct Drawing<'a> {
    shown: &'a Shown<'a>,
    counts: &'a [Option<i64>],
    bands: Option<Bands>,
    svg: String,
    place_height: f64,
}

/// The mean of the component in counts.
fn mean(shown: &Shown, row: &[Option<i64>; MOST_FIELDS]) -> Option<i64> {
    row[8 + usize::from(shown.component.number())].map(|raw| 100 * raw)
}

/// Whether the component has a value at a node.
fn is_present(shown: &Shown, row: &[Option<i64>; MOST_FIELDS], node: usize) -> bool {
    row[11 + 3 * node + usize::from(shown.component.number())].is_some()
}

/// The picture of a grid message.
pub fn picture(shown: &Shown, header: Header, row: &[Option<i64>; MOST_FIELDS], counts: &[Option<i64>]) -> String {
    let place_height = PLACE_WIDTH * shown.plan.proportion();
    let nodes = node_answers(shown).map(Result::ok);
    let mut drawing = Drawing { shown, counts, bands: Bands::of(counts, &nodes), svg: String::new(), place_height };
    drawing.open(header);
    drawing.places();
    let marked = drawing.marked_level(mean(shown, row));
    drawing.line(marked);
    drawing.cells();
    for (node, answer) in node_answers(shown).into_iter().enumerate() {
        drawing.node(node, answer, is_present(shown, row, node));
    }
    drawing.sides();
    drawing.legend(marked);
    drawing.svg += "</svg>\n";
    drawing.svg
}

/// The count at each node, or why there is none.
fn node_answers(shown: &Shown) -> [Result<i64, Refusal>; NODES] {
    let at = |position| shifts_at(shown.message, shown.plan.within_turn(position)).of(shown.component);
    shown.plan.nodes().map(|node| at(node).map(|shift| shift.count))
}

/// The level that is marked by a line, and its word.
type Marked = Option<(i64, &'static str)>;

impl Drawing<'_> {
    /// Appends a line.
    fn push(&mut self, text: std::fmt::Arguments) {
        self.svg.write_fmt(text).expect("a string takes all that is written");
        self.svg.push('\n');
    }

    /// The width and the height of all places in pixels.
    fn size(&self) -> (f64, f64) {
        (SIDE as f64 * PLACE_WIDTH, SIDE as f64 * self.place_height)
    }

    /// The pixel of a position.
    fn pixel(&self, position: Position) -> (f64, f64) {
        let first = self.shown.plan.first_of_row(0);
        let [north, east] = self.shown.plan.place_size();
        let columns = (position.east - first.east) as f64 / east as f64 + 0.5;
        let rows = (first.north - position.north) as f64 / north as f64 + 0.5;
        (LEFT + columns * PLACE_WIDTH, TOP + rows * self.place_height)
    }

    /// A count with its unit's decimals.
    fn count_text(&self, count: i64) -> String {
        let (decimals, _) = self.shown.plan.units.of_count(self.shown.component);
        decimal_text(count.into(), decimals)
    }

    /// The picture's head: size, words, style and hatching.
    fn open(&mut self, header: Header) {
        let (width, height) = self.size();
        let (width, height) = (LEFT + width + RIGHT, TOP + height + BELOW);
        let (_, unit) = self.shown.plan.units.of_count(self.shown.component);
        let unit = if unit == "m" { "metres" } else { unit };
        let what = match self.shown.component {
            Component::Height => "shift of the height",
            Component::NorthSouth => "shift north-south",
            Component::EastWest => "shift east-west",
        };
        let title = format!("Message {}, SIN {}: {what} in {unit}", header.number, header.sin);
        self.push(format_args!(
            "<svg xmlns=\"http://www.w3.org/2000/svg\" width=\"{width:.0}\" height=\"{height:.0}\" \
             viewBox=\"0 0 {width:.0} {height:.0}\" role=\"img\">"
        ));
        self.push(format_args!("<title>{title}</title>"));
        self.push(format_args!("<style>{STYLE}</style>"));
        self.push(format_args!(
            "<pattern id=\"hatch\" width=\"9\" height=\"9\" patternUnits=\"userSpaceOnUse\" patternTransform=\"rotate(45)\">\
             <rect width=\"9\" height=\"9\" fill=\"#fff\"/><rect width=\"1.6\" height=\"9\" fill=\"#555\"/></pattern>"
        ));
        self.push(format_args!("<rect width=\"{width:.0}\" height=\"{height:.0}\" fill=\"#fff\"/>"));
        self.push(format_args!("<text class=\"title\" x=\"{LEFT}\" y=\"28\">{title}</text>"));
    }

    /// The hatched ground, and the answered places upon it, a path for each band.
    fn places(&mut self) {
        let (width, height) = self.size();
        self.push(format_args!(
            "<rect x=\"{LEFT}\" y=\"{TOP}\" width=\"{width:.1}\" height=\"{height:.1}\" fill=\"url(#hatch)\"/>"
        ));
        let first = self.shown.plan.first_of_row(0);
        let [step_north, step_east] = self.shown.plan.place_size();
        let (component, place_height) = (self.shown.component.number(), self.place_height);
        self.push(format_args!(
            "<g class=\"bands\" data-component=\"{component}\" data-north=\"{}\" data-east=\"{}\" data-step-north=\"{step_north}\" \
             data-step-east=\"{step_east}\" data-side=\"{SIDE}\" transform=\"translate({LEFT} {TOP}) scale({PLACE_WIDTH} {place_height:.4})\">",
            first.north, first.east
        ));
        if let Some(bands) = self.bands {
            for (band, path) in map_paths::bands(self.counts, bands) {
                let colour = bands.colour(band);
                self.push(format_args!("<path data-band=\"{band}\" fill=\"{colour}\" d=\"{path}\"/>"));
            }
        }
    }

    /// The level that is marked: zero where it is among the counts, else the mean.
    fn marked_level(&self, mean: Option<i64>) -> Marked {
        let bands = self.bands?;
        let inside = |level: &i64| (bands.smallest..=bands.greatest).contains(level);
        let mean = mean.filter(inside).map(|mean| (mean, "mean"));
        Some(0).filter(inside).map(|zero| (zero, "zero")).or(mean)
    }

    /// The line of the marked level; it ends the group of places.
    fn line(&mut self, marked: Marked) {
        if let Some((level, word)) = marked {
            let path = map_paths::level(self.counts, level);
            self.push(format_args!(
                "<path data-level=\"{level}\" data-word=\"{word}\" fill=\"#000\" stroke=\"#fff\" stroke-width=\".7\" \
                 paint-order=\"stroke\" d=\"{path}\"/>"
            ));
        }
        self.push(format_args!("</g>"));
    }

    /// Lines between the nodes.
    fn cells(&mut self) {
        let nodes = self.shown.plan.nodes().map(|node| self.pixel(node));
        for line in 0..4 {
            for (from, to) in [(4 * line, 4 * line + 3), (line, line + 12)] {
                let ((x1, y1), (x2, y2)) = (nodes[from], nodes[to]);
                self.push(format_args!(
                    "<line class=\"cell\" x1=\"{x1:.1}\" y1=\"{y1:.1}\" x2=\"{x2:.1}\" y2=\"{y2:.1}\"/>"
                ));
            }
        }
    }

    /// A node with its number and its value, crossed where it has none.
    fn node(&mut self, index: usize, answer: Result<i64, Refusal>, present: bool) {
        let (x, y) = self.pixel(self.shown.plan.node(index));
        let value = match answer {
            _ if !present => "none".to_string(),
            Ok(count) => self.count_text(count),
            Err(refusal) => refusal.name().to_string(),
        };
        let number = index + 1;
        self.push(format_args!(
            "<g data-node=\"{number}\" data-value=\"{value}\" transform=\"translate({x:.1} {y:.1})\">"
        ));
        self.push(format_args!("<circle class=\"ring\" r=\"{RADIUS}\"/>"));
        if !present {
            for class in ["under", "cross"] {
                self.push(format_args!("<path class=\"{class}\" d=\"M-12-12L12 12M-12 12L12-12\"/>"));
            }
        } else {
            self.push(format_args!("<text class=\"middle\" y=\"4.5\">{number}</text>"));
        }
        let label = if present { value } else { format!("{number}: none") };
        let width = 8.0 * label.chars().count() as f64 + 8.0;
        self.push(format_args!(
            "<rect class=\"box\" x=\"{:.1}\" y=\"13\" width=\"{width:.1}\" height=\"17\" rx=\"3\"/>",
            -width / 2.0
        ));
        self.push(format_args!("<text class=\"value middle\" y=\"26\">{label}</text></g>"));
    }

    /// The frame, and the positions of the nodes' rows and columns.
    fn sides(&mut self) {
        let (width, height) = self.size();
        self.push(format_args!(
            "<rect class=\"frame\" x=\"{LEFT}\" y=\"{TOP}\" width=\"{width:.1}\" height=\"{height:.1}\"/>"
        ));
        let plan = self.shown.plan;
        for line in 0..4 {
            let (row, column) = (plan.node(4 * line), plan.node(line));
            let (x, y) = (self.pixel(column).0, self.pixel(row).1);
            let north = side_text(plan.units, row.north, ["N", "S"]);
            let east = side_text(plan.units, plan.within_turn(column).east, ["E", "W"]);
            self.push(format_args!("<text class=\"end\" x=\"{}\" y=\"{:.1}\">{north}</text>", LEFT - 8.0, y + 4.5));
            self.push(format_args!(
                "<text class=\"middle\" x=\"{x:.1}\" y=\"{:.1}\">{east}</text>",
                TOP + height + 18.0
            ));
        }
    }

    /// The bands' colours with the smallest and the greatest shift, the marked level, and what hatching and crosses mean.
    fn legend(&mut self, marked: Marked) {
        let (width, height) = self.size();
        let top = TOP + height + 36.0;
        if let Some(bands) = self.bands {
            self.bar(bands, top, width);
            self.tick(bands, bands.smallest, "smallest", top, width, 0);
            self.tick(bands, bands.greatest, "greatest", top, width, 0);
            if let Some((level, word)) = marked {
                self.tick(bands, level, word, top, width, 1);
            }
        }
        let (x, y) = (LEFT, TOP + height + 128.0);
        let line = match marked {
            Some((_, word)) => format!("black line: {word}"),
            None => "neither zero nor the mean is on the map".to_string(),
        };
        self.push(format_args!(
            "<rect class=\"frame\" x=\"{x}\" y=\"{:.1}\" width=\"26\" height=\"16\" style=\"fill:url(#hatch)\"/>",
            y - 12.0
        ));
        self.push(format_args!(
            "<text x=\"{}\" y=\"{y:.1}\">hatched: no answer; crossed: a node that is not available; {line}</text>",
            x + 34.0
        ));
    }

    /// The colours of the bands.
    fn bar(&mut self, bands: Bands, top: f64, width: f64) {
        let one = width / bands.number() as f64;
        for band in 0..bands.number() {
            let (x, colour) = (LEFT + band as f64 * one, bands.colour(band));
            self.push(format_args!(
                "<rect class=\"bands\" x=\"{x:.1}\" y=\"{top:.1}\" width=\"{one:.1}\" height=\"{BAR}\" fill=\"{colour}\"/>"
            ));
        }
        self.push(format_args!(
            "<rect class=\"frame\" x=\"{LEFT}\" y=\"{top:.1}\" width=\"{width:.1}\" height=\"{BAR}\"/>"
        ));
    }

    /// A mark below the colours, in the first or the second line of words.
    fn tick(&mut self, bands: Bands, count: i64, word: &str, top: f64, width: f64, line: usize) {
        let part = (count - bands.smallest) as f64 / (bands.greatest - bands.smallest).max(1) as f64;
        let x = LEFT + part * width;
        let bottom = top + BAR + 5.0 + 20.0 * line as f64;
        let class = match part {
            p if p < 0.12 => "",
            p if p > 0.88 => "end",
            _ => "middle",
        };
        let text = self.count_text(count);
        self.push(format_args!(
            "<line class=\"tick\" x1=\"{x:.1}\" y1=\"{top:.1}\" x2=\"{x:.1}\" y2=\"{bottom:.1}\"/>"
        ));
        self.push(format_args!("<text class=\"{class}\" x=\"{x:.1}\" y=\"{:.1}\">{text} {word}</text>", bottom + 14.0));
    }
}

/// A latitude or longitude in degrees, minutes and seconds, or metres, without zeros at the end.
fn side_text(units: Units, steps: i64, [positive, negative]: [&str; 2]) -> String {
    let shortened = |text: String| text.trim_end_matches('0').trim_end_matches('.').to_string();
    match units {
        Units::Plane => format!("{} m", shortened(decimal_text(steps.into(), 3))),
        Units::Ellipsoidal => {
            let angle = shortened(sexagesimal(steps.abs().into(), 4).trim_end_matches('″').to_string());
            format!("{angle}″ {}", if steps < 0 { negative } else { positive })
        }
    }
}
