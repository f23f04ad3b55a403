//! The chart of a trial as SVG: shares in percent over the rate. It has to be read in print without colours too: each share has a mark of
//! its own, and the two readers differ in line and filling.
use super::scale::{Across, Percent};
use super::tally::Tally;
use super::{Kind, Plan, Row};

const WIDTH: f64 = 910.0;
const HEIGHT: f64 = 520.0;
/// The area that the lines are drawn in.
const LEFT: f64 = 96.0;
const RIGHT: f64 = 632.0;
const TOP: f64 = 70.0;
const BOTTOM: f64 = 400.0;
/// Below it a band for shares of nothing at all, which have no place on a scale of powers of ten: a lane for each share.
const ZERO_TOP: f64 = 408.0;
const ZERO_BOTTOM: f64 = 456.0;

/// A share that is drawn: its words, its colour (of Okabe and Ito's, which the colour-blind can tell apart), its mark and its numbers.
struct Series {
    words: &'static str,
    colour: &'static str,
    mark: Mark,
    share: fn(&Tally) -> Option<f64>,
}

#[derive(Debug, Clone, Copy, PartialEq, Eq)]
enum Mark {
    Circle,
    Square,
    Triangle,
}

const SERIES: [Series; 3] = [
    Series { words: "utterances refused", colour: "#D55E00", mark: Mark::Circle, share: Tally::refused_share },
    Series { words: "frames replaced, and named", colour: "#0072B2", mark: Mark::Square, share: Tally::replaced_share },
    Series { words: "frames wrong, not named", colour: "#000000", mark: Mark::Triangle, share: Tally::unnamed_share },
];

/// How the lines of a reader look. Its marks are small and filled, or large and hollow, so that both are seen where they meet.
#[derive(Debug, Clone, Copy, PartialEq)]
struct Look {
    words: &'static str,
    dashes: &'static str,
    size: f64,
    is_filled: bool,
}

const OCTETS: Look = Look { words: "read as octets", dashes: "", size: 3.2, is_filled: true };
const BITS: Look = Look { words: "hunted in bits", dashes: " stroke-dasharray=\"6 4\"", size: 6.2, is_filled: false };

/// The chart of these rows.
pub fn chart(plan: &Plan, rows: &[Row]) -> String {
    let across = match plan.kind {
        Kind::Bounded => Across::even(rows.iter().map(|row| row.rate)),
        Kind::Ber { .. } => Across::powers(rows.iter().map(|row| row.rate)),
    };
    let percent = Percent::down_to(all_shares(rows));
    let mut rows: Vec<&Row> = rows.iter().collect();
    rows.sort_by(|one, other| one.rate.total_cmp(&other.rate));
    let mut svg = opening(plan);
    svg += &grid(&across, &percent);
    for (lane, series) in SERIES.iter().enumerate() {
        let place =
            |row: &Row, tally: &Tally| Some((along(across.part(row.rate)?), down(&percent, (series.share)(tally)?, lane)));
        svg += &line(series, OCTETS, rows.iter().map(|row| place(row, &row.octets)));
        svg += &line(series, BITS, rows.iter().map(|row| place(row, &row.bits)));
    }
    let is_left_out = rows.iter().any(|row| across.part(row.rate).is_none());
    svg + &legend(is_left_out) + "</svg>\n"
}

fn all_shares(rows: &[Row]) -> impl Iterator<Item = f64> + '_ {
    let tallies = rows.iter().flat_map(|row| [&row.octets, &row.bits]);
    tallies.flat_map(|tally| SERIES.iter().filter_map(|series| (series.share)(tally)))
}

fn along(part: f64) -> f64 {
    LEFT + part * (RIGHT - LEFT)
}

/// The height of a share; of none at all, that of the lane in the band below.
fn down(percent: &Percent, share: f64, lane: usize) -> f64 {
    match percent.part(share) {
        Some(part) => BOTTOM - part * (BOTTOM - TOP),
        None => ZERO_TOP + (lane as f64 + 0.5) * (ZERO_BOTTOM - ZERO_TOP) / SERIES.len() as f64,
    }
}

fn opening(plan: &Plan) -> String {
    let fonts = "font-family=\"Helvetica, Arial, 'Liberation Sans', 'DejaVu Sans', sans-serif\" font-size=\"13\"";
    let head = format!(
        "<svg xmlns=\"http://www.w3.org/2000/svg\" width=\"{WIDTH}\" height=\"{HEIGHT}\" viewBox=\"0 0 {WIDTH} {HEIGHT}\" {fonts}>\n\
         <title>dsr trial: {}</title>\n\
         <rect width=\"{WIDTH}\" height=\"{HEIGHT}\" fill=\"#ffffff\"/>\n",
        plan.damage_words()
    );
    let title = text(
        LEFT,
        28.0,
        "start",
        " font-size=\"16\" font-weight=\"bold\"",
        &format!("What comes through: {}", plan.damage_words()),
    );
    head + &title + &text(LEFT, 48.0, "start", " fill=\"#444444\"", &plan.size())
}

fn text(x: f64, y: f64, anchor: &str, more: &str, words: &str) -> String {
    format!("<text x=\"{x:.1}\" y=\"{y:.1}\" text-anchor=\"{anchor}\"{more}>{words}</text>\n")
}

fn stroke(x1: f64, y1: f64, x2: f64, y2: f64, colour: &str) -> String {
    format!("<path d=\"M{x1:.1} {y1:.1}L{x2:.1} {y2:.1}\" stroke=\"{colour}\"/>\n")
}

/// The scales, their lines and their words.
fn grid(across: &Across, percent: &Percent) -> String {
    let (light, dark) = ("#dddddd", "#444444");
    let band = ZERO_BOTTOM - ZERO_TOP;
    let mut svg = format!(
        "<rect x=\"{LEFT:.1}\" y=\"{ZERO_TOP:.1}\" width=\"{:.1}\" height=\"{band:.1}\" fill=\"#f0f0f0\"/>\n",
        RIGHT - LEFT
    );
    for (part, words) in across.ticks() {
        svg += &stroke(along(part), TOP, along(part), BOTTOM, light);
        svg += &stroke(along(part), ZERO_BOTTOM, along(part), ZERO_BOTTOM + 5.0, dark);
        svg += &text(along(part), ZERO_BOTTOM + 20.0, "middle", "", &words);
    }
    for (part, words) in percent.ticks() {
        let y = BOTTOM - part * (BOTTOM - TOP);
        svg += &stroke(LEFT, y, RIGHT, y, light);
        svg += &text(LEFT - 8.0, y + 4.5, "end", "", &words);
    }
    svg += &text(LEFT - 8.0, (ZERO_TOP + ZERO_BOTTOM) / 2.0 + 4.5, "end", "", "0 %");
    svg += &stroke(LEFT, TOP, LEFT, BOTTOM, dark);
    svg += &stroke(LEFT, ZERO_TOP, LEFT, ZERO_BOTTOM, dark);
    svg += &stroke(LEFT, ZERO_BOTTOM, RIGHT, ZERO_BOTTOM, dark);
    svg += &text(along(0.5), ZERO_BOTTOM + 44.0, "middle", "", across.words());
    let middle = (TOP + BOTTOM) / 2.0;
    svg + &text(20.0, middle, "middle", &format!(" transform=\"rotate(-90 20.0 {middle:.1})\""), "share (powers of ten)")
}

/// A reader's line of a series. Where there is no share, for nothing was read, there is no point and the line is broken.
fn line(series: &Series, look: Look, points: impl Iterator<Item = Option<(f64, f64)>>) -> String {
    let (mut path, mut marks, mut is_broken) = (String::new(), String::new(), true);
    for point in points {
        let Some((x, y)) = point else {
            is_broken = true;
            continue;
        };
        path += &format!("{}{x:.1} {y:.1}", if is_broken { "M" } else { "L" });
        marks += &mark(series, look, x, y);
        is_broken = false;
    }
    path_of(series, look, &path) + &marks
}

fn path_of(series: &Series, look: Look, path: &str) -> String {
    if path.is_empty() {
        return String::new();
    }
    format!("<path d=\"{path}\" fill=\"none\" stroke=\"{}\" stroke-width=\"1.6\"{}/>\n", series.colour, look.dashes)
}

fn mark(series: &Series, look: Look, x: f64, y: f64) -> String {
    let (size, colour) = (look.size, series.colour);
    let filling = if look.is_filled { colour } else { "none" };
    let paint = format!("fill=\"{filling}\" stroke=\"{colour}\" stroke-width=\"1.6\"");
    match series.mark {
        Mark::Circle => format!("<circle cx=\"{x:.1}\" cy=\"{y:.1}\" r=\"{size:.1}\" {paint}/>\n"),
        Mark::Square => {
            let (left, top, side) = (x - 0.9 * size, y - 0.9 * size, 1.8 * size);
            format!("<rect x=\"{left:.1}\" y=\"{top:.1}\" width=\"{side:.1}\" height=\"{side:.1}\" {paint}/>\n")
        }
        Mark::Triangle => {
            let (top, side, foot) = (y - 1.25 * size, 1.15 * size, y + 0.8 * size);
            format!("<path d=\"M{x:.1} {top:.1}L{:.1} {foot:.1}L{:.1} {foot:.1}Z\" {paint}/>\n", x + side, x - side)
        }
    }
}

/// What the lines are, to their right.
fn legend(is_left_out: bool) -> String {
    let x = RIGHT + 28.0;
    let mut svg = String::new();
    for (number, series) in SERIES.iter().enumerate() {
        let y = TOP + 10.0 + 84.0 * number as f64;
        svg += &text(x, y + 4.5, "start", " font-weight=\"bold\"", series.words);
        for (line_number, look) in [OCTETS, BITS].into_iter().enumerate() {
            let y = y + 24.0 * (line_number + 1) as f64;
            svg += &path_of(series, look, &format!("M{x:.1} {y:.1}L{:.1} {y:.1}", x + 48.0));
            svg += &mark(series, look, x + 24.0, y);
            svg += &text(x + 58.0, y + 4.5, "start", "", look.words);
        }
    }
    let left_out = if is_left_out { "The row of rate 0 has no place here." } else { "" };
    let remarks = ["Frames: of utterances that were read.", "A line ends where none was.", left_out];
    for (number, words) in remarks.into_iter().enumerate().filter(|(_, words)| !words.is_empty()) {
        svg += &text(x, TOP + 276.0 + 18.0 * number as f64, "start", " fill=\"#444444\" font-size=\"12\"", words);
    }
    svg
}
