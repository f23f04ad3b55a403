//! The picture as SVG, for screen and print: no scripts, no outside fonts, the same octets each time.
use std::fmt::Display;

use dsr::{HeaderNote, PairNote, MULTIFRAME_PAIRS};

use super::looks::{Area, Kind, NOTED};
use super::picture::{Column, Comparison, Pair, Picture, MULTIFRAME_TIME};

/// The least width of the page, for the words on it.
const LEAST_WIDTH: usize = 800;
/// The width that columns share, if they become neither too narrow nor too wide by it.
const SHARED_WIDTH: usize = 1000;
const NARROWEST: usize = 6;
const WIDEST: usize = 40;
const MARGIN: usize = 24;
/// Where the columns begin, behind the names of the rows.
const LEFT: usize = 128;

/// A header has three lanes: its mended flips, its counter, its settings.
const LANES: usize = 3;
const LANE: usize = 14;
const ROW: usize = 16;

/// The places in a panel, from its upper edge: name, facts, numbers of multiframes, lanes, rows of pairs, and the lower edge.
const NAME_AT: usize = 14;
const FACTS_AT: usize = 34;
const NUMBERS_AT: usize = 58;
const LANES_AT: usize = 64;
const PAIRS_AT: usize = LANES_AT + LANES * LANE + 4;
const PANEL: usize = PAIRS_AT + MULTIFRAME_PAIRS * ROW;

/// The room between two panels, and that of the numbers of the axis, of the line that compares, and of the legend.
const BETWEEN: usize = 28;
const AXIS: usize = 44;
const COMPARED: usize = 30;
const LEGEND: usize = 104;
const LEGEND_ROW: usize = 20;

const INK: &str = "#222222";
const PALE: &str = "#8a949b";

/// How words are set.
const NAME: &str = r#"font-size="14" font-weight="bold""#;
const PLAIN: &str = r#"font-size="12""#;
const ROW_NAME: &str = r#"font-size="10" text-anchor="end""#;
const NUMBER: &str = r#"font-size="10" text-anchor="middle""#;
/// The room of a sign of a name, a little too much so that no name leaves the page.
const NAME_SIGN: usize = 9;
/// The room of a sign of the facts, which are never shortened.
const FACTS_SIGN: usize = 7;

/// The steps of the axis in thousandths of a second: those with a number, and those without.
const STEPS: [(usize, usize); 7] = [(100, 50), (200, 100), (500, 100), (1000, 500), (2000, 1000), (5000, 1000), (10_000, 5000)];
/// The most numbers on the axis, and the least distance from one to the next.
const MOST_STEPS: usize = 16;
const LEAST_STEP: usize = 30;

/// The scale that all panels have.
#[derive(Debug, Clone, Copy, PartialEq, Eq)]
struct Scale {
    /// The multiframes of the longest recording.
    columns: usize,
    /// The width of one: even, so that the middle of a cell without its line is that of a pixel, and marks are sharp.
    cell: usize,
}

impl Scale {
    fn of(columns: usize) -> Scale {
        Scale { columns, cell: (SHARED_WIDTH / columns).clamp(NARROWEST, WIDEST) / 2 * 2 }
    }

    /// The width of the page.
    fn page(self) -> usize {
        (LEFT + self.columns * self.cell + MARGIN).max(LEAST_WIDTH)
    }

    /// Where a multiframe begins.
    fn x(self, column: usize) -> usize {
        LEFT + column * self.cell
    }

    /// Where a time lies.
    fn place(self, time: usize) -> String {
        format!("{:.2}", LEFT as f64 - 0.5 + (time * self.cell) as f64 / MULTIFRAME_TIME as f64)
    }

    /// The step of the axis, and the finer one.
    fn step(self) -> (usize, usize) {
        let can_be_read = |step: usize| step * self.cell >= LEAST_STEP * MULTIFRAME_TIME;
        let few = |step: usize| self.columns * MULTIFRAME_TIME <= MOST_STEPS * step;
        STEPS.into_iter().find(|(step, _)| can_be_read(*step) && few(*step)).unwrap_or(STEPS[STEPS.len() - 1])
    }

    /// The times from the beginning to the end of the longest recording.
    fn times(self, step: usize) -> impl Iterator<Item = usize> {
        (0..=self.columns * MULTIFRAME_TIME).step_by(step)
    }
}

/// A cell that is not merely good.
struct Cell {
    kind: Kind,
    area: Area,
    words: String,
}

/// The recordings one below the other, on one scale of time, with what the marks mean.
pub fn draw(pictures: &[Picture], compared: Option<Comparison>) -> String {
    let scale = Scale::of(pictures.iter().map(|picture| picture.columns.len()).max().unwrap_or(1));
    let mut drawn = String::new();
    let mut y = MARGIN;
    for picture in pictures {
        drawn += &panel(picture, scale, y);
        y += PANEL + BETWEEN;
    }
    y -= BETWEEN;
    drawn += &axis(scale, y);
    y += AXIS;
    if let Some(compared) = compared {
        drawn += &text(MARGIN, y + 10, PLAIN, &compared.words());
        y += COMPARED;
    }
    drawn += &legend(y);
    let widest = pictures.iter().map(|picture| 2 * MARGIN + FACTS_SIGN * picture.facts.chars().count()).max().unwrap_or(0);
    page(scale.page().max(widest), y + LEGEND + MARGIN, &described(pictures, compared), &drawn)
}

fn page(width: usize, height: usize, described: &str, drawn: &str) -> String {
    let size = format!(r#"width="{width}" height="{height}""#);
    let root = format!(
        r#"{size} viewBox="0 0 {width} {height}" role="img" aria-labelledby="title desc" font-family="sans-serif" fill="{INK}""#
    );
    let paper = format!(r##"<rect {size} fill="#ffffff"/>"##);
    format!("<svg xmlns=\"http://www.w3.org/2000/svg\" {root}>\n{described}{paper}\n{drawn}</svg>\n")
}

/// Title and description, for whoever cannot see the picture.
fn described(pictures: &[Picture], compared: Option<Comparison>) -> String {
    let names: Vec<&str> = pictures.iter().map(|picture| picture.name.as_str()).collect();
    let facts = pictures.iter().map(|picture| format!("{}: {}. ", picture.name, picture.facts));
    let facts: String = facts.chain(compared.map(|compared| compared.words() + " ")).collect();
    let how = "Each column is a multiframe, 0.24 seconds: its header on top, its twelve pairs of frames below.";
    let (title, description) = (escaped(&names.join(" and ")), escaped(&facts));
    format!("<title id=\"title\">{title}</title>\n<desc id=\"desc\">{description}{how}</desc>\n")
}

/// One recording: its title, the names of the rows, its cells, and the marks of time.
fn panel(picture: &Picture, scale: Scale, y: usize) -> String {
    let name = shortened(&picture.name, (scale.page() - 2 * MARGIN) / NAME_SIGN);
    let columns = picture.columns.len();
    let parts = [
        text(MARGIN, y + NAME_AT, NAME, &name),
        text(MARGIN, y + FACTS_AT, PLAIN, &picture.facts),
        row_names(y),
        numbers(columns, scale, y + NUMBERS_AT),
        ground(columns, LANES, scale, y + LANES_AT, LANE),
        ground(columns, MULTIFRAME_PAIRS, scale, y + PAIRS_AT, ROW),
        noted(&cells(picture, scale, y)),
        ticks(scale, y + PANEL),
    ];
    parts.concat()
}

fn row_names(y: usize) -> String {
    let number = [(NUMBERS_AT, "multiframe".to_string())];
    let lanes = ["header: flips", "counter", "settings"];
    let lanes = lanes.iter().enumerate().map(|(lane, name)| (LANES_AT + lane * LANE + 10, name.to_string()));
    let pairs = (0..MULTIFRAME_PAIRS).map(|pair| (PAIRS_AT + pair * ROW + 11, format!("pair {}", pair + 1)));
    number.into_iter().chain(lanes).chain(pairs).map(|(at, name)| text(LEFT - 8, y + at, ROW_NAME, &name)).collect()
}

/// The numbers of the multiframes, from 1, as close as they can be read.
fn numbers(columns: usize, scale: Scale, y: usize) -> String {
    let step = [1, 2, 5, 10].into_iter().find(|step| step * scale.cell >= 24).unwrap_or(10);
    let shown = (1..=columns).filter(|number| *number == 1 || number % step == 0);
    shown.map(|number| text(scale.x(number - 1) + scale.cell / 2, y, NUMBER, &number.to_string())).collect()
}

/// Good cells, all at once: their colour, the lines that part them, and a frame.
fn ground(columns: usize, rows: usize, scale: Scale, y: usize, row: usize) -> String {
    let (width, height) = (columns * scale.cell, rows * row);
    let across: String = (1..rows).map(|at| format!("M{LEFT} {}.5h{}", y + at * row - 1, width - 1)).collect();
    let down: String = (1..columns).map(|at| format!("M{}.5 {y}v{}", scale.x(at) - 1, height - 1)).collect();
    let area = format!(r#"x="{}.5" y="{}.5" width="{width}" height="{height}""#, LEFT - 1, y - 1);
    let colour = format!("<rect {area} fill=\"{}\" stroke=\"{PALE}\"/>\n", Kind::Good.fill());
    colour + &format!("<path d=\"{across}{down}\" stroke=\"#ffffff\"/>\n")
}

/// The cells that are not merely good, kind by kind: colours with their words first, then all marks in one path.
fn noted(cells: &[Cell]) -> String {
    NOTED.into_iter().map(|kind| of_one_kind(kind, cells.iter().filter(|cell| cell.kind == kind).collect())).collect()
}

fn of_one_kind(kind: Kind, cells: Vec<&Cell>) -> String {
    let Some(first) = cells.first() else { return String::new() };
    let colours: String = cells.iter().map(|cell| coloured(cell)).collect();
    let marks: String = cells.iter().map(|cell| kind.mark(cell.area)).collect();
    let ink = kind.ink(first.area.width);
    format!("<g fill=\"{}\">\n{colours}</g>\n<path {ink} pointer-events=\"none\" d=\"{marks}\"/>\n", kind.fill())
}

fn coloured(cell: &Cell) -> String {
    let Area { x, y, width, height } = cell.area;
    format!("<rect x=\"{x}\" y=\"{y}\" width=\"{width}\" height=\"{height}\"><title>{}</title></rect>\n", escaped(&cell.words))
}

fn cells(picture: &Picture, scale: Scale, y: usize) -> Vec<Cell> {
    let columns = picture.columns.iter().enumerate();
    let of_column = |(at, column): (usize, &Column)| {
        let place = Area { x: scale.x(at), y, width: scale.cell - 1, height: 0 };
        let mut cells = header_cells(column, place, &picture.header_words(at));
        cells.extend(pair_cells(column, place, |pair| picture.pair_words(at, pair)));
        cells
    };
    columns.flat_map(of_column).collect()
}

fn header_cells(column: &Column, place: Area, words: &str) -> Vec<Cell> {
    let kinds = header_kinds(column.header).into_iter();
    let cells = kinds.map(|(kind, lane, lanes)| {
        let area = Area { y: place.y + LANES_AT + lane * LANE, height: lanes * LANE - 1, ..place };
        Cell { kind, area, words: words.to_string() }
    });
    cells.collect()
}

fn pair_cells(column: &Column, place: Area, words: impl Fn(usize) -> String) -> Vec<Cell> {
    let kinds = column.pairs.iter().map(|pair| pair_kind(*pair)).enumerate();
    let cells = kinds.filter(|(_, kind)| *kind != Kind::Good).map(|(pair, kind)| {
        let area = Area { y: place.y + PAIRS_AT + pair * ROW, height: ROW - 1, ..place };
        Cell { kind, area, words: words(pair) }
    });
    cells.collect()
}

/// What a header shows: each kind with its first lane and the number of its lanes. A lost one has all, for nothing is known of it.
fn header_kinds(note: HeaderNote) -> Vec<(Kind, usize, usize)> {
    match note {
        HeaderNote::Lost => vec![(Kind::Lost, 0, LANES)],
        HeaderNote::Readable { flips, out_of_step, differs, .. } => {
            let mended = (flips > 0).then_some((if flips == 1 { Kind::OneMended } else { Kind::TwoMended }, 0, 1));
            let step = out_of_step.then_some((Kind::OutOfStep, 1, 1));
            let settings = differs.then_some((Kind::OtherSettings, 2, 1));
            mended.into_iter().chain(step).chain(settings).collect()
        }
    }
}

fn pair_kind(pair: Pair) -> Kind {
    match pair.note {
        PairNote::Good if pair.spoken => Kind::Good,
        PairNote::Good => Kind::Padding,
        PairNote::CrcFailed => Kind::CrcFailed,
        PairNote::BadOtherwise => Kind::BadOtherwise,
    }
}

/// The marks of time below a panel, as far as the longest recording goes.
fn ticks(scale: Scale, y: usize) -> String {
    let (step, finer) = scale.step();
    let length = |time| if time % step == 0 { 6 } else { 3 };
    let marks: String = scale.times(finer).map(|time| format!("M{} {y}v{}", scale.place(time), length(time))).collect();
    let line = format!("M{}.5 {}.5h{}", LEFT - 1, y - 1, scale.columns * scale.cell);
    format!("<path d=\"{line}{marks}\" stroke=\"{INK}\"/>\n")
}

/// The numbers of the axis, below the last panel.
fn axis(scale: Scale, y: usize) -> String {
    let (step, _) = scale.step();
    let number = |time: usize| match step % 1000 {
        0 => (time / 1000).to_string(),
        _ => format!("{}.{}", time / 1000, time % 1000 / 100),
    };
    let numbers: String = scale.times(step).map(|time| text(scale.place(time), y + 18, NUMBER, &number(time))).collect();
    text(LEFT - 14, y + 18, ROW_NAME, "seconds") + &numbers
}

/// What each kind looks like, in three columns: pairs, and headers in two.
fn legend(y: usize) -> String {
    let pairs = [
        (Kind::Good, "as received"),
        (Kind::Padding, "padding: as received, no speech"),
        (Kind::CrcFailed, "CRC failed: replaced"),
        (Kind::BadOtherwise, "bad otherwise: replaced"),
    ];
    let headers = [
        (Kind::Good, "clean"),
        (Kind::OneMended, "1 flipped bit mended"),
        (Kind::TwoMended, "2 flipped bits mended"),
        (Kind::Lost, "lost"),
    ];
    let warnings = [(Kind::OutOfStep, "counter out of step"), (Kind::OtherSettings, "names other settings")];
    let columns = [(MARGIN, "Pairs of frames", &pairs[..]), (300, "Headers", &headers[..]), (530, "", &warnings[..])];
    columns.into_iter().map(|(x, name, entries)| legend_column(x, y, name, entries)).collect()
}

fn legend_column(x: usize, y: usize, name: &str, entries: &[(Kind, &str)]) -> String {
    let places = (y + 22..).step_by(LEGEND_ROW);
    let rows: String = entries.iter().zip(places).map(|((kind, words), y)| legend_entry(x, y, *kind, words)).collect();
    text(x, y + 10, PLAIN, name) + &rows
}

fn legend_entry(x: usize, y: usize, kind: Kind, words: &str) -> String {
    let area = Area { x, y, width: 19, height: LANE - 1 };
    let place = format!(r#"x="{}.5" y="{}.5" width="20" height="{LANE}""#, x - 1, y - 1);
    let colour = format!("<rect {place} fill=\"{}\" stroke=\"{PALE}\"/>\n", kind.fill());
    let mark = format!("<path {} d=\"{}\"/>\n", kind.ink(area.width), kind.mark(area));
    colour + &mark + &text(x + 30, y + 11, PLAIN, words)
}

fn text(x: impl Display, y: usize, how: &str, words: &str) -> String {
    format!("<text x=\"{x}\" y=\"{y}\" {how}>{}</text>\n", escaped(words))
}

/// A name that needs the room of at most so many letters: if it is longer, its middle goes, for beginning and end tell most.
fn shortened(name: &str, most: usize) -> String {
    let room = |signs: &[char]| signs.iter().map(|sign| if sign.is_ascii() { 1 } else { 2 }).sum::<usize>();
    let signs: Vec<char> = name.chars().collect();
    if room(&signs) <= most {
        return name.to_string();
    }
    let fits = |end: &[char]| room(end) + 2 <= most / 2;
    let front = (0..signs.len()).take_while(|at| fits(&signs[..*at])).last().unwrap_or(0);
    let back = (0..=signs.len()).find(|at| fits(&signs[*at..])).unwrap_or(signs.len());
    signs[..front].iter().chain(&['.', '.', '.']).chain(&signs[back..]).collect()
}

/// Words as XML has them.
fn escaped(words: &str) -> String {
    words.replace('&', "&amp;").replace('<', "&lt;").replace('>', "&gt;").replace('"', "&quot;")
}

#[cfg(test)]
mod tests {
    use super::*;

    #[test]
    fn words_are_escaped() {
        assert_eq!(escaped("a<b>&\"c\""), "a&lt;b&gt;&amp;&quot;c&quot;");
    }

    #[test]
    fn a_long_name_loses_its_middle() {
        assert_eq!(shortened("yard7.dsr", 9), "yard7.dsr");
        assert_eq!(shortened("0123456789abcdef.dsr", 12), "0123....dsr");
        assert_eq!(shortened("\u{99c5}\u{99c5}\u{99c5}\u{99c5}\u{99c5}6789.dsr", 12), "\u{99c5}\u{99c5}....dsr");
    }

    #[test]
    fn the_axis_has_a_step_for_every_length() {
        assert_eq!([1, 40, 255].map(|columns| Scale::of(columns).step()), [(200, 100), (1000, 500), (5000, 1000)]);
        for scale in (1..=255).map(Scale::of) {
            assert!(scale.step().0 * scale.cell >= LEAST_STEP * MULTIFRAME_TIME);
            assert!(scale.times(scale.step().0).count() <= MOST_STEPS + 1);
        }
    }

    #[test]
    fn every_header_note_has_its_own_cells() {
        let notes: Vec<HeaderNote> = (0..16).filter_map(HeaderNote::from_octet).collect();
        let kinds: Vec<_> = notes.iter().map(|note| header_kinds(*note)).collect();
        assert!((0..kinds.len()).all(|at| !kinds[..at].contains(&kinds[at])));
    }

    #[test]
    fn only_a_good_pair_is_padding() {
        let kind = |note, spoken| pair_kind(Pair { note, spoken });
        assert_eq!(kind(PairNote::Good, true), Kind::Good);
        assert_eq!(kind(PairNote::Good, false), Kind::Padding);
        assert_eq!(kind(PairNote::CrcFailed, false), Kind::CrcFailed);
        assert_eq!(kind(PairNote::BadOtherwise, true), Kind::BadOtherwise);
    }
}
