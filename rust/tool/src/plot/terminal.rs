//! The picture in a terminal: a character for each header and each pair, and colours where they can be seen.
use std::io::IsTerminal;

use dsr::{HeaderNote, PairNote, MULTIFRAME_PAIRS};

use super::picture::{Comparison, Pair, Picture, MULTIFRAME_TIME};

/// The columns of a terminal of which nothing is known.
const USUAL_COLUMNS: usize = 80;
/// The names of the rows take so many columns.
const LEFT: usize = 8;
/// So few multiframes are drawn side by side however narrow the terminal is.
const LEAST_ROOM: usize = 10;
/// So many multiframes are a whole number of seconds, six: a good place to begin a new block.
const WHOLE_SECONDS: usize = 25;

/// What is known of the place where the picture is seen.
#[derive(Debug, Clone, Copy, PartialEq, Eq)]
pub struct Screen {
    pub columns: usize,
    pub colours: bool,
}

impl Screen {
    /// The screen behind standard output; COLUMNS says its width, and NO_COLOR that no colours are wanted.
    pub fn here() -> Screen {
        let columns = std::env::var("COLUMNS").ok().and_then(|said| said.parse().ok()).filter(|columns| *columns > 0);
        let unwanted = std::env::var_os("NO_COLOR").is_some_and(|said| !said.is_empty());
        Screen { columns: columns.unwrap_or(USUAL_COLUMNS), colours: std::io::stdout().is_terminal() && !unwanted }
    }
}

/// The recordings one after the other, and what the characters mean.
pub fn draw(pictures: &[Picture], compared: Option<Comparison>, screen: Screen) -> String {
    let room = screen.columns.saturating_sub(LEFT).max(LEAST_ROOM);
    let blocks: String = pictures.iter().map(|picture| recording(picture, room, screen.colours)).collect();
    let compared = compared.map_or(String::new(), |compared| compared.words() + "\n\n");
    blocks + &compared + &legend(screen.colours)
}

fn recording(picture: &Picture, room: usize, colours: bool) -> String {
    let columns = picture.columns.len();
    let blocks = (0..columns).step_by(block_width(columns, room));
    let blocks = blocks.map(|first| block(picture, first, block_width(columns, room).min(columns - first), room, colours));
    format!("{}\n{}\n\n{}", picture.name, picture.facts, blocks.collect::<String>())
}

/// As many multiframes as there are, or as many whole seconds as there is room for.
fn block_width(columns: usize, room: usize) -> usize {
    if columns <= room {
        columns
    } else if room >= WHOLE_SECONDS {
        room / WHOLE_SECONDS * WHOLE_SECONDS
    } else {
        room
    }
}

fn block(picture: &Picture, first: usize, width: usize, room: usize, colours: bool) -> String {
    let columns = &picture.columns[first..first + width];
    let numbers = format!("{:LEFT$}{}\n", "", numbers_of(first, width));
    let header = row("header", columns.iter().map(|column| header_character(column.header)), colours);
    let pairs = (0..MULTIFRAME_PAIRS).map(|pair| {
        let characters = columns.iter().map(|column| pair_character(column.pairs[pair]));
        row(&format!("pair {}", pair + 1), characters, colours)
    });
    numbers + &header + &pairs.collect::<String>() + &ruler(first, width, room) + "\n"
}

fn numbers_of(first: usize, width: usize) -> String {
    match width {
        1 => format!("multiframe {}", first + 1),
        _ => format!("multiframes {} to {}", first + 1, first + width),
    }
}

fn row(name: &str, characters: impl Iterator<Item = char>, colours: bool) -> String {
    format!("{name:>width$} {}\n", painted(characters, colours), width = LEFT - 1)
}

/// Each whole second stands below the multiframe in which it begins.
fn ruler(first: usize, width: usize, room: usize) -> String {
    let begins = (first * MULTIFRAME_TIME).div_ceil(1000);
    let places = (begins..).map(|second| (1000 * second / MULTIFRAME_TIME - first, second.to_string()));
    let mut line = String::new();
    for (column, number) in places.take_while(|(column, number)| *column < width && column + number.len() <= room) {
        line += &format!("{:column$}{number}", "", column = column - line.len());
    }
    row("seconds", line.chars(), false)
}

/// Of each row of three the first is for no mended flip, then for one and for two.
fn header_character(note: HeaderNote) -> char {
    match note {
        HeaderNote::Lost => 'L',
        HeaderNote::Readable { flips, out_of_step, differs, .. } => {
            let three = match (out_of_step, differs) {
                (false, false) => ['.', '1', '2'],
                (true, false) => ['S', 'T', 'U'],
                (false, true) => ['D', 'E', 'F'],
                (true, true) => ['X', 'Y', 'Z'],
            };
            three[usize::from(flips)]
        }
    }
}

fn pair_character(pair: Pair) -> char {
    match pair.note {
        PairNote::Good if pair.spoken => '.',
        PairNote::Good => '-',
        PairNote::CrcFailed => '#',
        PairNote::BadOtherwise => '%',
    }
}

/// The colours of a character, as near to those of the SVG as 256 colours come: ink, then ground.
fn colours_of(character: char) -> Option<(u8, u8)> {
    match character {
        '#' => Some((231, 166)),
        '%' => Some((16, 74)),
        '1' | '2' => Some((16, 221)),
        'L' => Some((16, 231)),
        'S'..='U' => Some((16, 175)),
        'D'..='F' => Some((231, 25)),
        'X'..='Z' => Some((231, 90)),
        _ => None,
    }
}

/// The characters, and between them the codes where the colours change.
fn painted(characters: impl Iterator<Item = char>, colours: bool) -> String {
    let mut line = String::new();
    let mut now = None;
    for character in characters {
        let wanted = colours_of(character).filter(|_| colours);
        if wanted != now {
            line += &code(wanted);
            now = wanted;
        }
        line.push(character);
    }
    line + if now.is_some() { PLAIN } else { "" }
}

const PLAIN: &str = "\x1b[0m";

fn code(colours: Option<(u8, u8)>) -> String {
    colours.map_or(PLAIN.to_string(), |(ink, ground)| format!("\x1b[38;5;{ink};48;5;{ground}m"))
}

/// What the characters mean. Each row fits into 80 columns.
fn legend(colours: bool) -> String {
    let pairs = [(".", "as received"), ("-", "padding"), ("#", "CRC failed, replaced"), ("%", "bad otherwise, too")];
    let headers = [(".", "clean"), ("1 2", "so many flipped bits mended"), ("L", "lost")];
    let warnings = [("S", "counter out of step"), ("D", "names other settings"), ("X", "both")];
    let mended = [("T U, E F, Y Z", "as S, D, X, and 1 or 2 flipped bits mended")];
    let rows = [("pairs", &pairs[..]), ("headers", &headers[..]), ("", &warnings[..]), ("", &mended[..])];
    rows.into_iter().map(|(name, entries)| legend_row(name, entries, colours)).collect()
}

fn legend_row(name: &str, entries: &[(&str, &str)], colours: bool) -> String {
    let entry = |(characters, words): &(&str, &str)| format!("{} {words}", painted(characters.chars(), colours));
    let entries: Vec<String> = entries.iter().map(entry).collect();
    format!("{name:<LEFT$}{}\n", entries.join("  "))
}

#[cfg(test)]
mod tests {
    use super::*;

    #[test]
    fn blocks_begin_at_whole_seconds_where_they_can() {
        let widths = [(1, 72), (72, 72), (73, 72), (255, 100), (30, 20)].map(|(columns, room)| block_width(columns, room));
        assert_eq!(widths, [1, 72, 50, 100, 20]);
    }

    #[test]
    fn the_ruler_goes_on_from_block_to_block() {
        assert_eq!(ruler(0, 10, 72), "seconds 0   1   2\n");
        assert_eq!(ruler(25, 10, 72), "seconds 6   7   8\n");
        assert_eq!(ruler(10, 5, 72), "seconds   3\n");
    }

    #[test]
    fn the_legend_fits() {
        assert!(legend(false).lines().all(|line| line.len() <= USUAL_COLUMNS));
    }

    #[test]
    fn every_header_note_has_its_own_character() {
        let characters: Vec<char> = (0..16).filter_map(HeaderNote::from_octet).map(header_character).collect();
        assert_eq!(characters, ['.', '1', '2', 'L', 'S', 'T', 'U', 'D', 'E', 'F', 'X', 'Y', 'Z']);
    }

    #[test]
    fn colours_are_said_only_where_they_change() {
        assert_eq!(painted("..##.".chars(), true), "..\x1b[38;5;231;48;5;166m##\x1b[0m.");
        assert_eq!(painted("..##.".chars(), false), "..##.");
    }
}
