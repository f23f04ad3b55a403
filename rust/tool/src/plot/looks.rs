//! How each kind of cell looks in SVG: a colour that the colour-blind can tell, of a lightness of its own, and a mark that no other has.
//! The colours are those of Okabe and Ito.

/// What a cell can show.
#[derive(Debug, Clone, Copy, PartialEq, Eq)]
pub enum Kind {
    /// A pair as received, or a clean header.
    Good,
    /// A pair as received that is no speech.
    Padding,
    CrcFailed,
    BadOtherwise,
    OneMended,
    TwoMended,
    Lost,
    OutOfStep,
    OtherSettings,
}

/// All kinds but good ones, which are the ground that the others are drawn on.
pub const NOTED: [Kind; 8] = [
    Kind::Padding,
    Kind::CrcFailed,
    Kind::BadOtherwise,
    Kind::OneMended,
    Kind::TwoMended,
    Kind::Lost,
    Kind::OutOfStep,
    Kind::OtherSettings,
];

/// A rectangle of the picture, without the line to its neighbours.
#[derive(Debug, Clone, Copy, PartialEq, Eq)]
pub struct Area {
    pub x: usize,
    pub y: usize,
    pub width: usize,
    pub height: usize,
}

const WHITE: &str = "#ffffff";
const BLACK: &str = "#000000";
/// Below this width a cell's lines are fine ones, so that its colour is seen beside them.
const NARROW: usize = 10;

impl Kind {
    pub fn fill(self) -> &'static str {
        match self {
            Kind::Good => "#e6edf2",
            Kind::Padding => WHITE,
            Kind::CrcFailed => "#d55e00",
            Kind::BadOtherwise => "#56b4e9",
            Kind::OneMended | Kind::TwoMended => "#f0e442",
            Kind::Lost => BLACK,
            Kind::OutOfStep => "#cc79a7",
            Kind::OtherSettings => "#0072b2",
        }
    }

    /// How the mark's path is painted: as lines, finer ones in narrow cells, or filled.
    pub fn ink(self, width: usize) -> String {
        let thickness = if width < NARROW { "1.0" } else { "1.6" };
        match self {
            Kind::Good => r#"fill="none""#.to_string(),
            Kind::Padding => r##"fill="#8a949b""##.to_string(),
            Kind::CrcFailed | Kind::Lost => format!(r#"fill="none" stroke="{WHITE}" stroke-width="{thickness}""#),
            Kind::BadOtherwise => format!(r#"fill="none" stroke="{BLACK}" stroke-width="{thickness}""#),
            Kind::OneMended | Kind::TwoMended | Kind::OutOfStep => format!(r#"fill="{BLACK}""#),
            Kind::OtherSettings => format!(r#"fill="{WHITE}""#),
        }
    }

    /// The mark in the middle of a cell, as path data. It gets narrower with the cell, but not lower, so that it is seen in a long recording.
    pub fn mark(self, area: Area) -> String {
        let (x, y) = (area.x as f64 + area.width as f64 / 2.0, area.y as f64 + area.height as f64 / 2.0);
        let across = (area.width as f64 / 2.0 - 0.5).min(4.0);
        let far = area.height as f64 / 2.0 - 4.0;
        match self {
            Kind::Good => String::new(),
            Kind::Padding => square(x, y, 3.0),
            Kind::CrcFailed => line(x - across, y - 4.0, x + across, y + 4.0) + &line(x - across, y + 4.0, x + across, y - 4.0),
            Kind::BadOtherwise => {
                line(x - across, y - 3.0, x + across, y - 3.0) + &line(x - across, y + 3.0, x + across, y + 3.0)
            }
            Kind::OneMended => square(x, y, 3.0),
            Kind::TwoMended => square(x, y - 3.0, 3.0) + &square(x, y + 3.0, 3.0),
            Kind::Lost => line(x - across, y + far, x + across, y - far),
            Kind::OutOfStep => format!("M{x:.1} {:.1}l{across:.1} 8.0h{:.1}z", y - 4.0, -2.0 * across),
            Kind::OtherSettings => diamond(x, y, across),
        }
    }
}

fn line(x1: f64, y1: f64, x2: f64, y2: f64) -> String {
    format!("M{x1:.1} {y1:.1}L{x2:.1} {y2:.1}")
}

fn square(x: f64, y: f64, side: f64) -> String {
    format!("M{:.1} {:.1}h{side:.1}v{side:.1}h{:.1}z", x - side / 2.0, y - side / 2.0, -side)
}

fn diamond(x: f64, y: f64, across: f64) -> String {
    let back = -across;
    format!("M{x:.1} {:.1}l{across:.1} 4.0l{back:.1} 4.0l{back:.1} -4.0z", y - 4.0)
}
