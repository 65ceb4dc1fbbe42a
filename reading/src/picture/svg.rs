//! The strokes of a picture, as lines of SVG.

use std::fmt::Write;

pub const INK: &str = "#1b1b1b";
pub const PALE: &str = "#9a9a9a";
pub const WARN: &str = "#b3261e";
pub const WELL: &str = "#1b6e3a";

/// A client's colour; a number beside every arrow tells them apart without.
pub fn colour(client: u8) -> &'static str {
    match client {
        1 => "#1257a6",
        2 => "#b85500",
        3 => "#6b2f9e",
        _ => "#00707a",
    }
}

/// How wide a text of this size is, nearly.
pub fn width(text: &str, size: f64) -> f64 {
    text.chars().count() as f64 * size * 0.58
}

pub fn bold_width(text: &str, size: f64) -> f64 {
    text.chars().count() as f64 * size * 0.68
}

fn escaped(text: &str) -> String {
    text.replace('&', "&amp;").replace('<', "&lt;").replace('>', "&gt;")
}

/// How a text stands: where it is anchored, its size and colour.
#[derive(Clone, Copy)]
pub struct Pen {
    pub anchor: &'static str,
    pub size: f64,
    pub fill: &'static str,
    pub bold: bool,
    /// A rim of white, where it crosses lines.
    pub rim: bool,
    pub turn: f64,
}

impl Pen {
    pub fn new(anchor: &'static str, size: f64, fill: &'static str) -> Pen {
        Pen { anchor, size, fill, bold: false, rim: false, turn: 0.0 }
    }

    pub fn bold(self) -> Pen {
        Pen { bold: true, ..self }
    }

    pub fn rim(self) -> Pen {
        Pen { rim: true, ..self }
    }
}

#[derive(Default)]
pub struct Svg {
    body: String,
}

impl Svg {
    pub fn line(&mut self, a: (f64, f64), b: (f64, f64), stroke: &str, wide: f64, more: &str) {
        let _ = writeln!(
            self.body,
            "<line x1=\"{:.1}\" y1=\"{:.1}\" x2=\"{:.1}\" y2=\"{:.1}\" stroke=\"{stroke}\" stroke-width=\"{wide}\"{more}/>",
            a.0, a.1, b.0, b.1
        );
    }

    pub fn rect(&mut self, at: (f64, f64), size: (f64, f64), fill: &str, more: &str) {
        let _ = writeln!(
            self.body,
            "<rect x=\"{:.1}\" y=\"{:.1}\" width=\"{:.1}\" height=\"{:.1}\" fill=\"{fill}\"{more}/>",
            at.0, at.1, size.0, size.1
        );
    }

    pub fn polygon(&mut self, points: &[(f64, f64)], fill: &str) {
        let points: Vec<String> = points.iter().map(|(x, y)| format!("{x:.1},{y:.1}")).collect();
        let _ = writeln!(self.body, "<polygon points=\"{}\" fill=\"{fill}\"/>", points.join(" "));
    }

    pub fn circle(&mut self, at: (f64, f64), r: f64, fill: &str, more: &str) {
        let _ = writeln!(self.body, "<circle cx=\"{:.1}\" cy=\"{:.1}\" r=\"{r}\" fill=\"{fill}\"{more}/>", at.0, at.1);
    }

    pub fn cross(&mut self, at: (f64, f64), arm: f64) {
        let more = " stroke-linecap=\"round\"";
        self.line((at.0 - arm, at.1 - arm), (at.0 + arm, at.1 + arm), WARN, 2.2, more);
        self.line((at.0 - arm, at.1 + arm), (at.0 + arm, at.1 - arm), WARN, 2.2, more);
    }

    pub fn text(&mut self, at: (f64, f64), says: &str, pen: Pen) {
        let bold = if pen.bold { " font-weight=\"bold\"" } else { "" };
        let rim = if pen.rim {
            " stroke=\"#fff\" stroke-width=\"3.5\" paint-order=\"stroke\" stroke-linejoin=\"round\""
        } else {
            ""
        };
        let turn = if pen.turn == 0.0 {
            String::new()
        } else {
            format!(" transform=\"rotate({:.1} {:.1} {:.1})\"", pen.turn, at.0, at.1)
        };
        let _ = writeln!(
            self.body,
            "<text x=\"{:.1}\" y=\"{:.1}\" text-anchor=\"{}\" font-size=\"{}\" fill=\"{}\"{bold}{rim}{turn}>{}</text>",
            at.0,
            at.1,
            pen.anchor,
            pen.size,
            pen.fill,
            escaped(says)
        );
    }

    /// The head of an arrow that comes from `from`.
    pub fn head(&mut self, from: (f64, f64), to: (f64, f64), fill: &str) {
        let (dx, dy) = (to.0 - from.0, to.1 - from.1);
        let long = dx.hypot(dy).max(0.1);
        let (ux, uy) = (dx / long, dy / long);
        let back = (to.0 - 8.0 * ux, to.1 - 8.0 * uy);
        self.polygon(&[to, (back.0 - 3.6 * uy, back.1 + 3.6 * ux), (back.0 + 3.6 * uy, back.1 - 3.6 * ux)], fill);
    }

    pub fn whole(&self, size: (f64, f64), title: &str) -> String {
        format!(
            "<svg xmlns=\"http://www.w3.org/2000/svg\" viewBox=\"0 0 {0:.0} {1:.0}\" width=\"{0:.0}\" height=\"{1:.0}\" \
             font-family=\"DejaVu Sans, Verdana, Arial, sans-serif\">\n<title>{2}</title>\n\
             <rect width=\"{0:.0}\" height=\"{1:.0}\" fill=\"#fff\"/>\n{3}</svg>\n",
            size.0,
            size.1,
            escaped(title),
            self.body
        )
    }
}
