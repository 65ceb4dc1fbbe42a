//! What the strokes of a picture mean, below it.

use super::svg::{Pen, Svg, INK, PALE, WARN, WELL};

/// Two columns need so much.
pub const WIDE: f64 = 560.0;
const ROW: f64 = 22.0;

const MEANINGS: [&str; 10] = [
    "a request, from the step that sent it to the step that delivered it",
    "an answer; two arrows from one step: the letter was doubled",
    "a letter or an answer that is lost, or that finds nobody",
    "a letter that is still under way when the play ends",
    "an operation begins; the broad line lasts as long as it does",
    "an operation has ended, with what it brought",
    "an operation has ended with a number (docs/RULES.md, 10)",
    "a page is stored at position 0; dashed: junk",
    "a unit is sealed; a new layout is in force; a unit stops",
    "a step that is refused has its number beside it",
];

/// The sign before a meaning, around (60, y).
fn sign(svg: &mut Svg, which: usize, y: f64) {
    let (a, b) = ((26.0, y - 4.0), (90.0, y + 4.0));
    match which {
        0 => {
            svg.line(a, b, INK, 1.7, "");
            svg.head(a, b, INK);
        }
        1 => {
            svg.line(b, (a.0, y - 4.0), INK, 1.7, " stroke-dasharray=\"6 3\"");
            svg.head(b, a, INK);
        }
        2 => {
            svg.line(a, (66.0, y), INK, 1.7, "");
            svg.cross((70.0, y), 5.0);
        }
        3 => svg.line(a, b, INK, 1.7, " stroke-dasharray=\"1 5\" stroke-linecap=\"round\""),
        4 => {
            svg.line((58.0, y - 10.0), (58.0, y + 10.0), PALE, 6.0, " stroke-opacity=\"0.5\"");
            svg.rect(
                (34.0, y - 8.0),
                (48.0, 16.0),
                "#fff",
                &format!(" rx=\"8\" stroke=\"{INK}\" stroke-width=\"1.5\""),
            );
            svg.text((58.0, y + 4.0), "read 0", Pen::new("middle", 11.0, INK));
        }
        5 | 6 => {
            let (fill, says) = if which == 5 { (WELL, "done at 0") } else { (WARN, "5 trimmed") };
            svg.polygon(&[(98.0, y - 8.0), (14.0, y - 8.0), (20.0, y), (14.0, y + 8.0), (98.0, y + 8.0)], fill);
            svg.text((94.0, y + 4.0), says, Pen::new("end", 11.0, "#fff").bold());
        }
        7 => {
            svg.rect((32.0, y - 8.0), (18.0, 16.0), INK, "");
            svg.text((41.0, y + 4.0), "0", Pen::new("middle", 10.5, "#fff").bold());
            svg.rect(
                (62.0, y - 8.0),
                (18.0, 16.0),
                "#fff",
                &format!(" stroke=\"{INK}\" stroke-width=\"1.4\" stroke-dasharray=\"2.5 2\""),
            );
            svg.text((71.0, y + 4.0), "0", Pen::new("middle", 10.5, INK).bold());
        }
        8 => {
            svg.rect((14.0, y - 7.0), (34.0, 14.0), "#444", " rx=\"2\"");
            svg.text((31.0, y + 4.0), "seal 1", Pen::new("middle", 9.5, "#fff").bold());
            svg.rect((52.0, y - 7.0), (34.0, 14.0), "#7a5c00", " rx=\"2\"");
            svg.text((69.0, y + 4.0), "layout", Pen::new("middle", 9.5, "#fff").bold());
            svg.line((90.0, y), (104.0, y), WARN, 4.0, "");
        }
        _ => svg.text((58.0, y + 4.0), "17 nobody", Pen::new("middle", 11.0, WARN).bold()),
    }
}

/// Draws it from `top` on, and says how tall it is.
pub fn legend(svg: &mut Svg, top: f64, wide: f64) -> f64 {
    svg.line((14.0, top - 12.0), (wide - 14.0, top - 12.0), PALE, 1.0, "");
    for (i, says) in MEANINGS.iter().enumerate() {
        let y = top + 8.0 + i as f64 * ROW;
        sign(svg, i, y);
        svg.text((112.0, y + 4.0), says, Pen::new("start", 12.0, INK));
    }
    MEANINGS.len() as f64 * ROW + 16.0
}
