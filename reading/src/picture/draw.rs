//! A scene, drawn: time runs down, a row for each step.

use super::legend;
use super::says;
use super::scene::{Arrow, End, Lane, Mark, Point, Scene, What};
use super::svg::{bold_width, colour, width, Pen, Svg, INK, PALE, WARN, WELL};
use crate::no;

const FIRST: f64 = 150.0;
const BETWEEN: f64 = 80.0;
const RIGHT: f64 = 62.0;
const HEAD: f64 = 74.0;
const TOP: f64 = 108.0;
const ROW: f64 = 27.0;
/// The size of most words.
const WORDS: f64 = 11.5;

struct Board<'a> {
    scene: &'a Scene,
    svg: Svg,
}

fn name(lane: Lane) -> String {
    match lane {
        Lane::Client(client) => format!("client {client}"),
        Lane::Sequencer => "sequencer".into(),
        Lane::Holder => "holder".into(),
        Lane::Unit(unit) => format!("unit {unit}"),
    }
}

fn y(row: usize) -> f64 {
    TOP + row as f64 * ROW
}

/// How far a mark reaches to either side of its lane.
fn reach_of(what: &What) -> f64 {
    match what {
        What::Begins(says) | What::Trims(says) => width(says, WORDS) / 2.0 + 6.0,
        What::Seals(_) => 24.0,
        What::Layout(_) => 28.0,
        What::Stores { position, .. } => width(&position.to_string(), 10.0) / 2.0 + 6.0,
        What::Flag { .. } | What::Loses | What::Stops | What::Says(_) => 4.0,
    }
}

impl Board<'_> {
    fn x(&self, lane: Lane) -> f64 {
        let at = self.scene.lanes.iter().position(|l| *l == lane).unwrap_or(0);
        FIRST + at as f64 * BETWEEN
    }

    fn at(&self, point: Point) -> (f64, f64) {
        (self.x(point.lane), y(point.row))
    }

    fn reach(&self, point: Point) -> f64 {
        let here = self.scene.marks.iter().filter(|mark| mark.at == point);
        here.map(|mark| reach_of(&mark.what)).fold(4.0, f64::max)
    }

    fn right(&self) -> f64 {
        FIRST + (self.scene.lanes.len() - 1) as f64 * BETWEEN + RIGHT
    }

    /// How wide the picture is: lanes, legend and what is said of a layout have room.
    fn wide(&self) -> f64 {
        let layouts = self.scene.marks.iter().filter_map(|mark| match &mark.what {
            What::Layout(says) => Some(self.x(mark.at.lane) + reach_of(&mark.what) + bold_width(says, WORDS) + 12.0),
            _ => None,
        });
        layouts.fold(self.right().max(legend::WIDE), f64::max)
    }

    fn last(&self) -> usize {
        self.scene.answers.len() + 1
    }

    /// The row at which a lane ends: a unit's where it stops.
    fn ends(&self, lane: Lane) -> usize {
        let stop = self.scene.marks.iter().find(|mark| mark.at.lane == lane && mark.what == What::Stops);
        stop.map_or(self.last(), |mark| mark.at.row)
    }

    fn headings(&mut self, title: &str) {
        let right = self.wide();
        // a long title is smaller, so that it fits over the lanes
        let size = (17.0_f64).min((right - 28.0) / bold_width(title, 1.0));
        self.svg.text((14.0, 26.0), title, Pen::new("start", size, INK).bold());
        self.svg.text(
            (14.0, 45.0),
            "time runs down; steps are numbered as in the play's lines",
            Pen::new("start", 11.5, "#555"),
        );
        for row in 1..self.last() {
            if row % 2 == 0 {
                self.svg.rect((8.0, y(row) - ROW / 2.0), (right - 16.0, ROW), "#f4f4f1", "");
            }
        }
        for lane in self.scene.lanes.clone() {
            let fill = if let Lane::Client(client) = lane { colour(client) } else { INK };
            for at in [HEAD, y(self.last()) + 20.0] {
                self.svg.text((self.x(lane), at), &name(lane), Pen::new("middle", 12.5, fill).bold());
            }
        }
    }

    fn lanes(&mut self) {
        for lane in self.scene.lanes.clone() {
            let x = self.x(lane);
            self.svg.line((x, TOP - 26.0), (x, y(self.ends(lane))), PALE, 1.4, "");
        }
        for (client, from, to) in self.scene.busy.clone() {
            let x = self.x(Lane::Client(client));
            self.svg.line(
                (x, y(from)),
                (x, y(to)),
                colour(client),
                6.0,
                " stroke-opacity=\"0.4\" stroke-linecap=\"round\"",
            );
        }
    }

    fn steps(&mut self) {
        for (i, answer) in self.scene.answers.clone().into_iter().enumerate() {
            let at = y(i + 1) + 4.0;
            self.svg.text((34.0, at), &(i + 1).to_string(), Pen::new("end", 12.0, INK));
            if answer != no::FINE {
                self.svg.text((42.0, at), &says::number(answer), Pen::new("start", WORDS, WARN).bold());
            }
        }
    }

    /// What a letter says, along its arrow.
    fn label(&mut self, arrow: &Arrow, a: (f64, f64), b: (f64, f64)) {
        let rightward = b.0 > a.0;
        let degrees = ((b.1 - a.1) / (b.0 - a.0)).atan().to_degrees();
        let pen = Pen::new("middle", WORDS, colour(arrow.client)).rim();
        let (anchor, along, turn) = if degrees.abs() <= 33.0 {
            // a request that lay long says so near its end, where fewer lines cross
            let late = rightward && arrow.to.row - arrow.from.row > 2;
            let along = if late { 0.77 } else { 0.5 };
            ("middle", along, degrees)
        } else {
            // steep: beside its end
            (if rightward { "end" } else { "start" }, 1.0, 0.0)
        };
        let at = (a.0 + (b.0 - a.0) * along, a.1 + (b.1 - a.1) * along);
        let aside = if turn == 0.0 && along == 1.0 {
            if rightward {
                -12.0
            } else {
                12.0
            }
        } else {
            0.0
        };
        self.svg.text((at.0 + aside, at.1 - 4.0), &arrow.says, Pen { anchor, turn, ..pen });
    }

    fn arrow(&mut self, arrow: &Arrow) {
        let (mut a, mut b) = (self.at(arrow.from), self.at(arrow.to));
        let side = if b.0 > a.0 { 1.0 } else { -1.0 };
        a.0 += side * self.reach(arrow.from);
        b.0 -= side * if arrow.end == End::Nobody { 10.0 } else { self.reach(arrow.to) };
        if matches!(arrow.end, End::Dropped | End::UnderWay) {
            b.0 = a.0 + (b.0 - a.0) * 0.55;
        }
        let dash = match (arrow.end, arrow.is_answer) {
            (End::UnderWay, _) => " stroke-dasharray=\"1 5\" stroke-linecap=\"round\"",
            (_, true) => " stroke-dasharray=\"6 3\"",
            (_, false) => "",
        };
        self.svg.line(a, b, colour(arrow.client), 1.7, dash);
        match arrow.end {
            End::Arrives => self.svg.head(a, b, colour(arrow.client)),
            End::Nobody | End::Dropped => self.svg.cross(b, 5.0),
            End::UnderWay => {}
        }
    }

    /// A rounded box with words, in the middle of a lane.
    fn boxed(&mut self, at: (f64, f64), says: &str, border: &'static str, reach: f64) {
        let more = format!(" rx=\"8\" stroke=\"{border}\" stroke-width=\"1.5\"");
        self.svg.rect((at.0 - reach, at.1 - 9.0), (2.0 * reach, 18.0), "#fff", &more);
        self.svg.text((at.0, at.1 + 4.0), says, Pen::new("middle", WORDS, border));
    }

    fn bar(&mut self, at: (f64, f64), says: &str, reach: f64, fill: &str) {
        self.svg.rect((at.0 - reach, at.1 - 8.0), (2.0 * reach, 16.0), fill, " rx=\"2\"");
        self.svg.text((at.0, at.1 + 4.0), says, Pen::new("middle", 10.5, "#fff").bold());
    }

    /// An outcome: a flag to the left of its client, or below to the right where it would hide the steps' numbers.
    fn flag(&mut self, at: (f64, f64), says: &str, well: bool) {
        let fill = if well { WELL } else { WARN };
        let wide = bold_width(says, WORDS) + 14.0;
        let at = if at.0 - wide < 36.0 { (at.0 + wide + 8.0, at.1 + 13.0) } else { at };
        let (l, t, b) = (at.0 - 4.0 - wide, at.1 - 9.0, at.1 + 9.0);
        self.svg.polygon(&[(at.0 - 4.0, t), (l, t), (l + 6.0, at.1), (l, b), (at.0 - 4.0, b)], fill);
        self.svg.line((at.0 - 3.0, t - 1.0), (at.0 - 3.0, b + 3.0), INK, 2.0, "");
        self.svg.text((at.0 - 9.0, at.1 + 4.0), says, Pen::new("end", WORDS, "#fff").bold());
    }

    fn stored(&mut self, at: (f64, f64), junk: bool, position: u64, reach: f64) {
        let (fill, ink) = if junk { ("#fff", INK) } else { (INK, "#fff") };
        let more =
            format!(" stroke=\"{INK}\" stroke-width=\"1.4\"{}", if junk { " stroke-dasharray=\"2.5 2\"" } else { "" });
        self.svg.rect((at.0 - reach, at.1 - 8.0), (2.0 * reach, 16.0), fill, &more);
        self.svg.text((at.0, at.1 + 3.8), &position.to_string(), Pen::new("middle", 10.5, ink).bold());
    }

    fn mark(&mut self, mark: &Mark) {
        let (at, reach) = (self.at(mark.at), reach_of(&mark.what));
        match &mark.what {
            What::Begins(says) => {
                let border = if let Lane::Client(client) = mark.at.lane { colour(client) } else { INK };
                self.boxed(at, says, border, reach);
            }
            What::Trims(says) => self.boxed(at, says, INK, reach),
            What::Flag { well, says } => self.flag(at, says, *well),
            What::Seals(epoch) => self.bar(at, &format!("seal {epoch}"), reach, "#444"),
            What::Layout(says) => {
                self.bar(at, "layout", reach, "#7a5c00");
                self.svg.text((at.0 + reach + 5.0, at.1 + 4.0), says, Pen::new("start", WORDS, "#6b5000").bold().rim());
            }
            What::Stores { junk, position } => self.stored(at, *junk, *position, reach),
            What::Loses => {
                self.svg.line(at, (at.0 - 20.0, at.1 + 6.0), PALE, 1.7, " stroke-dasharray=\"6 3\"");
                self.svg.cross((at.0 - 22.0, at.1 + 7.0), 4.5);
            }
            What::Stops => {
                self.svg.line((at.0 - 14.0, at.1), (at.0 + 14.0, at.1), WARN, 4.0, "");
                self.svg.text((at.0, at.1 + 15.0), "stopped", Pen::new("middle", WORDS, WARN).bold().rim());
            }
            What::Says(says) => {
                self.svg.circle(at, 4.0, "#fff", &format!(" stroke=\"{INK}\" stroke-width=\"1.5\""));
                self.svg.text((at.0 + 8.0, at.1 + 13.0), says, Pen::new("start", WORDS, INK).rim());
            }
        }
    }
}

pub fn draw(scene: &Scene, title: &str) -> String {
    let mut board = Board { scene, svg: Svg::default() };
    board.headings(title);
    board.lanes();
    board.steps();
    for arrow in &scene.arrows {
        board.arrow(arrow);
    }
    for mark in &scene.marks {
        board.mark(mark);
    }
    // words last, so that no line runs through them
    for arrow in &scene.arrows {
        let (a, b) = (board.at(arrow.from), board.at(arrow.to));
        let part = if matches!(arrow.end, End::Dropped | End::UnderWay) { 0.55 } else { 1.0 };
        board.label(arrow, a, (a.0 + (b.0 - a.0) * part, b.1));
    }
    let wide = board.wide();
    let under = y(board.last()) + 44.0;
    let tall = under + legend::legend(&mut board.svg, under, wide);
    board.svg.whole((wide, tall), title)
}
