//! Where the parts of the plot stand on the page: the frame with its axes, the steps of the curve, and the line of the total.

use super::axis::{Axis, Tick};
use super::curve::{Column, Curve};
use crate::page::{round, Page, HEAD, MARGIN};
use puzhenim::{Area, Areas, Sum};

/// The frame's sides in pixels.
const WIDE: f64 = 960.0;
const TALL: f64 = 420.0;
/// What stands above and below the frame, left of its ticks' labels, and right of it.
const ABOVE: f64 = 26.0;
const BELOW: f64 = 52.0;
const LEFT: f64 = 34.0;
const RIGHT: f64 = 40.0;
/// How high all of it is.
pub const HIGH: f64 = ABOVE + TALL + BELOW;

/// About the width of a digit, and how far a text's foot is below its middle.
const DIGIT: f64 = 7.5;
const FOOT: f64 = 4.5;
/// The most sums that have marks.
const MOST_MARKED: usize = 60;

const STYLE: &str = "\
.sum{fill:#e3ebf4;stroke:#1b5e9e}
.under{fill:#e3ebf4}
.line{fill:none;stroke:#1b5e9e;stroke-width:1.3;stroke-linejoin:round}
.dot{fill:none;stroke:#1b5e9e;stroke-linecap:round}
.total{fill:none;stroke:#c8501e;stroke-width:1.6;stroke-dasharray:7 4}
.total-name{fill:#c8501e;font-weight:bold}
.level{fill:none;stroke:#e4e4e4}
.tick{fill:none;stroke:#999}
.parts{fill:none;stroke:#999;stroke-dasharray:2 3}
.up{text-anchor:end}
.across,.title,.soft{text-anchor:middle}
.soft{fill:#777}
";

pub struct Frame {
    /// The numbers of sticks.
    pub across: Axis,
    /// Square samples.
    pub up: Axis,
    /// The lowest number of a vertical edge.
    pub verticals_from: usize,
}

impl Frame {
    pub fn page(&self) -> Page {
        Page { width: self.left() + WIDE + RIGHT + MARGIN, unit: 1.0, style: STYLE.into() }
    }

    /// How far the frame is from the page's left edge.
    fn left(&self) -> f64 {
        let longest = self.up.ticks().iter().map(|tick| tick.label.len()).max().unwrap_or(0);
        MARGIN + LEFT + DIGIT * longest as f64
    }

    fn x(&self, number: f64) -> f64 {
        round(WIDE * self.across.share(number))
    }

    /// Where so many square samples are; y grows downward on the page.
    fn y(&self, square_samples: f64) -> f64 {
        round(TALL * (1.0 - self.up.share(square_samples)))
    }

    /// The plot, from the head of the page on.
    pub fn draw(&self, curve: &Curve, areas: &Areas) -> String {
        let under = self.steps(curve, |column| vec![column.last]) + &format!("V{}z", self.y(0.0));
        let line = self.steps(curve, |column| vec![column.low, column.high, column.last]);
        let mut svg = format!("<g transform=\"translate({} {})\">\n", round(self.left()), HEAD + ABOVE);
        svg += &format!("<rect class=\"grid\" width=\"{}\" height=\"{}\"/>\n", WIDE, TALL);
        svg += &path("under", &under);
        svg += &self.axis_up();
        svg += &self.axis_across();
        svg += &self.parts();
        svg += &path("line", &line);
        svg += &self.marks(areas);
        svg + &self.total(areas) + "</g>\n"
    }

    /// A path from 0 by steps, each through these areas of its column, to the right side.
    fn steps(&self, curve: &Curve, through: impl Fn(&Column) -> Vec<Area>) -> String {
        let mut at = self.y(0.0);
        let mut steps = format!("M0 {}", at);
        for column in curve.columns() {
            steps += &format!("H{}", self.x(column.stick as f64));
            for y in through(column).into_iter().map(|area| self.y(area.square_samples())) {
                if y != at {
                    steps += &format!("V{}", y);
                }
                at = y;
            }
        }
        steps + &format!("H{}", WIDE)
    }

    fn axis_up(&self) -> String {
        let mut svg = String::new();
        for Tick { value, label } in self.up.ticks() {
            let y = self.y(value);
            svg += &path("level", &format!("M0 {}h{}", y, WIDE));
            svg += &path("tick", &format!("M0 {}h-5", y));
            svg += &text("up", -9.0, y, &label);
        }
        svg += &path("tick", &format!("M0 {}h{}", self.y(0.0), WIDE));
        let (x, y) = (round(MARGIN + 6.0 - self.left()), TALL / 2.0);
        svg + &format!(
            "<g transform=\"translate({} {}) rotate(-90)\">{}</g>\n",
            x,
            y,
            text("title", 0.0, 0.0, "area in square samples").trim_end()
        )
    }

    fn axis_across(&self) -> String {
        let mut svg = String::new();
        for Tick { value, label } in self.across.ticks() {
            let x = self.x(value);
            svg += &path("tick", &format!("M{} {}v5", x, TALL));
            svg += &text("across", x, TALL + 16.0, &label);
        }
        svg + &text("title", WIDE / 2.0, TALL + 38.0, "stick number")
    }

    /// Which numbers are those of horizontal sticks, and which of vertical ones.
    fn parts(&self) -> String {
        let x = self.x(self.verticals_from as f64);
        let name = |kind: &str, x: f64| text("soft", x, -12.0, &format!("{} sticks", kind));
        path("parts", &format!("M{} -20V{}", x, TALL)) + &name("horizontal", x / 2.0) + &name("vertical", (x + WIDE) / 2.0)
    }

    /// A mark at each sum, if there are few.
    fn marks(&self, areas: &Areas) -> String {
        if areas.sums.is_empty() || areas.sums.len() > MOST_MARKED {
            return String::new();
        }
        let mark = |sum: &Sum| format!("M{} {}h0", self.x(sum.stick as f64), self.y(sum.after.square_samples()));
        format!("<path class=\"dot\" stroke-width=\"5\" d=\"{}\"/>\n", areas.sums.iter().map(mark).collect::<String>())
    }

    fn total(&self, areas: &Areas) -> String {
        let y = self.y(areas.total.square_samples());
        path("total", &format!("M0 {}h{}", y, WIDE)) + &text("total-name", WIDE + 6.0, y, "total")
    }
}

fn path(class: &str, commands: &str) -> String {
    format!("<path class=\"{}\" d=\"{}\"/>\n", class, commands)
}

/// A text with its middle at this height.
fn text(class: &str, x: f64, y: f64, words: &str) -> String {
    format!("<text class=\"{}\" x=\"{}\" y=\"{}\">{}</text>\n", class, round(x), round(y + FOOT), words)
}
