//! The page that every picture stands on: its head with the name and a line of figures, what is drawn, and the legend. And what all of them
//! write alike: lengths, marks and counts.

use crate::legend::Legend;

pub const MARGIN: f64 = 16.0;
/// How far below the page's upper edge the drawing begins.
pub const HEAD: f64 = 66.0;

const STYLE: &str = "\
text{font-family:sans-serif;font-size:13px;fill:#333}
.name{font-size:17px;font-weight:bold}
.grid{fill:#fff;stroke:#ddd}
";

pub struct Page {
    pub width: f64,
    /// The factor by which all of it is enlarged.
    pub unit: f64,
    /// The style of what is drawn.
    pub style: String,
}

impl Page {
    /// The whole picture. What is drawn is so high, and stands below the head. All lengths but the outermost are multiplied by the unit.
    pub fn svg(&self, [name, figures]: [&str; 2], drawn: &str, high: f64, legend: &Legend) -> String {
        let height = HEAD + high + legend.height() + MARGIN;
        format!(
            "<svg xmlns=\"http://www.w3.org/2000/svg\" width=\"{}\" height=\"{}\" viewBox=\"0 0 {} {}\">\n<style>\n{}{}</style>\n\
             <rect width=\"100%\" height=\"100%\" fill=\"#fff\"/>\n\
             <text class=\"name\" x=\"{m}\" y=\"30\">{}</text>\n<text x=\"{m}\" y=\"51\">{}</text>\n\
             {}<g transform=\"translate({m} {})\">\n{}</g>\n</svg>\n",
            round(self.width * self.unit),
            round(height * self.unit),
            round(self.width),
            round(height),
            STYLE,
            self.style,
            escaped(name),
            figures,
            drawn,
            round(HEAD + high),
            legend.svg(),
            m = MARGIN,
        )
    }
}

/// Three decimals at most.
pub fn round(length: f64) -> f64 {
    (length * 1000.0).round() / 1000.0
}

/// The stroke of a mark of this class: a point. That of a square is a little longer, since not every program draws a square at a stroke that
/// has no direction.
pub fn stroke(class: &str) -> &'static str {
    match class {
        "pinned" => "h.1",
        _ => "h0",
    }
}

pub fn counted(count: usize, name: &str) -> String {
    format!("{} {}{}", count, name, if count == 1 { "" } else { "s" })
}

fn escaped(text: &str) -> String {
    text.replace('&', "&amp;").replace('<', "&lt;").replace('>', "&gt;")
}
