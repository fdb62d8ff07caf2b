//! What the marks of a picture mean: entries in rows, each a symbol and its text.

use crate::page::stroke;
use puzhenim::Area;

/// A row's height, about a letter's width and the gap between two entries, in pixels.
const ROW: f64 = 24.0;
const LETTER: f64 = 7.0;
const GAP: f64 = 26.0;

pub struct Legend {
    rows: Vec<Vec<Entry>>,
}

pub struct Entry {
    pub symbol: Symbol,
    pub text: String,
}

pub enum Symbol {
    /// A line of this class with what it encloses.
    Shape(&'static str),
    /// A line of this class.
    Line(&'static str),
    /// A mark of this class, so many pixels wide.
    Dot(&'static str, f64),
    /// None, where the text stands alone.
    Blank,
}

impl Symbol {
    /// How far the text is from the symbol's left.
    fn room(&self) -> f64 {
        match self {
            Symbol::Shape(_) | Symbol::Line(_) => 32.0,
            Symbol::Dot(..) => 14.0,
            Symbol::Blank => 0.0,
        }
    }
}

impl Entry {
    fn width(&self) -> f64 {
        self.symbol.room() + LETTER * self.text.len() as f64 + GAP
    }

    fn svg(&self, x: f64, y: f64) -> String {
        let symbol = match self.symbol {
            Symbol::Shape(class) => {
                format!("<rect class=\"{}\" stroke-width=\"2\" x=\"{}\" y=\"{}\" width=\"24\" height=\"12\"/>", class, x, y - 6.0)
            }
            Symbol::Line(class) => format!("<path class=\"{}\" d=\"M{} {}h24\"/>", class, x, y),
            Symbol::Dot(class, width) => {
                format!("<path class=\"dot {}\" stroke-width=\"{}\" d=\"M{} {}{}\"/>", class, width, x + 4.0, y, stroke(class))
            }
            Symbol::Blank => String::new(),
        };
        format!("{}<text x=\"{}\" y=\"{}\">{}</text>\n", symbol, x + self.symbol.room(), y + 4.5, self.text)
    }
}

impl Legend {
    /// The groups of entries, each in rows of its own that a page so wide has room for.
    pub fn of(width: f64, groups: Vec<Vec<Entry>>) -> Legend {
        Legend { rows: groups.into_iter().flat_map(|entries| in_rows(width, entries)).collect() }
    }

    pub fn height(&self) -> f64 {
        ROW * self.rows.len() as f64 + ROW / 2.0
    }

    pub fn svg(&self) -> String {
        let mut svg = String::new();
        for (row, entries) in self.rows.iter().enumerate() {
            let mut x = 0.0;
            for entry in entries {
                svg += &entry.svg(x, ROW * (row as f64 + 1.0));
                x += entry.width();
            }
        }
        svg
    }
}

fn in_rows(width: f64, entries: Vec<Entry>) -> Vec<Vec<Entry>> {
    let (mut rows, mut row, mut used) = (Vec::new(), Vec::new(), 0.0);
    for entry in entries {
        if !row.is_empty() && used + entry.width() > width {
            rows.push(std::mem::take(&mut row));
            used = 0.0;
        }
        used += entry.width();
        row.push(entry);
    }
    if !row.is_empty() {
        rows.push(row);
    }
    rows
}

/// An area or a sum of this name, in square samples and exactly.
pub fn measured(name: &str, area: Area) -> String {
    format!("{} {:.6} ({})", name, area.square_samples(), area.0)
}

/// The total, which says what the numbers are.
pub fn total(area: Area) -> String {
    format!("total {:.6} square samples ({} in 1/131072)", area.square_samples(), area.0)
}
