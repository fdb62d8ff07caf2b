//! The area growing from stick to stick as SVG: the running sum over the numbers of sticks, and the total.

mod axis;
mod curve;
mod frame;

use crate::legend::{measured, total, Entry, Legend, Symbol};
use crate::page::counted;
use axis::Axis;
use curve::Curve;
use frame::Frame;
use puzhenim::{Areas, Layer, Sum};

/// The plot, under this name.
pub fn draw(name: &str, layer: Layer, areas: &Areas) -> String {
    let curve = Curve::of(&areas.sums, layer.edges());
    let (low, high) = curve.reach();
    let frame = Frame {
        across: Axis::exact(0.0, layer.edges() as f64),
        up: Axis::rounded(low.square_samples(), high.square_samples()),
        verticals_from: usize::from(layer.height) * (usize::from(layer.width) - 1),
    };
    let edges = counted(areas.sums.len(), "drawn edge");
    let figures = format!("{} × {} samples; {}, {}", layer.width, layer.height, counted(areas.contours.len(), "contour"), edges);
    let page = frame.page();
    let legend = Legend::of(page.width, vec![line_entries(&curve, areas), reach_entries(areas)]);
    let drawn = frame.draw(&curve, areas);
    page.svg([name, &figures], &drawn, frame::HIGH, &legend)
}

/// What the lines are.
fn line_entries(curve: &Curve, areas: &Areas) -> Vec<Entry> {
    let bundled = match curve.bundle {
        1 => String::new(),
        numbers => format!("; {} numbers a column, from the lowest to the highest of their sums", numbers),
    };
    let text = format!("sum after the drawn edge that starts from the stick{}", bundled);
    vec![Entry { symbol: Symbol::Shape("sum"), text }, Entry { symbol: Symbol::Line("total"), text: total(areas.total) }]
}

/// How high and how low the sum comes, and where.
fn reach_entries(areas: &Areas) -> Vec<Entry> {
    let highest = areas.sums.iter().rev().max_by_key(|sum| sum.after);
    let lowest = areas.sums.iter().min_by_key(|sum| sum.after);
    let entry =
        |name: &str, sum: &Sum| Entry { symbol: Symbol::Blank, text: format!("{} after stick {}", measured(name, sum.after), sum.stick) };
    highest.map(|sum| entry("highest sum", sum)).into_iter().chain(lowest.map(|sum| entry("lowest sum", sum))).collect()
}
