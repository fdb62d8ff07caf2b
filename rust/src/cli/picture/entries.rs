//! What the legend says of the layer's picture: the contours with what they enclose, and the marks.

use super::frame::Frame;
use super::shapes::Shapes;
use crate::legend::{measured, total, Entry, Symbol};
use puzhenim::{Areas, Kind};

/// The contours with their areas, those of a kind summed up.
pub fn contours(shapes: &Shapes, areas: &Areas) -> Vec<Entry> {
    let mut entries = Vec::new();
    if shapes.outlines > 0 {
        let text = format!("outline, inside shaded, {}", measured("area", areas.sum_of(Kind::Outline)));
        entries.push(Entry { symbol: Symbol::Shape("outline"), text });
    }
    if shapes.bores > 0 {
        let text = format!("bore, {}", measured("area", areas.sum_of(Kind::Bore)));
        entries.push(Entry { symbol: Symbol::Shape("bore"), text });
    }
    if !areas.contours.is_empty() {
        entries.push(Entry { symbol: Symbol::Blank, text: total(areas.total) });
    }
    entries
}

/// The marks of samples and vertices.
pub fn marks(frame: &Frame, shapes: &Shapes) -> Vec<Entry> {
    let dot = |class, width, text: &str| Entry { symbol: Symbol::Dot(class, width), text: text.into() };
    let mut entries = Vec::new();
    if frame.marks_samples() {
        entries.push(dot("in", 4.0, "inside sample"));
        entries.push(dot("out", 4.0, "outside sample"));
    }
    // The mark at a pinned vertex covers that of a kept one.
    if frame.marks_vertices() && shapes.kept() > shapes.pinned.len() {
        entries.push(dot("kept-outline", 7.0, "kept vertex"));
    }
    if frame.marks_vertices() && !shapes.pinned.is_empty() {
        entries.push(dot("pinned", 8.0, "pinned vertex"));
    }
    if frame.marks_vertices() && !shapes.removed.is_empty() {
        entries.push(dot("removed", 5.0, "removed vertex"));
    }
    entries
}
