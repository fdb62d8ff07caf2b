//! The layer and its contours as SVG. Shapes are in whole 1/256ths of the pitch, so that they are exact; one transform scales them.

mod entries;
mod frame;
mod shapes;

use crate::legend::Legend;
use crate::page::counted;
use frame::Frame;
use puzhenim::{Layer, Refusal};
use shapes::Shapes;

/// The picture, under this name.
pub fn draw(name: &str, layer: Layer, table: &[u16]) -> Result<String, Refusal> {
    let shapes = Shapes::of(layer, table)?;
    let frame = Frame::of(layer, !shapes.pinned.is_empty());
    let counts = layer.counts(table)?;
    let figures = format!(
        "{} × {} samples, {} inside; {}, {}; vertices: {} kept{}, {} removed",
        layer.width,
        layer.height,
        counts.inside,
        counted(shapes.outlines, "outline"),
        counted(shapes.bores, "bore"),
        shapes.kept(),
        of_these_pinned(shapes.pinned.len()),
        shapes.removed.len()
    );
    let page = frame.page();
    let legend = Legend::of(page.width, vec![entries::contours(&shapes, &layer.areas(table)?), entries::marks(&frame, &shapes)]);
    let grid = frame.grid(&page, &shapes.draw(layer, &frame)?);
    Ok(page.svg([name, &figures], &grid, frame.up(), &legend))
}

/// How many of the kept vertices are pinned, if any are.
fn of_these_pinned(count: usize) -> String {
    match count {
        0 => String::new(),
        _ => format!(" ({} pinned)", count),
    }
}
