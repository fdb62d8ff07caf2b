//! What is drawn inside the frame: contours from the planner's list, removed and pinned vertices from the table, samples.

use super::frame::Frame;
use crate::page::stroke;
use puzhenim::{Kind, Layer, Refusal, Vertex};

type Point = (i64, i64);

pub struct Shapes {
    /// In the order of the list, so that what lies within another is drawn over it.
    contours: Vec<Contour>,
    pub removed: Vec<Point>,
    pub pinned: Vec<Point>,
    pub outlines: usize,
    pub bores: usize,
}

struct Contour {
    points: Vec<Point>,
    kind: Kind,
}

impl Contour {
    /// The points are whole 1/256ths given in samples.
    fn of((points, kind): (&Vec<(f64, f64)>, Kind)) -> Contour {
        let points = points.iter().map(|(x, y)| ((x * 256.0) as i64, (y * 256.0) as i64)).collect();
        Contour { points, kind }
    }

    fn add_to(&self, path: &mut String) {
        let mut before = (0, 0);
        for (i, (x, y)) in self.points.iter().enumerate() {
            let letter = if i == 0 { 'M' } else { 'l' };
            *path += &format!("{}{} {}", letter, x - before.0, y - before.1);
            before = (*x, *y);
        }
        path.push('z');
    }
}

impl Shapes {
    pub fn of(layer: Layer, table: &[u16]) -> Result<Shapes, Refusal> {
        let contours: Vec<Contour> = layer.list(table)?.contours().iter().zip(layer.kinds()?).map(Contour::of).collect();
        let outlines = contours.iter().filter(|contour| contour.kind == Kind::Outline).count();
        let bores = contours.len() - outlines;
        let removed = points(layer, table, |vertex| !vertex.is_kept());
        let pinned = points(layer, table, Vertex::is_pinned);
        Ok(Shapes { contours, removed, pinned, outlines, bores })
    }

    /// How many vertices are kept, pinned or not.
    pub fn kept(&self) -> usize {
        self.contours.iter().map(|contour| contour.points.len()).sum()
    }

    pub fn draw(&self, layer: Layer, frame: &Frame) -> Result<String, Refusal> {
        let mut svg = self.paths(frame);
        if frame.marks_samples() {
            let (inside, outside) = samples(layer)?;
            svg += &dots("out", frame.pen(frame.mark(3.0)), outside);
            svg += &dots("in", frame.pen(frame.mark(3.0)), inside);
        }
        if frame.marks_vertices() {
            svg += &dots("removed", frame.pen(frame.mark(3.6)), self.removed.iter().copied());
            svg += &dots("kept-outline", frame.pen(frame.mark(6.0)), self.kept_on(Kind::Outline));
            svg += &dots("kept-bore", frame.pen(frame.mark(6.0)), self.kept_on(Kind::Bore));
            svg += &dots("pinned", frame.pen(frame.mark(8.0)), self.pinned.iter().copied());
        }
        Ok(svg)
    }

    /// The contours, as many of one kind in a path as follow each other: these have one depth, and none lies within another of them.
    fn paths(&self, frame: &Frame) -> String {
        let mut svg = String::new();
        let mut rest = &self.contours[..];
        while let Some(first) = rest.first() {
            let length = rest.iter().take_while(|contour| contour.kind == first.kind).count();
            let class = match first.kind {
                Kind::Outline => "outline",
                Kind::Bore => "bore",
            };
            svg += &format!("<path class=\"{}\" stroke-width=\"{}\" d=\"", class, frame.pen(frame.line()));
            let (drawn, left) = rest.split_at(length);
            drawn.iter().for_each(|contour| contour.add_to(&mut svg));
            svg += "\"/>\n";
            rest = left;
        }
        svg
    }

    fn kept_on(&self, kind: Kind) -> impl Iterator<Item = Point> + '_ {
        let contours = self.contours.iter().filter(move |contour| contour.kind == kind);
        contours.flat_map(|contour| contour.points.iter().copied())
    }
}

/// Where the vertices lie that the test holds of.
fn points(layer: Layer, table: &[u16], test: impl Fn(&Vertex) -> bool) -> Vec<Point> {
    let vertices = table.iter().enumerate().filter_map(|(number, entry)| match Vertex::of(*entry) {
        Some(vertex) if test(&vertex) => layer.edge(number).map(|edge| edge.point(vertex.offset())),
        _ => None,
    });
    vertices.map(|(x, y)| (i64::from(x), i64::from(y))).collect()
}

/// The inside and the outside samples.
fn samples(layer: Layer) -> Result<(Vec<Point>, Vec<Point>), Refusal> {
    let view = layer.view()?;
    let (mut inside, mut outside) = (Vec::new(), Vec::new());
    for row in 0..layer.height {
        for column in 0..layer.width {
            let samples = if view.sample(column, row) { &mut inside } else { &mut outside };
            samples.push((256 * i64::from(column), 256 * i64::from(row)));
        }
    }
    Ok((inside, outside))
}

/// A mark at each point, round unless its class has another style.
fn dots(class: &str, width: f64, points: impl IntoIterator<Item = Point>) -> String {
    let mut path = String::new();
    for (x, y) in points {
        path += &format!("M{} {}{}", x, y, stroke(class));
    }
    if path.is_empty() {
        return path;
    }
    format!("<path class=\"dot {}\" stroke-width=\"{}\" d=\"{}\"/>\n", class, width, path)
}
