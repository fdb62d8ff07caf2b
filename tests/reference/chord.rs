// Points, chords and where a chord meets a grid edge, in whole numbers and
// exact fractions of 1/256 of the pitch.

use crate::layer::Edge;

/// A point, in 1/256 of the pitch.
#[derive(Clone, Copy, PartialEq, Eq, Debug)]
pub struct Point {
    pub x: i128,
    pub y: i128,
}

/// An exact fraction; its denominator is above 0.
#[derive(Clone, Copy, Debug)]
pub struct Fraction {
    pub num: i128,
    pub den: i128,
}

/// "A vertex, kept or removed, lies on its stick at the offset its entry gives",
/// "in 1/256 of the pitch from (c,r)".
pub fn vertex(edge: Edge, offset: u8) -> Point {
    let (x, y) = (256 * edge.c as i128, 256 * edge.r as i128);
    match edge.kind {
        0 => Point {
            x: x + offset as i128,
            y,
        },
        _ => Point {
            x,
            y: y + offset as i128,
        },
    }
}

/// A point's coordinates along an edge (from its sample (c,r)) and across it.
fn along_and_across(p: Point, edge: Edge) -> (i128, i128) {
    let origin = vertex(edge, 0);
    match edge.kind {
        0 => (p.x - origin.x, p.y - origin.y),
        _ => (p.y - origin.y, p.x - origin.x),
    }
}

/// Where the segment from a to b meets the closed edge, if it meets it in one
/// point: that point's offset from (c,r), 0 to 256. Nothing if it does not meet
/// the edge, or runs along it.
pub fn meets(a: Point, b: Point, edge: Edge) -> Option<Fraction> {
    let (a_along, a_across) = along_and_across(a, edge);
    let (b_along, b_across) = along_and_across(b, edge);
    if a_across == b_across || a_across * b_across > 0 {
        return None;
    }
    // At the share a_across / (a_across - b_across) of the way from a to b.
    let whole = a_across - b_across;
    let met = a_along * whole + (b_along - a_along) * a_across;
    let (num, den) = if whole > 0 {
        (met, whole)
    } else {
        (-met, -whole)
    };
    if num < 0 || num > 256 * den {
        return None;
    }
    Some(Fraction { num, den })
}

/// "It crosses a stick if it meets it in one point strictly inside": the stick
/// is without its end samples, so the offset is above 0 and below 256.
pub fn crosses(a: Point, b: Point, edge: Edge) -> bool {
    match meets(a, b, edge) {
        Some(v) => v.num > 0 && v.num < 256 * v.den,
        None => false,
    }
}

/// "Each vertex there would slide at most T (in 1/256, compared exactly)": the
/// way from the offset to where the chord meets the stick.
pub fn slides_at_most(a: Point, b: Point, edge: Edge, offset: u8, t: u8) -> bool {
    match meets(a, b, edge) {
        Some(v) => (v.num - offset as i128 * v.den).abs() <= t as i128 * v.den,
        None => false,
    }
}
