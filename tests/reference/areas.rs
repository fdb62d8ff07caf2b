// Note 6, "metal per contour": twice the signed area of each contour, by the trapezoids of
// its kept vertices and again by the products along its drawn edges. Note 7, "area by stick
// number": the same products summed over the layer, and the sum after each drawn edge.

use crate::chord::Point;
use crate::contour::Contour;
use crate::hold::{ask_1_to_7, drawn_edges, is_kept, vertex_of, Drawn};
use crate::layer::{refuse, Layer, Refusal};

/// How many areas and how many sums were written, and the total: "the sum over contours",
/// "summed over drawn edges".
pub struct Measured {
    pub contours: usize,
    pub edges: usize,
    pub total: i64,
}

/// Twice the signed area of a closed polygon: each of its edges bounds a trapezoid
/// towards x = 0, which is added if the edge goes upward and taken away if it goes
/// downward.
fn by_trapezoids(points: &[Point]) -> i128 {
    let after = points.iter().cycle().skip(1);
    let doubled = |(a, b): (&Point, &Point)| (a.x + b.x) * (b.y - a.y);
    points.iter().zip(after).map(doubled).sum()
}

/// "In 1/256 of the pitch, an edge adds its start's X times its end's Y, less its end's X
/// times its start's Y."
fn product(layer: &Layer, table: &[u16], edge: &Drawn) -> i128 {
    let (a, b) = (
        vertex_of(layer, table, edge.from),
        vertex_of(layer, table, edge.to),
    );
    a.x * b.y - b.x * a.y
}

/// Areas and sums are far below 2^63.
fn in_64_bits(number: i128) -> i64 {
    i64::try_from(number).expect("a number of 64 bits")
}

/// "For each contour give twice its signed area, as a whole number of 1/65,536 of a
/// square pitch, from the kept vertices."
fn twice_area(layer: &Layer, table: &[u16], contour: &[usize]) -> i64 {
    let kept = contour.iter().filter(|&&stick| is_kept(table[stick]));
    let points: Vec<Point> = kept.map(|&stick| vertex_of(layer, table, stick)).collect();
    let area = by_trapezoids(&points);
    let drawn = drawn_edges(contour, table);
    let by_products: i128 = drawn.iter().map(|edge| product(layer, table, edge)).sum();
    assert_eq!(area, by_products, "of {:?}", contour);
    in_64_bits(area)
}

/// "Summed over drawn edges in the order of the number of the stick they start from": "the
/// sum after each edge".
fn running_sums(layer: &Layer, table: &[u16], contours: &[Contour]) -> Vec<i64> {
    let of_contour = |contour: &Contour| drawn_edges(contour, table);
    let mut drawn: Vec<Drawn> = contours.iter().flat_map(of_contour).collect();
    drawn.sort_by_key(|edge| edge.from);
    let mut sum = 0;
    let mut sums = Vec::new();
    for edge in &drawn {
        sum += product(layer, table, edge);
        sums.push(in_64_bits(sum));
    }
    sums
}

/// The areas in the order of the contours, and the sums. "These figures belong to held
/// layers only, so questions 1 to 7 stand before them"; then 14: "too short an output gives
/// 14". "The total must come out equal on every held layer."
pub fn areas(
    w: u16,
    h: u16,
    bitmap: &[u8],
    table: &[u16],
    areas: &mut [i64],
    sums: &mut [i64],
) -> Result<Measured, Refusal> {
    let (layer, contours) = ask_1_to_7(w, h, bitmap, table)?;
    let of_contours: Vec<i64> = contours
        .iter()
        .map(|contour| twice_area(&layer, table, contour))
        .collect();
    let after_edges = running_sums(&layer, table, &contours);
    let total = after_edges.last().copied().unwrap_or(0);
    assert_eq!(total, of_contours.iter().sum(), "of {:?}", contours);
    if areas.len() < of_contours.len() || sums.len() < after_edges.len() {
        return refuse(14, 0);
    }
    areas[..of_contours.len()].copy_from_slice(&of_contours);
    sums[..after_edges.len()].copy_from_slice(&after_edges);
    Ok(Measured {
        contours: of_contours.len(),
        edges: after_edges.len(),
        total,
    })
}
