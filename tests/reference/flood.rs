// Slow checks of contours and counts: parts of the layer by flood filling, and
// each step of a walk looked at by itself.

use crate::layer::Layer;

/// The connected parts of the samples that are (or are not) inside: over the four
/// sides, or over the corners too.
fn parts(layer: &Layer, inside: bool, corners: bool) -> usize {
    let mut seen = vec![false; layer.w * layer.h];
    let mut parts = 0;
    for start in 0..seen.len() {
        if seen[start] || layer.sample(start % layer.w, start / layer.w) != inside {
            continue;
        }
        parts += 1;
        let mut open = vec![start];
        seen[start] = true;
        while let Some(at) = open.pop() {
            for near in layer.neighbours(at, corners) {
                if !seen[near] && layer.sample(near % layer.w, near / layer.w) == inside {
                    seen[near] = true;
                    open.push(near);
                }
            }
        }
    }
    parts
}

/// How many contours there are: since diagonal inside samples are not linked, one
/// around each inside part (over sides) and one around each outside part (over
/// corners) but the outermost.
pub fn contour_count(layer: &Layer) -> usize {
    parts(layer, true, false) + parts(layer, false, true) - 1
}

/// Inside samples and sticks, counted over the samples.
pub fn inside_and_sticks(layer: &Layer) -> (usize, usize) {
    let (mut inside, mut sticks) = (0, 0);
    for r in 0..layer.h {
        for c in 0..layer.w {
            let sample = layer.sample(c, r);
            inside += sample as usize;
            sticks += (c + 1 < layer.w && layer.sample(c + 1, r) != sample) as usize;
            sticks += (r + 1 < layer.h && layer.sample(c, r + 1) != sample) as usize;
        }
    }
    (inside, sticks)
}

/// Do two sticks bound a common square, and have they their inside sample in
/// common if its two inside samples lie on a diagonal?
fn linked(layer: &Layer, one: usize, other: usize) -> bool {
    let [a, b] = layer.edge(one).ends();
    let [c, d] = layer.edge(other).ends();
    let corners = [a, b, c, d];
    let columns = corners.iter().map(|corner| corner.0);
    let rows = corners.iter().map(|corner| corner.1);
    let (left, right) = (columns.clone().min().unwrap(), columns.max().unwrap());
    let (bottom, top) = (rows.clone().min().unwrap(), rows.max().unwrap());
    if right - left != 1 || top - bottom != 1 {
        return false;
    }
    let sample = |c, r| layer.sample(c, r);
    let diagonal = sample(left, bottom) == sample(right, top)
        && sample(right, bottom) == sample(left, top)
        && sample(left, bottom) != sample(right, bottom);
    let shared = [a, b].iter().copied().find(|&end| end == c || end == d);
    !diagonal || shared.map_or(false, |(c, r)| sample(c, r))
}

/// Is inside on the left when the stick `one` is walked through towards `other`?
/// Upward the left sample is the first end, downward the second; rightward it is
/// the second (the upper one), leftward the first.
fn keeps_inside_left(layer: &Layer, one: usize, other: usize) -> bool {
    let edge = layer.edge(one);
    let ends = layer.edge(other).ends();
    let (c, r) = match edge.kind {
        0 if ends.iter().any(|end| end.1 > edge.r) => edge.ends()[0],
        0 => edge.ends()[1],
        _ if ends.iter().any(|end| end.0 > edge.c) => edge.ends()[1],
        _ => edge.ends()[0],
    };
    layer.sample(c, r)
}

/// Each stick stands once in one contour; contours start at their lowest number
/// and are ordered by it; sticks that follow each other are linked, inside on the
/// left.
pub fn contours_are_right(layer: &Layer, contours: &[Vec<usize>]) -> bool {
    let mut all: Vec<usize> = contours.concat();
    all.sort_unstable();
    let sticks: Vec<usize> = (0..layer.edge_count())
        .filter(|&n| layer.is_stick(n))
        .collect();
    let firsts: Vec<usize> = contours.iter().map(|contour| contour[0]).collect();
    let walks = contours.iter().all(|contour| {
        let n = contour.len();
        contour.iter().min() == contour.first()
            && (0..n).all(|i| {
                let (one, other) = (contour[i], contour[(i + 1) % n]);
                linked(layer, one, other) && keeps_inside_left(layer, one, other)
            })
    });
    all == sticks && walks && firsts.windows(2).all(|pair| pair[0] < pair[1])
}
