// The contours of a layer: sticks are linked square by square, without a
// direction; the orbits of the links are then turned to have inside on the left.

use crate::layer::{Edge, Layer};

/// The numbers of a contour's sticks in the order of its walk.
pub type Contour = Vec<usize>;

/// "Within a square of four samples the sixteen patterns say which sticks are
/// linked": two sticks on the sides of the square at (c,r) are linked with each
/// other; of four (a diagonal), "each inside corner is cut off alone", so the
/// two sides that meet in an inside corner are linked.
fn links_in_square(layer: &Layer, c: usize, r: usize) -> Vec<(usize, usize)> {
    let bottom = layer.number(Edge { kind: 0, c, r });
    let top = layer.number(Edge {
        kind: 0,
        c,
        r: r + 1,
    });
    let left = layer.number(Edge { kind: 1, c, r });
    let right = layer.number(Edge {
        kind: 1,
        c: c + 1,
        r,
    });
    let sides = [bottom, right, top, left];
    let sticks: Vec<usize> = sides
        .iter()
        .copied()
        .filter(|&side| layer.is_stick(side))
        .collect();
    let corners = [
        (layer.sample(c, r), bottom, left),
        (layer.sample(c + 1, r), bottom, right),
        (layer.sample(c + 1, r + 1), top, right),
        (layer.sample(c, r + 1), top, left),
    ];
    match sticks.len() {
        0 => Vec::new(),
        2 => vec![(sticks[0], sticks[1])],
        _ => corners
            .iter()
            .filter(|corner| corner.0)
            .map(|corner| (corner.1, corner.2))
            .collect(),
    }
}

/// For every edge the sticks that it is linked with: two for a stick (one in
/// each of its two squares), none for another edge.
fn links(layer: &Layer) -> Vec<Vec<usize>> {
    let mut links = vec![Vec::new(); layer.edge_count()];
    for r in 0..layer.h - 1 {
        for c in 0..layer.w - 1 {
            for (a, b) in links_in_square(layer, c, r) {
                links[a].push(b);
                links[b].push(a);
            }
        }
    }
    links
}

/// "A contour is walked with inside on its left": does the inside end of the
/// stick `from` lie left of the way from its middle to the middle of `to`?
fn inside_on_left(layer: &Layer, from: usize, to: usize) -> bool {
    let middle = |edge: Edge| {
        let [(c, r), (c2, r2)] = edge.ends();
        ((c + c2) as i64, (r + r2) as i64)
    };
    let ends = layer.edge(from).ends();
    let inside = if layer.sample(ends[0].0, ends[0].1) {
        ends[0]
    } else {
        ends[1]
    };
    let (x, y) = middle(layer.edge(from));
    let (to_x, to_y) = middle(layer.edge(to));
    let (in_x, in_y) = (2 * inside.0 as i64, 2 * inside.1 as i64);
    (to_x - x) * (in_y - y) - (to_y - y) * (in_x - x) > 0
}

/// All sticks that are met on the way from `first` over `second` until `first`
/// comes again, each once.
fn orbit(links: &[Vec<usize>], first: usize, second: usize) -> Contour {
    let mut walk = vec![first];
    let (mut last, mut now) = (first, second);
    while now != first {
        walk.push(now);
        let next = if links[now][0] == last {
            links[now][1]
        } else {
            links[now][0]
        };
        last = now;
        now = next;
    }
    walk
}

/// "It starts at its lowest stick number, and contours are ordered by that
/// number."
pub fn contours(layer: &Layer) -> Vec<Contour> {
    let links = links(layer);
    let mut seen = vec![false; links.len()];
    let mut contours = Vec::new();
    for stick in 0..links.len() {
        if !layer.is_stick(stick) || seen[stick] {
            continue;
        }
        let ways = [links[stick][0], links[stick][1]];
        let left = if inside_on_left(layer, stick, ways[0]) {
            ways[0]
        } else {
            ways[1]
        };
        let mut contour = orbit(&links, stick, left);
        for &met in &contour {
            seen[met] = true;
        }
        let lowest = (0..contour.len()).min_by_key(|&i| contour[i]).unwrap_or(0);
        contour.rotate_left(lowest);
        contours.push(contour);
    }
    contours.sort_by_key(|contour| contour[0]);
    contours
}
