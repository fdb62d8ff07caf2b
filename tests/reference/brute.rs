// Slow checks of drawn edges that share no geometry with the calls: points as X,
// Y and D, and what two segments have in common.

use crate::chord::Point;
use crate::layer::Layer;
use crate::pending::{by_loop, Order, Run};

/// "A point is X, Y and a D above 0, standing for X/D and Y/D in 1/256 of the
/// pitch."
#[derive(Clone, Copy)]
struct Spot {
    x: i128,
    y: i128,
    d: i128,
}

/// "Two are the same if they agree when multiplied out."
fn same(p: Spot, q: Spot) -> bool {
    p.x * q.d == q.x * p.d && p.y * q.d == q.y * p.d
}

fn spot(p: Point) -> Spot {
    Spot {
        x: p.x,
        y: p.y,
        d: 1,
    }
}

/// "A point lies on a segment if, multiplied out by D, its signed differences
/// from the two ends have cross product 0 and its coordinates lie between theirs,
/// ends included."
fn lies_on(p: Spot, a: Point, b: Point) -> bool {
    let (ax, ay) = (p.x - a.x * p.d, p.y - a.y * p.d);
    let (bx, by) = (p.x - b.x * p.d, p.y - b.y * p.d);
    ax * by - ay * bx == 0 && ax * bx <= 0 && ay * by <= 0
}

/// The points that lie on both segments: none, one, or two that stand for many.
fn common(a: Point, b: Point, c: Point, d: Point) -> Vec<Spot> {
    let (ux, uy) = (b.x - a.x, b.y - a.y);
    let (vx, vy) = (d.x - c.x, d.y - c.y);
    let det = ux * vy - uy * vx;
    let mut candidates = vec![spot(a), spot(b), spot(c), spot(d)];
    if det != 0 {
        // a + share / det of the way to b lies on the line through c and d.
        let share = (c.x - a.x) * vy - (c.y - a.y) * vx;
        let sign = det.signum();
        let x = sign * (a.x * det + ux * share);
        let y = sign * (a.y * det + uy * share);
        candidates = vec![Spot {
            x,
            y,
            d: sign * det,
        }];
    }
    let mut found: Vec<Spot> = Vec::new();
    for p in candidates {
        if lies_on(p, a, b) && lies_on(p, c, d) && !found.iter().any(|&q| same(p, q)) {
            found.push(p);
        }
    }
    found
}

/// The two samples of an edge as points.
fn samples(layer: &Layer, number: usize) -> [Point; 2] {
    let point = |(c, r): (usize, usize)| Point {
        x: 256 * c as i128,
        y: 256 * r as i128,
    };
    let [a, b] = layer.edge(number).ends();
    [point(a), point(b)]
}

/// Does the segment meet the stick in one point that is neither of its samples?
pub fn crosses_once(layer: &Layer, a: Point, b: Point, stick: usize) -> bool {
    let [c, d] = samples(layer, stick);
    match common(a, b, c, d).as_slice() {
        [p] => !same(*p, spot(c)) && !same(*p, spot(d)),
        _ => false,
    }
}

/// The high byte of an entry is 0 for a kept vertex, 1 for a removed one, and 2 for one
/// that is kept and pinned.
fn kept(entry: u16) -> bool {
    entry & 255 != 0 && [0, 2].contains(&(entry >> 8))
}

fn pinned(entry: u16) -> bool {
    entry >> 8 == 2
}

/// Where the vertex of a stick lies: at its offset, in 1/256 of the way from one
/// sample to the other.
fn vertex(layer: &Layer, table: &[u16], stick: usize) -> Point {
    let [a, b] = samples(layer, stick);
    let offset = table[stick] as i128 & 255;
    let x = a.x + (b.x - a.x) / 256 * offset;
    let y = a.y + (b.y - a.y) / 256 * offset;
    Point { x, y }
}

/// The kept vertices of a contour in the order of its walk, in 1/256 of the pitch.
pub fn polygon(layer: &Layer, table: &[u16], contour: &[usize]) -> Vec<(i64, i64)> {
    let kept = contour.iter().filter(|&&stick| kept(table[stick]));
    let vertices = kept.map(|&stick| vertex(layer, table, stick));
    vertices.map(|p| (p.x as i64, p.y as i64)).collect()
}

/// A drawn edge: the sticks of its two kept vertices and the removed ones between.
pub struct Stroke {
    from: usize,
    to: usize,
    between: Vec<usize>,
}

/// The drawn edges of a contour: twice around it, vertex by vertex, from the
/// first kept one until that one comes again.
pub fn strokes(contour: &[usize], table: &[u16]) -> Vec<Stroke> {
    let is_kept = |stick: usize| kept(table[stick]);
    let twice = contour.iter().chain(contour).copied();
    let mut strokes = Vec::new();
    let mut open: Option<Stroke> = None;
    for stick in twice.skip_while(|&stick| !is_kept(stick)) {
        match open.as_mut() {
            Some(stroke) if !is_kept(stick) => stroke.between.push(stick),
            Some(stroke) => stroke.to = stick,
            None => (),
        }
        if is_kept(stick) {
            let next = Stroke {
                from: stick,
                to: stick,
                between: Vec::new(),
            };
            strokes.extend(open.replace(next));
            if strokes
                .first()
                .map_or(false, |first: &Stroke| first.from == stick)
            {
                break;
            }
        }
    }
    strokes
}

fn ends(layer: &Layer, table: &[u16], stroke: &Stroke) -> [Point; 2] {
    [
        vertex(layer, table, stroke.from),
        vertex(layer, table, stroke.to),
    ]
}

/// "A layer is held if each contour has three kept vertices or more and each
/// drawn edge crosses every removed stick between its ends."
pub fn contour_is_held(layer: &Layer, contour: &[usize], table: &[u16]) -> bool {
    let drawn = strokes(contour, table);
    let kept = contour.iter().filter(|&&stick| kept(table[stick])).count();
    kept >= 3
        && drawn.iter().all(|edge| {
            let [a, b] = ends(layer, table, edge);
            edge.between
                .iter()
                .all(|&stick| crosses_once(layer, a, b, stick))
        })
}

/// The least whole T that the sticks between the ends of a drawn edge need, from
/// their vertices to where the edge meets them; nothing if it misses one.
fn least_tolerance(layer: &Layer, table: &[u16], drawn: &Stroke) -> Option<i128> {
    let [a, b] = ends(layer, table, drawn);
    let mut least = 0;
    for &stick in &drawn.between {
        let [c, d] = samples(layer, stick);
        if !crosses_once(layer, a, b, stick) {
            return None;
        }
        let (p, v) = (common(a, b, c, d)[0], vertex(layer, table, stick));
        let slide = (p.x - v.x * p.d).abs() + (p.y - v.y * p.d).abs();
        least = least.max((slide + p.d - 1) / p.d);
    }
    Some(least)
}

/// The least T with which an edit of this stick is done that leads to this table;
/// nothing if no T will do.
pub fn edit_tolerance(
    layer: &Layer,
    contour: &[usize],
    table: &[u16],
    stick: usize,
) -> Option<i128> {
    let drawn = strokes(contour, table);
    let mut redrawn = drawn
        .iter()
        .filter(|edge| edge.from == stick || edge.to == stick || edge.between.contains(&stick));
    redrawn.try_fold(0, |most, edge| {
        least_tolerance(layer, table, edge).map(|least| most.max(least))
    })
}

/// Does the run pass under T? It does not with a pinned vertex among the inner ones,
/// which are removed if it does.
fn remove_if_passing(
    layer: &Layer,
    contour: &[usize],
    table: &mut [u16],
    t: u8,
    (start, edges): Run,
) -> bool {
    let at = |i: usize| contour[i % contour.len()];
    let end = start + edges;
    let run = Stroke {
        from: at(start),
        to: at(end),
        between: (start + 1..end).map(at).collect(),
    };
    let has_pin = run.between.iter().any(|&stick| pinned(table[stick]));
    match least_tolerance(layer, table, &run) {
        Some(least) if least <= t as i128 && !has_pin => {
            for stick in run.between {
                table[stick] += 256;
            }
            true
        }
        _ => false,
    }
}

/// Simplify on one contour by Note 4's loop: how many runs wait whenever one is taken.
pub fn simplify(
    layer: &Layer,
    contour: &[usize],
    table: &mut [u16],
    t: u8,
    order: Order,
) -> Vec<usize> {
    by_loop(contour.len(), order, |run| {
        remove_if_passing(layer, contour, table, t, run)
    })
}

/// The offset of the vertex on a stick after it is drawn towards the segment from a to b,
/// which meets the stick at v / d: the whole number nearest to old + 2/5 of (v / d - old),
/// and of two that are equally near the one nearer to 128.
fn drawn_towards(layer: &Layer, a: Point, b: Point, stick: usize, old: i128) -> i128 {
    let [c, end] = samples(layer, stick);
    let p = common(a, b, c, end)[0];
    let (v, d) = (p.x - c.x * p.d + p.y - c.y * p.d, p.d);
    // 5 d times that number, to be compared with 5 d k.
    let fifths = 3 * d * old + 2 * v;
    let nearest = (0..=256).min_by_key(|&k| ((5 * d * k - fifths).abs(), (k - 128i128).abs()));
    nearest.expect("there are whole numbers")
}

/// A pass of Smooth along a contour whose vertices all stand in a table of plain offsets:
/// those on some sticks are passed over. The sum of the changes.
pub fn pass(
    layer: &Layer,
    contour: &[usize],
    offsets: &mut [u16],
    passed_over: impl Fn(usize) -> bool,
) -> u64 {
    let n = contour.len();
    let mut total = 0;
    for i in (0..n).filter(|&i| !passed_over(contour[i])) {
        let a = vertex(layer, offsets, contour[(i + n - 1) % n]);
        let b = vertex(layer, offsets, contour[(i + 1) % n]);
        let offset = &mut offsets[contour[i]];
        let new = drawn_towards(layer, a, b, contour[i], *offset as i128) as u16;
        total += new.abs_diff(*offset) as u64;
        *offset = new;
    }
    total
}

/// Contours pass between two adjacent samples once where they differ and never
/// where they agree: counting "different such points on both a drawn edge and the
/// segment from one sample to the other".
pub fn passes_once_between(layer: &Layer, drawn: &[Stroke], table: &[u16]) -> bool {
    (0..layer.edge_count()).all(|number| {
        let [c, d] = samples(layer, number);
        let mut points: Vec<Spot> = Vec::new();
        for edge in drawn {
            let [a, b] = ends(layer, table, edge);
            for p in common(a, b, c, d) {
                if !points.iter().any(|&q| same(p, q)) {
                    points.push(p);
                }
            }
        }
        points.len() == layer.is_stick(number) as usize
    })
}

/// Drawn edges that are not neighbours share no point; "two drawn edges are
/// neighbours if one ends at the kept vertex where the other begins", and these
/// share that one point only.
pub fn meet_at_vertices_only(layer: &Layer, drawn: &[Stroke], table: &[u16]) -> bool {
    (0..drawn.len()).all(|i| {
        (0..i).all(|j| {
            let [a, b] = ends(layer, table, &drawn[i]);
            let [c, d] = ends(layer, table, &drawn[j]);
            let neighbours = drawn[i].to == drawn[j].from || drawn[j].to == drawn[i].from;
            common(a, b, c, d).len() == neighbours as usize
        })
    })
}
