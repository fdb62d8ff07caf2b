// Slow checks of the sums after each drawn edge, which share no arithmetic with the call:
// contours walked in any order from any vertex, each edge laid at the number of the stick
// where it starts. And what the vectors of Note 7 have to show.

use std::collections::BTreeMap;

use crate::areas_checks::{is_on, Found, Seen};
use crate::brute::polygon;
use crate::contour::Contour;
use crate::hold::{is_kept, is_removed};
use crate::layer::Layer;
use crate::order::turns;
use crate::prng::Rng;

type Spot = (i64, i64);

/// What each sum has more than the one before it.
fn added(sums: &[i64]) -> Vec<i64> {
    let before = [0].iter().chain(sums);
    sums.iter()
        .zip(before)
        .map(|(sum, last)| sum - last)
        .collect()
}

/// The sums of what is added, one after the other.
fn summed(added: impl Iterator<Item = i64>) -> Vec<i64> {
    let mut sum = 0;
    let after = |one: i64| {
        sum += one;
        sum
    };
    added.map(after).collect()
}

/// A drawn edge: the sticks and the vertices where it starts and ends.
#[derive(Clone, Copy)]
struct Joined {
    sticks: [usize; 2],
    ends: [Spot; 2],
}

impl Joined {
    /// Twice the triangle of the edge and the sample (0,0), above 0 if that lies left of it.
    fn adds(&self) -> i64 {
        let [(ax, ay), (bx, by)] = self.ends;
        let (to_x, to_y) = (0 - ax, 0 - ay);
        (bx - ax) * to_y - (by - ay) * to_x
    }
}

/// The drawn edges of a walk, from its first kept vertex on.
fn joined(layer: &Layer, table: &[u16], walk: &[usize]) -> Vec<Joined> {
    let sticks: Vec<usize> = walk
        .iter()
        .copied()
        .filter(|&s| is_kept(table[s]))
        .collect();
    let vertices = polygon(layer, table, walk);
    let n = sticks.len();
    let edge = |i: usize| Joined {
        sticks: [sticks[i], sticks[(i + 1) % n]],
        ends: [vertices[i], vertices[(i + 1) % n]],
    };
    (0..n).map(edge).collect()
}

/// The drawn edges of all contours by the number of the stick where they start, the contours
/// walked in any order and each from any of its sticks.
fn by_start(
    rng: &mut Rng,
    layer: &Layer,
    table: &[u16],
    walks: &[Contour],
) -> BTreeMap<usize, Joined> {
    let mut walks = walks.to_vec();
    rng.shuffle(&mut walks);
    let mut found = BTreeMap::new();
    for walk in &mut walks {
        let stick = rng.below(walk.len());
        walk.rotate_left(stick);
        let edges = joined(layer, table, walk);
        found.extend(edges.iter().map(|edge| (edge.sticks[0], *edge)));
    }
    found
}

/// Do the edges that start on a contour add up to its area?
fn adds_up(table: &[u16], walk: &Contour, added: &[i64], area: i64) -> bool {
    let below = |stick: usize| table[..stick].iter().filter(|&&entry| is_kept(entry));
    let kept = walk.iter().filter(|&&stick| is_kept(table[stick]));
    kept.map(|&stick| added[below(stick).count()]).sum::<i64>() == area
}

/// What is wrong with the sums of a held layer, if anything is: there is one for each kept
/// vertex; each adds what its edge adds; a contour's edges add its area.
pub fn wrong_sums(
    rng: &mut Rng,
    (layer, table): (&Layer, &[u16]),
    walks: &[Contour],
    found: &Found,
) -> Option<&'static str> {
    let kept = table.iter().filter(|&&entry| is_kept(entry)).count();
    let edges = by_start(rng, layer, table, walks);
    let added = added(&found.sums);
    let last = found.sums.last().copied().unwrap_or(0);
    let mut each = walks.iter().zip(&found.areas);
    let checks = [
        ("as many sums as kept vertices", found.sums.len() == kept),
        ("the last sum", last == found.total),
        (
            "the sums",
            summed(edges.values().map(Joined::adds)) == found.sums,
        ),
        (
            "a contour's sums",
            each.all(|(walk, &area)| adds_up(table, walk, &added, area)),
        ),
    ];
    checks
        .iter()
        .find(|(_, right)| !right)
        .map(|(what, _)| *what)
}

/// Twice the whole points within a triangle, and those on it, less 2, is twice its area, by
/// Pick's theorem; turns have its sign. On a line there is none within.
fn has_whole_points(edge: &Joined, adds: i64) -> bool {
    let [a, b] = edge.ends;
    let triangle = [(0, 0), a, b];
    let (mut within, mut on) = (0, 0);
    for y in 0..=a.1.max(b.1) {
        for x in 0..=a.0.max(b.0) {
            match is_on(&triangle, (x, y)) {
                true => on += 1,
                false => within += turns(&triangle, (x, y)),
            }
        }
    }
    match adds {
        0 => within == 0,
        _ => adds.abs() == 2 * within.abs() + on - 2 && within * adds >= 0,
    }
}

/// Does each sum add what its edge has of whole points between it and the sample (0,0)?
pub fn by_whole_points(layer: &Layer, table: &[u16], walks: &[Contour], sums: &[i64]) -> bool {
    let edges = by_start(&mut Rng(1), layer, table, walks);
    let mut each = edges.values().zip(added(sums));
    each.all(|(edge, adds)| has_whole_points(edge, adds))
}

/// Sums that the note does not ask for: over other orders, and taken at other times.
fn other_sums(layer: &Layer, table: &[u16], walks: &[Contour]) -> [(&'static str, Vec<i64>); 6] {
    let in_walks = walks.iter().flat_map(|walk| joined(layer, table, walk));
    let in_walks: Vec<Joined> = in_walks.collect();
    let by_key = |key: &dyn Fn(&Joined) -> usize| {
        let mut edges = in_walks.clone();
        edges.sort_by_key(key);
        summed(edges.iter().map(Joined::adds))
    };
    let right = by_key(&|edge| edge.sticks[0]);
    let before = [0].iter().chain(&right).take(right.len()).copied();
    let row = |edge: &Joined| {
        let start = layer.edge(edge.sticks[0]);
        start.r * layer.w + start.c
    };
    [
        (
            "contour by contour",
            summed(in_walks.iter().map(Joined::adds)),
        ),
        ("before each edge", before.collect()),
        (
            "by the stick where they end",
            by_key(&|edge| edge.sticks[1]),
        ),
        (
            "by the lower of both sticks",
            by_key(&|edge| edge.sticks[0].min(edge.sticks[1])),
        ),
        ("by rows, both kinds together", by_key(&row)),
        (
            "the highest number first",
            by_key(&|edge| usize::MAX - edge.sticks[0]),
        ),
    ]
}

/// Does an edge of another contour come between two of one?
fn is_interleaved(table: &[u16], walks: &[Contour]) -> bool {
    let mut of = vec![0; table.len()];
    for (i, walk) in walks.iter().enumerate() {
        walk.iter().for_each(|&stick| of[stick] = i);
    }
    let kept = (0..table.len()).filter(|&stick| is_kept(table[stick]));
    let mut runs: Vec<usize> = kept.map(|stick| of[stick]).collect();
    runs.dedup();
    runs.len() > walks.len()
}

/// Is the edge from a contour's last kept vertex to its first another than its last by number?
fn closes_early(table: &[u16], walk: &Contour) -> bool {
    let kept = walk.iter().copied().filter(|&stick| is_kept(table[stick]));
    let kept: Vec<usize> = kept.collect();
    kept.last() != kept.iter().max()
}

/// Counts what the sums of a layer show: which other sums they are not, and how they run.
pub fn note(seen: &mut Seen, (layer, table): (&Layer, &[u16]), walks: &[Contour], found: &Found) {
    for (what, other) in other_sums(layer, table, walks) {
        *seen.entry(what).or_insert(0) += (other != found.sums) as usize;
    }
    let sums = &found.sums;
    let inner = &sums[..sums.len().saturating_sub(1)];
    let removed = table.iter().any(|&entry| is_removed(entry));
    let met = [
        ("a sum below 0", inner.iter().any(|&sum| sum < 0)),
        (
            "a sum above the total",
            inner.iter().any(|&sum| sum > found.total),
        ),
        ("contours by turns", is_interleaved(table, walks)),
        (
            "removed vertices, by turns",
            removed && is_interleaved(table, walks),
        ),
        (
            "closed early",
            walks.iter().any(|walk| closes_early(table, walk)),
        ),
    ];
    for (what, is_met) in met {
        *seen.entry(what).or_insert(0) += is_met as usize;
    }
}

/// Counts what a call shows, on a layer that is held, with outputs of so many numbers.
pub fn note_call(seen: &mut Seen, found: &Found, room: [usize; 2], number: u64) {
    let (contours, edges) = (found.areas.len(), found.sums.len());
    let (n, m) = (room[0], room[1]);
    let (done, some) = (number == 0, contours > 0);
    let [short_areas, short_sums] = [n < contours, m < edges].map(|short| short && number == 14);
    let highest = found.sums.iter().max().map_or(0, |&sum| sum >> 32);
    let lowest = found.sums.iter().min().map_or(0, |&sum| sum >> 32);
    let met = [
        ("sum of 2^32 or above", done && highest > 0),
        ("sum below -2^32", done && lowest < -1),
        ("exact sums", done && some && m == edges),
        ("room for a sum more", done && some && m == edges + 1),
        ("a sum short", short_sums && n == contours && m + 1 == edges),
        (
            "an area short",
            short_areas && n + 1 == contours && m == edges,
        ),
        ("longer areas, short sums", short_sums && n > contours),
        ("short areas, longer sums", short_areas && m > edges),
        ("both short", short_areas && short_sums),
        ("no edge and no sums", done && !some && m == 0),
        ("no edge and room for sums", done && !some && m > 0),
        ("thousands of sums", done && edges > 2000),
    ];
    for (what, is_met) in met {
        *seen.entry(what).or_insert(0) += is_met as usize;
    }
}
