// Slow checks of the planner's list, which share nothing with the depths of the
// call: how often a contour winds around a sample, and what follows for the order.

use crate::brute::polygon;
use crate::contour::{contours, Contour};
use crate::hold::is_kept;
use crate::layer::Layer;
use crate::planner::planner;

/// The points of a contour in the list, x and y in samples.
type Points = Vec<(f64, f64)>;

/// The middle of each stick of a contour, in halves of the pitch.
fn middles(layer: &Layer, contour: &Contour) -> Vec<(i64, i64)> {
    let middle = |&stick: &usize| {
        let [a, b] = layer.edge(stick).ends();
        ((a.0 + b.0) as i64, (a.1 + b.1) as i64)
    };
    contour.iter().map(middle).collect()
}

/// How often a closed polygon winds around a point that is not on it: the edges that
/// pass a ray to the right, upward ones as plus one. The lower end of an edge belongs
/// to it, the upper one does not.
pub fn turns(polygon: &[(i64, i64)], (x, y): (i64, i64)) -> i64 {
    let after = polygon.iter().cycle().skip(1);
    let mut turns = 0;
    for (&(ax, ay), &(bx, by)) in polygon.iter().zip(after) {
        let left_of_edge = (bx - ax) * (y - ay) - (by - ay) * (x - ax);
        turns += (ay <= y && y < by && left_of_edge > 0) as i64;
        turns -= (by <= y && y < ay && left_of_edge < 0) as i64;
    }
    turns
}

/// The places of the other contours around the one at this place; nothing if the
/// ends of its sticks do not agree on them.
fn others_around(layer: &Layer, contours: &[Contour], place: usize) -> Option<Vec<usize>> {
    let polygons: Vec<Vec<(i64, i64)>> = contours
        .iter()
        .map(|contour| middles(layer, contour))
        .collect();
    let around = |(c, r): (usize, usize)| -> Vec<usize> {
        let sample = (2 * c as i64, 2 * r as i64);
        let others = (0..contours.len()).filter(|&other| other != place);
        others
            .filter(|&other| turns(&polygons[other], sample) != 0)
            .collect()
    };
    let sticks = contours[place].iter();
    let mut found = sticks
        .flat_map(|&stick| layer.edge(stick).ends())
        .map(around);
    let first = found.next()?;
    match found.all(|next| next == first) {
        true => Some(first),
        false => None,
    }
}

/// The list taken apart; nothing if it is not made of contours.
fn taken_apart(items: &[u8], floats: &[f64]) -> Option<Vec<Points>> {
    let mut floats = floats.chunks_exact(2).map(|point| (point[0], point[1]));
    let mut listed: Vec<Points> = Vec::new();
    let mut open = false;
    for item in items {
        match (item, open) {
            (0x4D, false) => listed.push(vec![floats.next()?]),
            (0x6C, true) => listed.last_mut()?.push(floats.next()?),
            (0x5A, true) => (),
            _ => return None,
        }
        open = *item != 0x5A;
    }
    match open || floats.next().is_some() {
        true => None,
        false => Some(listed),
    }
}

/// The kept vertices of a contour in the order of its walk.
fn points_of(layer: &Layer, table: &[u16], contour: &Contour) -> Points {
    polygon(layer, table, contour)
        .into_iter()
        .map(|(x, y)| (x as f64 / 256.0, y as f64 / 256.0))
        .collect()
}

/// The planner's list of a held layer, in outputs of the exact lengths.
fn list(layer: &Layer, table: &[u16], contours: usize) -> Option<Vec<Points>> {
    let kept = table.iter().filter(|&&entry| is_kept(entry)).count();
    let (mut items, mut floats) = (vec![0; kept + contours], vec![-1.0; 2 * kept]);
    let (w, h) = (layer.w as u16, layer.h as u16);
    let done = planner(w, h, &layer.bitmap(), table, &mut items, &mut floats);
    done.ok().and_then(|_| taken_apart(&items, &floats))
}

/// Where each contour stands in the list, if each stands there whole and once.
fn places(listed: &[Points], wanted: &[Points]) -> Option<Vec<usize>> {
    let only_place = |points: &Points| {
        let mut places = (0..listed.len()).filter(|&place| listed[place] == *points);
        places.next().filter(|_| places.next().is_none())
    };
    let places: Option<Vec<usize>> = wanted.iter().map(only_place).collect();
    places.filter(|places| places.len() == listed.len())
}

/// What is wrong with the planner's list of a held layer.
pub fn wrong_with(layer: &Layer, table: &[u16]) -> Option<&'static str> {
    let contours = contours(layer);
    let others: Option<Vec<Vec<usize>>> = (0..contours.len())
        .map(|place| others_around(layer, &contours, place))
        .collect();
    let points: Vec<Points> = contours
        .iter()
        .map(|contour| points_of(layer, table, contour))
        .collect();
    let others = match others {
        Some(others) => others,
        None => return Some("the ends of a contour's sticks lie within different contours"),
    };
    let listed = list(layer, table, contours.len());
    let places = match listed.and_then(|listed| places(&listed, &points)) {
        Some(places) => places,
        None => return Some("a contour does not stand in the list whole and once"),
    };
    let is_outline = |contour: &Contour| {
        let [west, _] = layer.edge(contour[0]).ends();
        !layer.sample(west.0, west.1)
    };
    let rank = |i: usize| (others[i].len(), contours[i][0]);
    let all = 0..contours.len();
    if all
        .clone()
        .any(|i| is_outline(&contours[i]) != (others[i].len() % 2 == 0))
    {
        return Some("an outline has odd depth, or a bore even depth");
    }
    if all
        .clone()
        .any(|i| others[i].iter().any(|&other| places[other] > places[i]))
    {
        return Some("a contour comes before one around it");
    }
    let mut ranked: Vec<usize> = all.collect();
    ranked.sort_by_key(|&i| rank(i));
    match ranked.iter().enumerate().all(|(at, &i)| places[i] == at) {
        true => None,
        false => Some("contours do not come by depth and first stick"),
    }
}
