// The hold table: what an entry says, the drawn edges, whether a layer is held,
// and the questions 6, 7 and 15.

use crate::chord::{crosses, vertex, Point};
use crate::contour::{contours, Contour};
use crate::layer::{ask_1_to_5, refuse, Layer, Refusal};

/// What an entry says of the vertex on a stick. A free vertex and a pinned one are kept.
#[derive(Clone, Copy, PartialEq, Eq, Debug)]
pub enum State {
    Free,
    Removed,
    Pinned,
}

impl State {
    /// Question 6: "1 to 255 or 257 to 511", and Note 5: "Question 6 admits 513 to 767
    /// too." Nothing if no vertex has this entry.
    pub fn of(entry: u16) -> Option<State> {
        match entry {
            1..=255 => Some(State::Free),
            257..=511 => Some(State::Removed),
            513..=767 => Some(State::Pinned),
            _ => None,
        }
    }

    /// "1 to 255 for a kept vertex at that offset, 256 plus the offset for a removed
    /// vertex with the offset it last had", and Note 5: "A table entry of 512 plus offset
    /// is a kept and pinned vertex."
    pub fn at(self, offset: u8) -> u16 {
        let above = match self {
            State::Free => 0,
            State::Removed => 256,
            State::Pinned => 512,
        };
        above + offset as u16
    }
}

pub fn is_free(entry: u16) -> bool {
    State::of(entry) == Some(State::Free)
}

pub fn is_pinned(entry: u16) -> bool {
    State::of(entry) == Some(State::Pinned)
}

pub fn is_kept(entry: u16) -> bool {
    is_free(entry) || is_pinned(entry)
}

pub fn is_removed(entry: u16) -> bool {
    State::of(entry) == Some(State::Removed)
}

/// The offset of a vertex, whatever its state.
pub fn offset(entry: u16) -> u8 {
    (entry % 256) as u8
}

/// What becomes of the entry of a vertex that is removed, which only a free one is.
pub fn removed(entry: u16) -> u16 {
    assert!(is_free(entry), "a vertex with entry {} is removed", entry);
    State::Removed.at(offset(entry))
}

/// The point of the vertex on this stick, as its entry gives it.
pub fn vertex_of(layer: &Layer, table: &[u16], stick: usize) -> Point {
    vertex(layer.edge(stick), offset(table[stick]))
}

/// "A drawn edge joins two kept vertices with only removed ones between": the
/// sticks of its ends and those between, in the order of the walk.
pub struct Drawn {
    pub from: usize,
    pub to: usize,
    pub between: Vec<usize>,
}

/// The drawn edges of a contour, from its first kept vertex on, the one from
/// the last kept vertex to the first included.
pub fn drawn_edges(contour: &[usize], table: &[u16]) -> Vec<Drawn> {
    let n = contour.len();
    let kept: Vec<usize> = (0..n).filter(|&i| is_kept(table[contour[i]])).collect();
    let mut drawn = Vec::new();
    for (k, &start) in kept.iter().enumerate() {
        let end = if k + 1 < kept.len() {
            kept[k + 1]
        } else {
            kept[0] + n
        };
        let between = (start + 1..end).map(|i| contour[i % n]).collect();
        drawn.push(Drawn {
            from: contour[start],
            to: contour[end % n],
            between,
        });
    }
    drawn
}

/// "Each contour has three kept vertices or more and each drawn edge crosses
/// every removed stick between its ends."
pub fn contour_is_held(layer: &Layer, contour: &[usize], table: &[u16]) -> bool {
    let drawn = drawn_edges(contour, table);
    drawn.len() >= 3
        && drawn.iter().all(|edge| {
            let a = vertex_of(layer, table, edge.from);
            let b = vertex_of(layer, table, edge.to);
            edge.between
                .iter()
                .all(|&stick| crosses(a, b, layer.edge(stick)))
        })
}

/// Question 6: "Is each entry 0 off sticks, and 1 to 255 or 257 to 511 on them?
/// (lowest entry)", or 513 to 767.
fn ask_entries(layer: &Layer, table: &[u16]) -> Result<(), Refusal> {
    for (number, &entry) in table.iter().enumerate() {
        let good = match layer.is_stick(number) {
            true => State::of(entry).is_some(),
            false => entry == 0,
        };
        if !good {
            return refuse(6, number);
        }
    }
    Ok(())
}

/// Question 7: "Is the layer held? (first stick of the first contour that is
/// not)"
pub fn ask_held(layer: &Layer, contours: &[Contour], table: &[u16]) -> Result<(), Refusal> {
    match contours
        .iter()
        .find(|contour| !contour_is_held(layer, contour, table))
    {
        Some(contour) => refuse(7, contour[0]),
        None => Ok(()),
    }
}

/// Questions 1 to 7, in this order; the layer and its contours.
pub fn ask_1_to_7(
    w: u16,
    h: u16,
    bitmap: &[u8],
    table: &[u16],
) -> Result<(Layer, Vec<Contour>), Refusal> {
    let layer = ask_1_to_5(w, h, bitmap, table)?;
    ask_entries(&layer, table)?;
    let contours = contours(&layer);
    ask_held(&layer, &contours, table)?;
    Ok((layer, contours))
}

/// Question 15: "is every vertex kept? (lowest removed entry)"
pub fn ask_all_kept(table: &[u16]) -> Result<(), Refusal> {
    match table.iter().position(|&entry| is_removed(entry)) {
        Some(number) => refuse(15, number),
        None => Ok(()),
    }
}
