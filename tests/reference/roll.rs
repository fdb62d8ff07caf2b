// Roll: an edit roll of slides, removals and pins. The whole roll is looked at first
// (question 8), then each edit is put to the questions 9 to 13 and 16.

use crate::chord::{crosses, slides_at_most, vertex, Point};
use crate::contour::Contour;
use crate::hold::{ask_1_to_7, is_kept, is_pinned, offset, removed, vertex_of, State};
use crate::layer::{refuse, Edge, Layer, Refusal};

/// What an edit does to the stick it names.
#[derive(Clone, Copy, PartialEq, Eq)]
pub enum Action {
    Slide(u8),
    Remove,
    Pin,
}

/// One edit: its byte offset in the roll, the stick it names and what to do.
pub struct Edit {
    pub place: usize,
    pub stick: Edge,
    pub action: Action,
}

/// "A stick is kind (1 byte), column, row (16 bits each, low byte first)."
fn named_stick(bytes: &[u8]) -> Edge {
    let number = |i: usize| u16::from_le_bytes([bytes[i], bytes[i + 1]]) as usize;
    Edge {
        kind: bytes[0],
        c: number(1),
        r: number(3),
    }
}

/// Question 8: "Is the roll ... well formed to its last byte? (start of the first
/// command that is wrong, cut short, missing or extra)". "S (hex 53) and a stick
/// and an offset byte slides; X (hex 58) and a stick removes; E (hex 45) ends
/// the roll." Note 5: "A roll gains P (hex 50) and a stick, which pins a kept vertex".
pub fn edits(roll: &[u8]) -> Result<Vec<Edit>, Refusal> {
    let mut edits = Vec::new();
    let mut place = 0;
    loop {
        let rest = &roll[place..];
        let (action, length) = match rest.first() {
            Some(0x53) if rest.len() >= 7 => (Action::Slide(rest[6]), 7),
            Some(0x58) if rest.len() >= 6 => (Action::Remove, 6),
            Some(0x50) if rest.len() >= 6 => (Action::Pin, 6),
            Some(0x45) if rest.len() == 1 => return Ok(edits),
            Some(0x45) => return refuse(8, place + 1),
            _ => return refuse(8, place),
        };
        edits.push(Edit {
            place,
            stick: named_stick(&rest[1..6]),
            action,
        });
        place += length;
    }
}

/// A redrawn edge: its two ends and the removed sticks between.
struct Redrawn {
    from: Point,
    to: Point,
    between: Vec<usize>,
}

/// From position i on along the walk, forward or backward: the sticks of the
/// removed vertices, and the stick of the next kept vertex.
fn to_next_kept(contour: &[usize], table: &[u16], i: usize, forward: bool) -> (Vec<usize>, usize) {
    let n = contour.len();
    let mut removed = Vec::new();
    for step in 1..=n {
        let at = if forward { i + step } else { i + n - step };
        let stick = contour[at % n];
        if is_kept(table[stick]) {
            return (removed, stick);
        }
        removed.push(stick);
    }
    unreachable!("the vertex at position i is kept")
}

/// "Removal joins the two kept neighbours. A slide redraws the two edges at that
/// vertex." A pin redraws none.
fn redrawn(
    layer: &Layer,
    contour: &[usize],
    table: &[u16],
    i: usize,
    action: Action,
) -> Vec<Redrawn> {
    let (mut before, from) = to_next_kept(contour, table, i, false);
    let (after, to) = to_next_kept(contour, table, i, true);
    let from = vertex_of(layer, table, from);
    let to = vertex_of(layer, table, to);
    match action {
        Action::Slide(new) => {
            let slid = vertex(layer.edge(contour[i]), new);
            vec![
                Redrawn {
                    from,
                    to: slid,
                    between: before,
                },
                Redrawn {
                    from: slid,
                    to,
                    between: after,
                },
            ]
        }
        Action::Remove => {
            before.push(contour[i]);
            before.extend(after);
            vec![Redrawn {
                from,
                to,
                between: before,
            }]
        }
        Action::Pin => Vec::new(),
    }
}

/// Question 11: "Does each redrawn edge cross its removed sticks, the one being
/// removed included?"
fn all_cross(layer: &Layer, redrawn: &[Redrawn]) -> bool {
    redrawn.iter().all(|chord| {
        chord
            .between
            .iter()
            .all(|&stick| crosses(chord.from, chord.to, layer.edge(stick)))
    })
}

/// Question 12: "Is each such vertex within T?" From the offset that it has.
fn all_within(layer: &Layer, table: &[u16], redrawn: &[Redrawn], t: u8) -> bool {
    redrawn.iter().all(|chord| {
        chord.between.iter().all(|&stick| {
            let old = offset(table[stick]);
            slides_at_most(chord.from, chord.to, layer.edge(stick), old, t)
        })
    })
}

/// Questions 9 to 13 and 16 put to one edit, and the entry that it writes: "An accepted
/// edit writes the named stick's entry and no other." Note 5: "Refused: 16, a slide or
/// removal of a pinned vertex, after question 9 and before 10". "A pin on an already
/// pinned vertex is done and alters nothing"; after 9 no question stops a pin.
fn edit(
    layer: &Layer,
    contours: &[Contour],
    table: &mut [u16],
    edit: &Edit,
    t: u8,
) -> Result<(), Refusal> {
    if !layer.has_edge(edit.stick) || !is_kept(table[layer.number(edit.stick)]) {
        return refuse(9, edit.place);
    }
    let stick = layer.number(edit.stick);
    if is_pinned(table[stick]) && edit.action != Action::Pin {
        return refuse(16, edit.place);
    }
    if let Action::Slide(0) = edit.action {
        return refuse(10, edit.place);
    }
    let contour = contours.iter().find(|contour| contour.contains(&stick));
    let contour = contour.expect("each stick is on a contour");
    let i = contour
        .iter()
        .position(|&other| other == stick)
        .expect("it is on this one");
    let redrawn = redrawn(layer, contour, table, i, edit.action);
    if !all_cross(layer, &redrawn) {
        return refuse(11, edit.place);
    }
    if !all_within(layer, table, &redrawn, t) {
        return refuse(12, edit.place);
    }
    let kept = contour
        .iter()
        .filter(|&&stick| is_kept(table[stick]))
        .count();
    table[stick] = match edit.action {
        Action::Remove if kept - 1 < 3 => return refuse(13, edit.place),
        Action::Remove => removed(table[stick]),
        Action::Slide(new) => State::Free.at(new),
        Action::Pin => State::Pinned.at(offset(table[stick])),
    };
    Ok(())
}

/// "The answer is the commands done, E not counted." A refused roll has its
/// count done too.
pub struct Rolled {
    pub refusal: Option<Refusal>,
    pub done: u64,
}

/// Roll. Questions 1 to 8, then 9 to 13 and 16 for each command; "the whole roll passes
/// 8 before an edit is made."
pub fn roll(w: u16, h: u16, bitmap: &[u8], table: &mut [u16], t: u8, roll: &[u8]) -> Rolled {
    let asked = ask_1_to_7(w, h, bitmap, table);
    let asked = asked.and_then(|held| edits(roll).map(|edits| (held, edits)));
    let ((layer, contours), edits) = match asked {
        Ok(asked) => asked,
        Err(refusal) => {
            return Rolled {
                refusal: Some(refusal),
                done: 0,
            }
        }
    };
    let mut done = 0;
    for command in &edits {
        if let Err(refusal) = edit(&layer, &contours, table, command, t) {
            return Rolled {
                refusal: Some(refusal),
                done,
            };
        }
        done += 1;
    }
    Rolled {
        refusal: None,
        done,
    }
}
