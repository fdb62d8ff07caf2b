// Note 5's pins against other readings of it: tables with their pins beside them, a slow
// Smooth, Simplify by the runs that pass without pins, sheets both ways, and lists of calls
// that leave pinned entries as they are.

use std::collections::BTreeMap;

use crate::brute;
use crate::builder::Builder;
use crate::cases::{call, traced, whole, SINGLE};
use crate::contour::{contours, Contour};
use crate::hold::{is_pinned, is_removed};
use crate::layer::Layer;
use crate::machine::Machine;
use crate::pending::{by_loop, Order};
use crate::picture::shown;
use crate::roll::Action;
use crate::script::Command;
use crate::sets_pins::{LIMITS, TOLERANCES};
use crate::simplify::Runs;
use crate::smooth::{joined, Smoothed};
use crate::test::stays_faithful;

type Wrong = Vec<String>;

/// What a pin adds to an entry: a bit that is set in no other good entry.
const PIN: u16 = 512;

/// A table of good entries taken apart: its entries without pins, and where it has pins.
pub struct Parted {
    pub plain: Vec<u16>,
    pub pinned: Vec<bool>,
}

impl Parted {
    pub fn new(table: &[u16]) -> Parted {
        Parted {
            plain: table.iter().map(|entry| entry & !PIN).collect(),
            pinned: table.iter().map(|entry| entry & PIN != 0).collect(),
        }
    }

    /// These entries with the pins.
    fn with_pins(&self, plain: &[u16]) -> Vec<u16> {
        let pins = self
            .pinned
            .iter()
            .map(|&pinned| if pinned { PIN } else { 0 });
        plain
            .iter()
            .zip(pins)
            .map(|(&entry, pin)| entry | pin)
            .collect()
    }
}

/// The machine with another table.
pub fn on(machine: &Machine, table: &[u16]) -> Machine {
    Machine {
        table: table.to_vec(),
        ..machine.clone()
    }
}

/// What a call answers on a copy of the machine, and the table that it leaves.
pub fn outcome(machine: &Machine, command: &Command) -> (Vec<u64>, Vec<u16>) {
    let mut machine = machine.clone();
    let answer = whole(call(&mut machine, command.clone()));
    (answer, machine.table)
}

/// Question 6 of each entry: on a stick 1 to 255, 257 to 511 (which the single sample is
/// not held with) and 513 to 767 are right, on another edge 0 alone.
fn every_entry(wrong: &mut Wrong) {
    let machine = traced(&shown(SINGLE));
    let command = Command::Roll {
        t: 0,
        bytes: vec![0x45],
    };
    for entry in 0..=u16::MAX {
        let on_stick = match (entry / 256, entry % 256) {
            (_, 0) | (3.., _) => [6, 7, 0],
            (1, _) => [7, 2, 0],
            _ => [0, 0, 0],
        };
        let off_sticks = if entry == 0 { [0, 0, 0] } else { [6, 5, 0] };
        for (number, wanted) in [(7, on_stick), (5, off_sticks)] {
            let mut machine = machine.clone();
            machine.table[number] = entry;
            if outcome(&machine, &command).0 != wanted {
                wrong.push(format!("question 6: entry {} at {}", entry, number));
            }
        }
    }
}

/// A layer with some vertices slid, so many of sixteen pinned, and some of the others
/// removed as far as it is held.
fn with_pins(b: &mut Builder, most: usize, sixteenths: usize, removed: usize) -> Layer {
    let layer = b.some_layer(most);
    b.traced(&layer);
    let slid = b.rng.pick(&[0, 4, 16]);
    b.jitter(slid);
    b.pin(sixteenths);
    b.thin(removed);
    layer
}

/// The same with pins and removals by chance.
fn held_layer(b: &mut Builder, most: usize) -> Layer {
    let sixteenths = b.rng.pick(&[1, 4, 8, 16]);
    let removed = b.rng.pick(&[0, 4, 12]);
    with_pins(b, most, sixteenths, removed)
}

/// The sheet, written by the plain entries and the pins.
fn sheet_of(layer: &Layer, contours: &[Contour], parted: &Parted) -> Vec<u8> {
    let number = |n: usize| (n as u16).to_le_bytes();
    let mut sheet = [
        vec![0x4C],
        number(layer.w).to_vec(),
        number(layer.h).to_vec(),
    ]
    .concat();
    for contour in contours {
        let first = layer.edge(contour[0]);
        sheet.extend([0x43, first.kind]);
        sheet.extend([number(first.c), number(first.r)].concat());
        for &stick in contour {
            let [offset, removed] = parted.plain[stick].to_le_bytes();
            sheet.push(match (removed, parted.pinned[stick]) {
                (_, true) => b'N',
                (0, false) => b'K',
                (_, false) => b'R',
            });
            sheet.push(offset);
        }
    }
    sheet.push(0x45);
    sheet
}

/// Calls that only look at vertices, some of which are refused by 14 or 15, on a table
/// without pins and its layer's so many contours.
fn looking(plain: &[u16], contours: usize) -> Vec<Command> {
    let kept = plain.iter().filter(|&&entry| entry != 0 && entry < 256);
    let (n, edges) = (contours as u32, kept.count() as u32);
    let (items, floats) = (edges + n, 2 * edges);
    let measured = |areas, sums| Command::Areas { areas, sums };
    let mut calls = vec![
        Command::Counts,
        measured(n, edges),
        measured(n - 1, edges),
        measured(n, edges - 1),
        Command::Planner { items, floats },
        Command::Planner {
            items: items - 1,
            floats,
        },
        Command::Smooth { limit: 0 },
    ];
    if plain.iter().any(|&entry| entry > 255) {
        calls.push(Command::Smooth { limit: 4 });
        calls.push(Command::Simplify { t: 255 });
    }
    calls
}

/// A pinned vertex "is a kept one": calls that only look at vertices answer as without pins,
/// also with 14 and 15, and a sheet differs in its letters.
fn as_kept(wrong: &mut Wrong, b: &mut Builder) {
    let mut refused = BTreeMap::new();
    for _ in 0..600 {
        let layer = held_layer(b, 12);
        let contours = contours(&layer);
        let parted = Parted::new(&b.machine.table);
        let plain = on(&b.machine, &parted.plain);
        let mut right = b.sheet() == sheet_of(&layer, &contours, &parted);
        for command in &looking(&plain.table, contours.len()) {
            let (answer, table) = outcome(&plain, command);
            *refused.entry(answer[0]).or_insert(0) += 1;
            right &= outcome(&b.machine, command) == (answer, parted.with_pins(&table));
        }
        if !right {
            wrong.push(format!("not as kept: {:?} {:?}", layer, b.machine.table));
        }
    }
    let numbers: Vec<u64> = refused.into_keys().collect();
    if numbers != [0, 14, 15] {
        wrong.push(format!("as kept: answers {:?}", numbers));
    }
}

/// Single edits. Of an edge without a kept vertex each is refused by 9. Else a pin is done
/// and sets the bit; a slide or a removal is refused by 16 if there is a pin, and goes as
/// on the table without pins if there is none.
fn edits(wrong: &mut Wrong, b: &mut Builder) {
    let mut refused = BTreeMap::new();
    for _ in 0..400 {
        let layer = held_layer(b, 9);
        let parted = Parted::new(&b.machine.table);
        let plain = on(&b.machine, &parted.plain);
        for _ in 0..30 {
            let number = b.rng.below(layer.edge_count());
            let slide = Action::Slide(b.rng.below(256) as u8);
            let zero = Action::Slide(0);
            let action = b
                .rng
                .pick(&[slide, slide, zero, Action::Remove, Action::Pin]);
            let bytes = [b.edit(number, action), vec![0x45]].concat();
            let t = b.rng.pick(&TOLERANCES);
            let command = Command::Roll { t, bytes };
            let mut pinned = b.machine.table.clone();
            pinned[number] |= PIN;
            let kept = parted.plain[number] != 0 && parted.plain[number] < 256;
            let wanted = match (kept, action, parted.pinned[number]) {
                (false, _, _) => (vec![9, 0, 0], b.machine.table.clone()),
                (true, Action::Pin, _) => (vec![0, 0, 1], pinned),
                (true, _, true) => (vec![16, 0, 0], b.machine.table.clone()),
                (true, _, false) => {
                    let (answer, table) = outcome(&plain, &command);
                    (answer, parted.with_pins(&table))
                }
            };
            *refused.entry(wanted.0[0]).or_insert(0) += 1;
            if outcome(&b.machine, &command) != wanted {
                let (table, wanted) = (&b.machine.table, &wanted.0);
                wrong.push(format!("{:?} wanted: {:?} {:?}", wanted, layer, table));
            }
        }
    }
    let numbers: Vec<u64> = refused.into_keys().collect();
    if numbers != [0, 9, 10, 11, 12, 16] {
        wrong.push(format!("edits: answers {:?}", numbers));
    }
}

/// Which vertices of a contour its total is held against: all of them, or, as it must not
/// be, those that are not pinned.
#[derive(Clone, Copy)]
pub enum Counted {
    All,
    Free,
}

/// Smooth by slow passes over the plain entries, which pass over the pinned ones.
pub fn slowly(
    layer: &Layer,
    walks: &[Contour],
    parted: &Parted,
    limit: u16,
    counted: Counted,
) -> (Vec<Smoothed>, Vec<u16>) {
    let pinned = |stick: usize| parted.pinned[stick];
    let mut plain = parted.plain.clone();
    let mut answers = Vec::new();
    for walk in walks {
        let vertices = match counted {
            Counted::All => walk.len(),
            Counted::Free => walk.iter().filter(|&&stick| !pinned(stick)).count(),
        };
        let (mut passes, mut total, mut settled) = (0, 0, vertices == 0);
        while !settled && passes < limit as u64 {
            total = brute::pass(layer, walk, &mut plain, pinned);
            passes += 1;
            settled = 1000 * total < 256 * vertices as u64;
        }
        answers.push(Smoothed {
            passes,
            total,
            settled,
        });
    }
    (answers, parted.with_pins(&plain))
}

/// Smooth against the slow one, with no pins, some, and all; of all pinned vertices one
/// pass is enough, and nothing moves.
fn smoothing(wrong: &mut Wrong, b: &mut Builder) {
    for i in 0..600 {
        let sixteenths = [0, 1, 4, 8, 15, 16][i % 6];
        let layer = with_pins(b, 11, sixteenths, 0);
        let walks = contours(&layer);
        let limit = b.rng.pick(&[0, 1, 2, 9, 30]);
        let parted = Parted::new(&b.machine.table);
        let (answers, table) = slowly(&layer, &walks, &parted, limit, Counted::All);
        let whole = joined(&answers);
        let figures = vec![0, 0, whole.passes, whole.total, whole.settled as u64];
        let found = outcome(&b.machine, &Command::Smooth { limit });
        let any = limit.min(1) as u64;
        let still = (vec![0, 0, any, 0, any], b.machine.table.clone());
        if found != (figures, table) || (sixteenths == 16 && found != still) {
            let (answer, table) = (&found.0, &b.machine.table);
            wrong.push(format!(
                "Smooth {}: {:?} {:?} {:?}",
                limit, answer, layer, table
            ));
        }
    }
}

/// Simplify by the runs that pass on the plain entries and have no pin strictly inside.
pub fn by_runs(layer: &Layer, walks: &[Contour], parted: &Parted, t: u8) -> (Vec<u64>, Vec<u16>) {
    let mut plain = parted.plain.clone();
    let (mut removed, mut tried) = (0, 0);
    for contour in walks {
        let runs = Runs { layer, contour, t };
        let n = contour.len();
        let waits = by_loop(n, Order::First, |(start, edges)| {
            let inner: Vec<usize> = (start + 1..start + edges).map(|i| contour[i % n]).collect();
            let passes = runs.passes(&parted.plain, start, edges)
                && inner.iter().all(|&stick| !parted.pinned[stick]);
            for &stick in inner.iter().filter(|_| passes) {
                plain[stick] += 256;
                removed += 1;
            }
            passes
        });
        tried += waits.len() as u64;
    }
    (vec![0, 0, removed, tried], parted.with_pins(&plain))
}

/// Simplify against the runs of the plain entries. With pins no vertex is removed that is
/// not removed without, and no fewer runs are tried; if all are pinned, single edges alone
/// pass.
fn simplifying(wrong: &mut Wrong, b: &mut Builder) {
    let mut fewer = 0;
    for i in 0..2000 {
        let sixteenths = [0, 1, 2, 4, 16][i % 5];
        let layer = with_pins(b, 14, sixteenths, 0);
        let walks = contours(&layer);
        let t = b.rng.pick(&TOLERANCES);
        let parted = Parted::new(&b.machine.table);
        let plain = on(&b.machine, &parted.plain);
        let command = Command::Simplify { t };
        let (answer, table) = outcome(&b.machine, &command);
        let (without, freely) = outcome(&plain, &command);
        let within = (0..table.len()).all(|n| !is_removed(table[n]) || is_removed(freely[n]));
        let sticks = walks.concat().len() as u64;
        let single_edges = [0, 0, 0, 2 * sticks - 2 * walks.len() as u64];
        let right = (answer.clone(), table) == by_runs(&layer, &walks, &parted, t)
            && within
            && answer[3] >= without[3]
            && (sixteenths != 16 || answer == single_edges)
            && (sixteenths != 0 || answer == without);
        if !right {
            let table = &b.machine.table;
            wrong.push(format!(
                "Simplify {}: {:?} {:?} {:?}",
                t, answer, layer, table
            ));
        }
        fewer += (answer[2] < without[2]) as usize;
    }
    if fewer < 500 {
        wrong.push(format!(
            "pins made a difference to Simplify {} times",
            fewer
        ));
    }
}

/// Sheets both ways, with vertices free, removed and pinned by chance: the sheet that a table
/// has is read as that table, over any other, and written again; if the layer is not held,
/// it is refused by 7.
fn sheets(wrong: &mut Wrong, b: &mut Builder) {
    let (mut read, mut refused) = (0, 0);
    for _ in 0..1500 {
        let layer = b.some_layer(9);
        b.traced(&layer);
        let walks = contours(&layer);
        let removed = b.rng.pick(&[0, 1, 1, 3]);
        let mut table = b.machine.table.clone();
        for stick in walks.concat() {
            let above = match b.rng.chance(removed, 16) {
                true => 256,
                false => b.rng.pick(&[0, PIN]),
            };
            table[stick] = b.rng.between(1, 255) as u16 + above;
        }
        let bytes = sheet_of(&layer, &walks, &Parted::new(&table));
        let any = b.rng.next() as u16;
        b.machine.table.fill(any);
        let before = b.machine.table.clone();
        let command = Command::ReadSheet {
            bytes: bytes.clone(),
        };
        let found = whole(call(&mut b.machine, command));
        let loose = walks
            .iter()
            .find(|walk| !brute::contour_is_held(&layer, walk, &table));
        let right = match loose {
            Some(walk) => found == [7, walk[0] as u64] && b.machine.table == before,
            None => found == [0, 0] && b.machine.table == table && b.sheet() == bytes,
        };
        if !right {
            wrong.push(format!("{:?}: sheet {:?} of {:?}", found, bytes, layer));
        }
        read += loose.is_none() as usize;
        refused += loose.is_some() as usize;
    }
    if read < 300 || refused < 300 {
        wrong.push(format!("{} sheets read, {} refused", read, refused));
    }
}

/// "Its offset is the same after any sequence that doesn't trace or read a sheet": is each
/// entry that is pinned in the one table the same in the other?
pub fn stay(before: &[u16], after: &[u16]) -> bool {
    let mut entries = before.iter().zip(after);
    entries.all(|(one, other)| !is_pinned(*one) || one == other)
}

/// A roll of edits of any edges, which now and then is not well formed.
fn any_roll(b: &mut Builder) -> Vec<u8> {
    let (sticks, edges) = (b.sticks(), b.machine.table.len());
    let mut bytes = Vec::new();
    for _ in 0..b.rng.between(1, 6) {
        let (stick, edge) = (b.rng.pick(&sticks), b.rng.below(edges));
        let number = b
            .rng
            .pick(&[stick, stick, stick, stick, stick, stick, stick, edge]);
        let offset = b.rng.below(256) as u8;
        let slide = Action::Slide(b.rng.pick(&[offset, offset, offset, offset, 0]));
        let action = b
            .rng
            .pick(&[slide, slide, Action::Remove, Action::Remove, Action::Pin]);
        bytes.extend(b.edit(number, action));
    }
    if b.rng.chance(9, 10) {
        bytes.push(0x45);
    }
    bytes
}

/// A call that neither traces nor reads a sheet.
fn any_call(b: &mut Builder) -> Command {
    let t = b.rng.pick(&TOLERANCES);
    let n = b.rng.below(90) as u32;
    match b.rng.below(12) {
        0 | 1 => Command::Smooth {
            limit: b.rng.pick(&LIMITS),
        },
        2 | 3 => Command::Simplify { t },
        4 => Command::WriteSheet { n },
        5 => Command::Planner {
            items: n,
            floats: 2 * n,
        },
        6 => Command::Counts,
        _ => Command::Roll {
            t,
            bytes: any_roll(b),
        },
    }
}

/// Entries of all sorts, which few calls accept.
fn scramble(b: &mut Builder) {
    for entry in &mut b.machine.table {
        *entry = b
            .rng
            .pick(&[0, 128, 256, 384, 512, 513, 640, 640, 767, 768, 65535]);
    }
}

/// Lists of calls, done, refused and stopped partway: what was pinned before any of them is
/// the same after each one that follows. On a held layer it stays faithful too, where a
/// pinned vertex is a kept one.
fn lists(wrong: &mut Wrong, b: &mut Builder) {
    let mut seen: BTreeMap<(u8, u64, bool), usize> = BTreeMap::new();
    for i in 0..600 {
        let layer = held_layer(b, 8);
        let held = i % 8 != 0;
        if !held {
            scramble(b);
        }
        let mut tables = vec![b.machine.table.clone()];
        for _ in 0..10 {
            let command = any_call(b);
            let answer = call(&mut b.machine, command.clone());
            let partway = answer.figures.first().map_or(false, |&done| done > 0);
            let kind = (command.letter(), answer.number, partway);
            *seen.entry(kind).or_insert(0) += 1;
            let now = &b.machine.table;
            let right = tables.iter().all(|before| stay(before, now));
            if !right || (held && !stays_faithful(&b.machine)) {
                wrong.push(format!("{:?} on {:?} {:?}", command, layer, tables.last()));
            }
            tables.push(now.clone());
        }
    }
    let mut wanted = vec![(b'S', 0, true), (b'S', 15, false), (b'S', 6, false)];
    wanted.extend([(b'Y', 0, true), (b'Y', 15, false), (b'Y', 6, false)]);
    wanted.extend([(b'R', 0, true), (b'R', 6, false), (b'R', 8, false)]);
    for number in [9, 10, 11, 12, 16] {
        wanted.extend([(b'R', number, false), (b'R', number, true)]);
    }
    for kind in wanted {
        if seen.get(&kind).map_or(true, |&times| times < 5) {
            wrong.push(format!("lists with pins: {:?} {:?}", kind, seen.get(&kind)));
        }
    }
}

/// What is wrong.
pub fn wrong(seed: u64) -> Vec<String> {
    let mut wrong = Vec::new();
    let mut b = Builder::new(seed);
    every_entry(&mut wrong);
    as_kept(&mut wrong, &mut b);
    edits(&mut wrong, &mut b);
    smoothing(&mut wrong, &mut b);
    simplifying(&mut wrong, &mut b);
    sheets(&mut wrong, &mut b);
    lists(&mut wrong, &mut b);
    wrong
}
