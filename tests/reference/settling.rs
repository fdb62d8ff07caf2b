// Note 3's Smooth against other readings of it: the paper's own on layers with one
// contour or none, passes over all contours by turns, any order of contours, and
// each contour by itself. And what the vectors of the note have to show.

use std::cmp::Ordering;

use crate::cases::{call, traced};
use crate::contour::{contours, Contour};
use crate::hold::{ask_1_to_7, offset, State};
use crate::layer::Layer;
use crate::machine::Machine;
use crate::picture;
use crate::prng::Rng;
use crate::script::{parse, Command};
use crate::sets::script;
use crate::sets_settling::LIMITS;
use crate::smooth::{
    joined, new_offset, pass, smooth_contour, smooth_each, smooth_former, Smoothed,
};

/// A layer as it is smoothed: its contours, and its table with every vertex kept, some of
/// them pinned or none.
struct Work {
    layer: Layer,
    walks: Vec<Contour>,
    table: Vec<u16>,
}

impl Work {
    /// The layer as traced, or with vertices slid anywhere.
    fn new(rng: &mut Rng, layer: Layer, slid: bool) -> Work {
        let mut work = Work {
            walks: contours(&layer),
            table: traced(&layer).table,
            layer,
        };
        if slid {
            let sticks: Vec<usize> = work.walks.concat();
            work.slide(rng, sticks);
        }
        work
    }

    fn slide(&mut self, rng: &mut Rng, sticks: impl IntoIterator<Item = usize>) {
        for stick in sticks {
            self.table[stick] = rng.between(1, 255) as u16;
        }
    }

    fn pin(&mut self, rng: &mut Rng, sixteenths: usize) {
        for stick in self.walks.concat() {
            if rng.chance(sixteenths, 16) {
                self.table[stick] = State::Pinned.at(offset(self.table[stick]));
            }
        }
    }

    /// What the call answers, and the table that it leaves.
    fn smoothed(&self, limit: u16) -> (Smoothed, Vec<u16>) {
        let mut machine = traced(&self.layer);
        machine.table = self.table.clone();
        let answer = call(&mut machine, Command::Smooth { limit });
        let figures = answer.figures;
        let smoothed = Smoothed {
            passes: figures[0],
            total: figures[1],
            settled: figures[2] == 1,
        };
        (smoothed, machine.table)
    }

    /// The answers of contours that are smoothed one after the other in this order, and
    /// the table that they leave.
    fn each(&self, walks: &[Contour], limit: u16) -> (Vec<Smoothed>, Vec<u16>) {
        let mut table = self.table.clone();
        let answers = smooth_each(new_offset, &self.layer, walks, &mut table, limit);
        (answers, table)
    }

    /// The paper's Smooth.
    fn former(&self, limit: u16) -> (Smoothed, Vec<u16>) {
        let mut table = self.table.clone();
        let answer = smooth_former(&self.layer, &self.walks, &mut table, limit);
        (answer, table)
    }

    /// Smooth by rounds: in each round, of which there are as many as the limit allows,
    /// every contour that is not yet settled gets one pass.
    fn by_rounds(&self, limit: u16) -> (Smoothed, Vec<u16>) {
        let mut table = self.table.clone();
        let mut last = vec![0; self.walks.len()];
        let mut open: Vec<usize> = (0..self.walks.len()).collect();
        let mut rounds = 0;
        while !open.is_empty() && rounds < limit {
            for &i in &open {
                last[i] = pass(new_offset, &self.layer, &self.walks[i], &mut table);
            }
            open.retain(|&i| 1000 * last[i] >= 256 * self.walks[i].len() as u64);
            rounds += 1;
        }
        let answer = Smoothed {
            passes: rounds as u64,
            total: last.iter().sum(),
            settled: open.is_empty(),
        };
        (answer, table)
    }
}

/// "Single-contour cases are unchanged, and a layer without contours answers as
/// before": on all layers of 4 by 4 and 5 by 5 and on random ones. With several
/// contours the answer or the table is another often enough.
fn as_before(wrong: &mut Vec<String>, rng: &mut Rng) {
    let mut layers: Vec<Layer> = picture::every(4).chain(picture::every(5)).collect();
    let small = layers.len();
    while layers.len() < small + 400 {
        let layer = match rng.below(3) {
            0 => picture::any(rng, 12),
            1 => picture::blocks(rng, 20),
            _ => picture::discs(rng, 24, 20, 2),
        };
        if contours(&layer).len() == 1 {
            layers.push(layer);
        }
    }
    layers.extend([(2, 2), (9, 3), (40, 30)].map(|(w, h)| Layer::blank(w, h)));
    layers.extend((0..100).map(|_| picture::any(rng, 12)));
    let (mut single, mut several, mut other) = (0, 0, 0);
    for layer in layers {
        for (limit, slid) in LIMITS
            .iter()
            .flat_map(|&limit| [(limit, false), (limit, true)])
        {
            let work = Work::new(rng, layer.clone(), slid);
            let same = work.smoothed(limit) == work.former(limit);
            match work.walks.len() {
                0 | 1 if same => single += 1,
                0 | 1 => wrong.push(format!("limit {}, not as before: {:?}", limit, work.layer)),
                _ => {
                    several += 1;
                    other += !same as usize;
                }
            }
        }
    }
    if single < 4000 || other < 200 {
        wrong.push(format!(
            "as before {} times, with several contours another answer {} times of {}",
            single, other, several
        ));
    }
}

/// What is wrong with Smooth on this layer at this limit.
fn wrong_with(rng: &mut Rng, work: &Work, limit: u16) -> Option<&'static str> {
    let (answers, table) = work.each(&work.walks, limit);
    let whole = (joined(&answers), table.clone());
    if work.smoothed(limit) != whole || work.by_rounds(limit) != whole {
        return Some("by rounds");
    }
    // "That order must be shown not to matter."
    let mut walks = work.walks.clone();
    walks.reverse();
    for _ in 0..4 {
        let (answers, table) = work.each(&walks, limit);
        if (joined(&answers), table) != whole {
            return Some("another order of contours");
        }
        rng.shuffle(&mut walks);
    }
    // "The pass limit holds for each": a contour that settles within it is as without.
    let (free, settled) = work.each(&work.walks, u16::MAX);
    for (i, walk) in work.walks.iter().enumerate() {
        let within = free[i].settled && free[i].passes <= limit as u64;
        let same = walk.iter().all(|&stick| table[stick] == settled[stick]);
        let right = if within {
            answers[i] == free[i] && same
        } else {
            answers[i].passes == limit as u64 && !answers[i].settled
        };
        if !right {
            return Some("the limit of a contour");
        }
    }
    by_itself(rng, work, limit, &answers, &table)
}

/// A contour that is smoothed alone, with the other contours' vertices anywhere,
/// comes out as with them, and no entry but its own is written.
fn by_itself(
    rng: &mut Rng,
    work: &Work,
    limit: u16,
    answers: &[Smoothed],
    table: &[u16],
) -> Option<&'static str> {
    for (walk, answer) in work.walks.iter().zip(answers) {
        let mut alone = Work {
            layer: work.layer.clone(),
            walks: Vec::new(),
            table: work.table.clone(),
        };
        let others = work.walks.concat().into_iter();
        alone.slide(rng, others.filter(|stick| !walk.contains(stick)));
        let mut after = alone.table.clone();
        let found = smooth_contour(new_offset, &alone.layer, walk, &mut after, limit);
        let right = (0..after.len()).all(|n| match walk.contains(&n) {
            true => after[n] == table[n],
            false => after[n] == alone.table[n],
        });
        if !right || found != *answer {
            return Some("a contour by itself");
        }
    }
    None
}

/// Random layers with many contours, and nested ones, each with a random limit, and with
/// pins too.
fn contours_apart(wrong: &mut Vec<String>, rng: &mut Rng) {
    let mut layers = picture::nested();
    layers.extend([
        picture::frames(16, 16),
        picture::lattice(5, 4),
        picture::holes(13, 12),
    ]);
    for _ in 0..100 {
        let sixteenths = rng.pick(&[3, 8, 12]);
        let (w, h) = (rng.between(8, 20), rng.between(8, 20));
        layers.push(picture::random(rng, w, h, sixteenths));
        let turned = rng.below(8);
        layers.push(picture::rings(rng, w, h, turned));
        layers.push(picture::discs(rng, 30, 30, 9));
    }
    let mut most = 0;
    for layer in layers {
        let slid = rng.chance(3, 4);
        let mut work = Work::new(rng, layer, slid);
        let pinned = rng.pick(&[0, 0, 2, 12]);
        work.pin(rng, pinned);
        most = most.max(work.walks.len());
        let limit = rng.pick(&[0, 1, 2, 5, 8, 9, 10, 11, 20, 65535]);
        if let Some(what) = wrong_with(rng, &work, limit) {
            let (layer, table) = (&work.layer, &work.table);
            wrong.push(format!(
                "{}: limit {}, {:?} {:?}",
                what, limit, layer, table
            ));
        }
    }
    if most < 30 {
        wrong.push(format!("at most {} contours", most));
    }
}

/// A contour in a Smooth of the vectors: its vertices, its answer at the call's
/// limit, and the passes that it takes without one.
#[derive(Clone, Copy)]
struct Part {
    vertices: usize,
    answer: Smoothed,
    takes: u64,
}

/// The limit of each Smooth of the vectors that is done, and the contours.
fn vector_calls() -> Vec<(u16, Vec<Part>)> {
    let bytes = script("smooth", None).expect("the set has this name");
    let mut machine = Machine::default();
    let mut calls = Vec::new();
    for command in parse(&bytes).expect("a set is a good script") {
        let Machine {
            w,
            h,
            bitmap,
            table,
        } = machine.clone();
        let answer = machine.run(&command);
        let limit = match (command, answer) {
            (Command::Smooth { limit }, Some(answer)) if answer.number == 0 => limit,
            _ => continue,
        };
        let (layer, walks) = ask_1_to_7(w, h, &bitmap, &table).expect("the call is done");
        let work = Work {
            layer,
            walks,
            table,
        };
        let (answers, _) = work.each(&work.walks, limit);
        let (free, _) = work.each(&work.walks, u16::MAX);
        let part = |i: usize| Part {
            vertices: work.walks[i].len(),
            answer: answers[i],
            takes: free[i].passes,
        };
        calls.push((limit, (0..answers.len()).map(part).collect()));
    }
    calls
}

/// Of a tiny contour and a long one, whether the tiny one comes first, and whether it
/// takes more passes or fewer.
fn tiny_one(parts: &[Part]) -> Option<(bool, Ordering)> {
    let far = |tiny: &Part, long: &Part| 40 * tiny.vertices <= long.vertices;
    match parts {
        [tiny, long] if far(tiny, long) => Some((true, tiny.takes.cmp(&long.takes))),
        [long, tiny] if far(tiny, long) => Some((false, tiny.takes.cmp(&long.takes))),
        _ => None,
    }
}

/// Do all contours take different numbers of passes, the most of them neither the
/// first nor the last?
fn all_different(parts: &[Part]) -> bool {
    let takes: Vec<u64> = parts.iter().map(|part| part.takes).collect();
    let mut sorted = takes.clone();
    sorted.sort_unstable();
    sorted.dedup();
    let most = sorted.last();
    sorted.len() == takes.len() && takes.first() != most && takes.last() != most
}

/// Is some contour at the bound, 1000×total = 256×vertices?
fn at_the_bound(parts: &[Part]) -> bool {
    parts
        .iter()
        .any(|part| 1000 * part.answer.total == 256 * part.vertices as u64)
}

/// Is some contour not settled, though all taken together would be?
fn drowned(parts: &[Part]) -> bool {
    let total: u64 = parts.iter().map(|part| part.answer.total).sum();
    let vertices: usize = parts.iter().map(|part| part.vertices).sum();
    1000 * total < 256 * vertices as u64 && parts.iter().any(|part| !part.answer.settled)
}

/// What the vectors are there for. With each limit: a tiny contour that goes on after
/// a long one is settled, and one that is settled while the long one goes on, first
/// in order and last; and ten contours that take different numbers of passes. Besides
/// a contour at the bound, beside another one with which it would be settled, and 31
/// contours which would be settled with 94 others.
fn vectors_show(wrong: &mut Vec<String>) {
    let calls = vector_calls();
    let mut expect = |limit: u16, what: &str, shows: &dyn Fn(&[Part]) -> bool| {
        if !calls.iter().any(|(at, parts)| *at == limit && shows(parts)) {
            wrong.push(format!("no vector with limit {}: {}", limit, what));
        }
    };
    for limit in LIMITS {
        for first in [true, false] {
            expect(limit, "a tiny contour goes on", &|parts| {
                tiny_one(parts) == Some((first, Ordering::Greater))
            });
            expect(limit, "a long contour goes on", &|parts| {
                tiny_one(parts) == Some((first, Ordering::Less))
            });
        }
        expect(limit, "different numbers of passes", &|parts| {
            parts.len() >= 10 && all_different(parts)
        });
    }
    expect(3, "a contour at the bound", &|parts| {
        at_the_bound(parts) && drowned(parts)
    });
    expect(1, "31 contours among others", &|parts| {
        let settled = parts.iter().filter(|part| part.answer.settled).count();
        drowned(parts) && (settled, parts.len()) == (94, 125)
    });
}

/// What is wrong.
pub fn wrong(rng: &mut Rng) -> Vec<String> {
    let mut wrong = Vec::new();
    as_before(&mut wrong, rng);
    contours_apart(&mut wrong, rng);
    vectors_show(&mut wrong);
    wrong
}
