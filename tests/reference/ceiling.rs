// Note 8's ceiling on the runs that Simplify tries, of a contour and of a layer: rows of
// samples that reach it, for which the program `ceiling` answers too, and small and random
// layers, with the slow test of a run. And what the vectors of the note have to show.

use crate::brute;
use crate::builder::Builder;
use crate::cases::{call, traced, SINGLE};
use crate::contour::{contours, Contour};
use crate::hold::is_removed;
use crate::layer::{ask_1_to_4, Layer};
use crate::machine::Machine;
use crate::pending::Order;
use crate::picture;
use crate::script::{parse, Command};
use crate::sets::script;
use crate::sets_ceiling::{self, row, slides, DIAGONALS, LONGEST, MOST, SIZES};

/// "For a contour of n vertices the runs tried number at most 2×n-2".
fn of_contour(n: usize) -> usize {
    2 * n - 2
}

/// "For a layer at most twice the vertices minus twice the contours".
fn of_layer(vertices: usize, contours: usize) -> usize {
    2 * vertices - 2 * contours
}

/// The layer as traced and slid by the roll.
fn slid(layer: &Layer) -> Machine {
    let mut machine = traced(layer);
    let bytes = slides(layer);
    let answer = call(&mut machine, Command::Roll { t: 0, bytes });
    assert_eq!(answer.number, 0, "the slides of {:?}", layer);
    machine
}

/// Vertices and contours as Counts answers them.
fn counted(machine: &mut Machine) -> (usize, usize) {
    let figures = call(machine, Command::Counts).figures;
    (figures[1] as usize, figures[2] as usize)
}

/// Simplify's answer: the vertices removed and the runs tried. It is no refusal, so the layer
/// is held and every vertex kept.
fn simplified(machine: &mut Machine, t: u8) -> (usize, usize) {
    let answer = call(machine, Command::Simplify { t });
    assert_eq!(answer.number, 0, "Simplify at {}", answer.place);
    (answer.figures[0] as usize, answer.figures[1] as usize)
}

/// "For each even n from 4 to 12, one held layer with a single contour of n vertices, all kept
/// and slid where needed, that reaches the ceiling at T 0. A program prints n, a space and the
/// count, a line each."
pub fn lines() -> String {
    let line = |n: usize| {
        let mut machine = slid(&row(n));
        assert_eq!(counted(&mut machine), (n, 1), "the row for {}", n);
        let (_, tried) = simplified(&mut machine, 0);
        format!("{} {}\n", n, tried)
    };
    SIZES.into_iter().map(line).collect()
}

/// A Simplify that is done: the vertices and contours, its answer, and of each contour its
/// vertices, the runs tried and the vertices left.
struct Tries {
    vertices: usize,
    contours: usize,
    removed: usize,
    tried: usize,
    each: Vec<Try>,
}

/// A contour that is simplified alone, from the table as it was lent, by the slow test of a
/// run.
struct Try {
    vertices: usize,
    tried: usize,
    left: usize,
}

impl Try {
    fn new(layer: &Layer, walk: &Contour, mut table: Vec<u16>, t: u8) -> Try {
        let tried = brute::simplify(layer, walk, &mut table, t, Order::First).len();
        let kept = walk.iter().filter(|&&stick| !is_removed(table[stick]));
        Try {
            vertices: walk.len(),
            tried,
            left: kept.count(),
        }
    }

    /// Two runs are there at first, and each run that does not pass gives two more: if k pass,
    /// 2×k-2 are tried. Those that pass are the edges drawn in the end, one for each vertex
    /// left.
    fn is_right(&self) -> bool {
        self.tried <= of_contour(self.vertices) && self.tried == 2 * self.left - 2
    }

    fn figures(&self) -> (usize, usize) {
        (self.vertices, self.tried)
    }
}

impl Tries {
    fn new(machine: &mut Machine, t: u8) -> Tries {
        let layer = ask_1_to_4(machine.w, machine.h, &machine.bitmap).expect("a good bitmap");
        let lent = machine.table.clone();
        let alone = |walk: &Contour| Try::new(&layer, walk, lent.clone(), t);
        let each = contours(&layer).iter().map(alone).collect();
        let (vertices, contours) = counted(machine);
        let (removed, tried) = simplified(machine, t);
        Tries {
            vertices,
            contours,
            removed,
            tried,
            each,
        }
    }

    fn ceiling(&self) -> usize {
        of_layer(self.vertices, self.contours)
    }

    /// Is no contour above its ceiling, nor the layer, and is the layer's number the sum of
    /// the contours'?
    fn is_right(&self) -> bool {
        let sum = |figure: fn(&Try) -> usize| self.each.iter().map(figure).sum::<usize>();
        self.each.iter().all(Try::is_right)
            && self.tried <= self.ceiling()
            && self.tried == sum(|alone| alone.tried)
            && self.removed == self.vertices - sum(|alone| alone.left)
            && (self.vertices, self.contours) == (sum(|alone| alone.vertices), self.each.len())
    }

    fn reaches(&self) -> bool {
        self.tried == self.ceiling()
    }
}

/// The numbers of the note, and those of the rows as traced: up to n 10 these reach the ceiling
/// too, but for n 12 two runs of two edges lie along the row and pass.
fn numbers(wrong: &mut Vec<String>) {
    if lines() != "4 6\n6 10\n8 14\n10 18\n12 22\n" {
        wrong.push(format!("lines of the ceiling program: {:?}", lines()));
    }
    let as_traced = SIZES.map(|n| simplified(&mut traced(&row(n)), 0));
    if as_traced != [(0, 6), (0, 10), (0, 14), (0, 18), (2, 18)] {
        wrong.push(format!("rows as traced: {:?}", as_traced));
    }
}

/// Every row that a layer has room for reaches the ceiling at T 0 if it is slid; a hundred of
/// them and the longest one are tried by the slow test of a run too.
fn rows(wrong: &mut Vec<String>) {
    for samples in 1..=LONGEST {
        let n = 2 * samples + 2;
        let mut machine = slid(&row(n));
        let slowly = samples <= 100 || samples == LONGEST;
        let right = !slowly || Tries::new(&mut machine.clone(), 0).is_right();
        let found = (counted(&mut machine), simplified(&mut machine, 0));
        if !right || found != ((n, 1), (0, of_contour(n))) {
            wrong.push(format!("a row of {} samples: {:?}", samples, found));
        }
    }
}

/// "The single sample reaches it with 6", at every T, so that 2×n-3 is no ceiling. Two samples
/// on a diagonal try 12 at every T, so that 2×vertices-2, which is 14, is not the least.
fn at_every_tolerance(wrong: &mut Vec<String>) {
    let layers = [SINGLE, DIAGONALS[0], DIAGONALS[1]];
    for (rows, wanted) in layers.into_iter().zip([(4, 1, 6), (8, 2, 12), (8, 2, 12)]) {
        for t in 0..=255 {
            let tries = Tries::new(&mut traced(&picture::shown(rows)), t);
            let found = (tries.vertices, tries.contours, tries.tried);
            if !tries.is_right() || found != wanted {
                wrong.push(format!("{} at T {}: {:?}", rows, t, found));
            }
        }
    }
}

/// On how many layers the ceiling is reached and on how many it is not, with one contour and
/// with several.
#[derive(Default)]
struct Seen {
    one: [usize; 2],
    several: [usize; 2],
}

impl Seen {
    fn note(&mut self, wrong: &mut Vec<String>, tries: &Tries, what: impl Fn() -> String) {
        if !tries.is_right() {
            wrong.push(format!("runs tried, {}", what()));
        }
        let which = !tries.reaches() as usize;
        match tries.contours {
            0 => (),
            1 => self.one[which] += 1,
            _ => self.several[which] += 1,
        }
    }

    /// Is each met as often as this?
    fn expect(&self, wrong: &mut Vec<String>, least: usize) {
        let (one, several) = (self.one, self.several);
        if one.into_iter().chain(several).any(|times| times < least) {
            wrong.push(format!(
                "ceilings reached and not: {:?} with one contour, {:?} with several",
                one, several
            ));
        }
    }
}

/// Every layer of 4 by 4 and of 5 by 5 as traced.
fn small_layers(wrong: &mut Vec<String>) {
    let mut seen = Seen::default();
    for layer in picture::every(4).chain(picture::every(5)) {
        for t in [0, 85, 86, 255] {
            let tries = Tries::new(&mut traced(&layer), t);
            seen.note(wrong, &tries, || format!("T {}: {:?}", t, layer));
        }
    }
    seen.expect(wrong, 100);
}

/// Random layers, as traced, slid, pinned and smoothed, under several tolerances.
fn random_layers(wrong: &mut Vec<String>, seed: u64) {
    let mut b = Builder::new(seed);
    let mut seen = Seen::default();
    for _ in 0..6000 {
        let layer = b.some_layer(20);
        b.traced(&layer);
        let sixteenths = b.rng.pick(&[0, 0, 1, 4, 16]);
        b.jitter(sixteenths);
        let pinned = b.rng.pick(&[0, 0, 1, 4]);
        b.pin(pinned);
        let limit = b.rng.pick(&[0, 0, 0, 1, 20]);
        b.add(Command::Smooth { limit });
        let t = b.rng.pick(&[0, 0, 1, 12, 64, 85, 86, 128, 255]);
        let before = b.machine.table.clone();
        let tries = Tries::new(&mut b.machine, t);
        seen.note(wrong, &tries, || {
            format!("T {}: {:?} {:?}", t, layer, before)
        });
    }
    seen.expect(wrong, 500);
}

/// A Simplify of the vectors: the slides done by the roll before it, 0 if there is none, its
/// tolerance, and the vertices and the runs tried of each contour.
type VectorCall = (u64, u8, Vec<(usize, usize)>);

/// The calls of the note's vectors, which come last in their set.
fn vector_calls(wrong: &mut Vec<String>) -> Vec<VectorCall> {
    let mut alone = Builder::new(0);
    sets_ceiling::ceiling(&mut alone);
    let commands = |bytes: &[u8]| parse(bytes).expect("a set is a good script");
    let count = commands(&alone.finish()).len();
    let all = commands(&script("simplify", None).expect("the set has this name"));
    let (mut machine, mut slides, mut calls) = (Machine::default(), 0, Vec::new());
    for command in &all[all.len() - count..] {
        if let Command::Simplify { t } = *command {
            let tries = Tries::new(&mut machine, t);
            if !tries.is_right() {
                wrong.push(format!("vector: T {}, {} runs tried", t, tries.tried));
            }
            calls.push((slides, t, tries.each.iter().map(Try::figures).collect()));
            continue;
        }
        slides = match (command, machine.run(command)) {
            (Command::Roll { .. }, Some(answer)) => answer.figures[0],
            _ => 0,
        };
    }
    calls
}

/// What the vectors are there for: the rows of the note, at T 0 at the ceiling and at T 255 not,
/// but for the single sample; the row of five as traced; two samples on either diagonal; two
/// rows, which reach the layer's ceiling at T 0; a ring of which the bore alone reaches its
/// ceiling as traced, and both contours slid; and the longest row.
fn vectors_show(wrong: &mut Vec<String>) {
    let wanted = [
        (0, 0, vec![(4, 6)]),
        (0, 255, vec![(4, 6)]),
        (2, 0, vec![(6, 10)]),
        (2, 255, vec![(6, 6)]),
        (2, 0, vec![(8, 14)]),
        (2, 255, vec![(8, 6)]),
        (4, 0, vec![(10, 18)]),
        (4, 255, vec![(10, 6)]),
        (4, 0, vec![(12, 22)]),
        (4, 255, vec![(12, 6)]),
        (0, 0, vec![(12, 18)]),
        (0, 0, vec![(4, 6), (4, 6)]),
        (0, 255, vec![(4, 6), (4, 6)]),
        (0, 0, vec![(4, 6), (4, 6)]),
        (0, 255, vec![(4, 6), (4, 6)]),
        (6, 0, vec![(12, 22), (8, 14)]),
        (6, 255, vec![(12, 6), (8, 6)]),
        (0, 0, vec![(12, 14), (4, 6)]),
        (0, 0, vec![(12, 22), (4, 6)]),
        (1022, 0, vec![(MOST, 4090)]),
        (1022, 255, vec![(MOST, 6)]),
    ];
    let found = vector_calls(wrong);
    if found != wanted {
        wrong.push(format!("vectors of the ceiling: {:?}", found));
    }
}

/// What is wrong.
pub fn wrong(seed: u64) -> Vec<String> {
    let mut wrong = Vec::new();
    numbers(&mut wrong);
    rows(&mut wrong);
    at_every_tolerance(&mut wrong);
    small_layers(&mut wrong);
    random_layers(&mut wrong, seed);
    vectors_show(&mut wrong);
    wrong
}
