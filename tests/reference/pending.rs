// Note 4's Simplify, a loop over pending runs, against the recursion of the paper's
// rule: what they leave, what they answer, and how many runs wait whenever one is
// taken. And what the vectors of the note have to show.

use crate::brute;
use crate::builder::Builder;
use crate::cases::{call, traced, SINGLE};
use crate::contour::{contours, Contour};
use crate::hold::{ask_1_to_7, is_removed};
use crate::layer::Layer;
use crate::machine::Machine;
use crate::picture;
use crate::script::{parse, Command};
use crate::sets::script;
use crate::sets_pending::{steps, SLID};
use crate::simplify::Runs;

/// A run of a contour: the place of its first vertex in the walk, and its edges.
pub type Run = (usize, usize);

/// "Its first part having half its edges rounded down." A contour is cut into its two
/// runs the same way, as if it were a run of all its edges.
fn parts((start, edges): Run) -> [Run; 2] {
    let half = edges / 2;
    [(start, half), (start + half, edges - half)]
}

/// Which of two parts is tried first.
#[derive(Clone, Copy)]
pub enum Order {
    First,
    Second,
}

/// "A loop over pending runs": the one on top is taken and tried; if it does not pass,
/// its two parts are put on top. The answer is how many runs wait whenever one is
/// taken, that one included.
pub fn by_loop(n: usize, order: Order, mut passes: impl FnMut(Run) -> bool) -> Vec<usize> {
    let placed = |[first, second]: [Run; 2]| match order {
        Order::First => [second, first],
        Order::Second => [first, second],
    };
    let mut pending = placed(parts((0, n))).to_vec();
    let mut waits = Vec::new();
    while let Some(&run) = pending.last() {
        waits.push(pending.len());
        pending.pop();
        if !passes(run) {
            pending.extend(placed(parts(run)));
        }
    }
    waits
}

/// The same numbers by the recursion, for a run that is tried while others wait: while
/// its first part is tried, its second part is one of those.
fn recurse(waits: &mut Vec<usize>, run: Run, others: usize, passes: &impl Fn(Run) -> bool) {
    waits.push(others + 1);
    if !passes(run) {
        let [first, second] = parts(run);
        recurse(waits, first, others + 1, passes);
        recurse(waits, second, others, passes);
    }
}

/// The numbers of a contour's two runs.
fn by_recursion(n: usize, passes: impl Fn(Run) -> bool) -> Vec<usize> {
    let [first, second] = parts((0, n));
    let mut waits = Vec::new();
    recurse(&mut waits, first, 1, &passes);
    recurse(&mut waits, second, 0, &passes);
    waits
}

fn most(waits: &[usize]) -> usize {
    waits.iter().copied().max().unwrap_or(0)
}

/// The most runs that can wait on a contour of n sticks: two at first, and one more for
/// each time that a run, and then the part of it that is tried first, is split. A first
/// part is half a run rounded down, a second part half rounded up.
fn bound(n: usize, order: Order) -> usize {
    let longest = n - n / 2;
    let splits = match order {
        Order::First => usize::BITS - 1 - longest.leading_zeros(),
        Order::Second => longest.next_power_of_two().trailing_zeros(),
    };
    2 + splits as usize
}

/// Where single edges alone pass, the numbers go by n, and the bounds are reached. An n is
/// even, as a contour goes from cell to cell and back to its first. 21 wait from 2^20
/// sticks on, and for as many as the largest layer has edges it is still 21; if second
/// parts come first it is 22.
fn by_size(wrong: &mut Vec<String>) {
    let edges = Layer::blank(1024, 1024).edge_count();
    let large = [(1 << 20) - 2, 1 << 20, (1 << 20) + 2, edges];
    let single = |(_, edges): Run| edges == 1;
    for n in (4..2100).step_by(2).chain(large) {
        let first = by_loop(n, Order::First, single);
        let second = by_loop(n, Order::Second, single);
        let right = first == by_recursion(n, single)
            && first.len() == 2 * n - 2
            && second.len() == 2 * n - 2
            && most(&first) == bound(n, Order::First)
            && most(&second) == bound(n, Order::Second);
        if !right {
            wrong.push(format!("runs that wait on {} sticks", n));
        }
    }
    let both = |n: usize| [bound(n, Order::First), bound(n, Order::Second)];
    let found = large.map(both);
    if found != [[20, 21], [21, 21], [21, 22], [21, 22]] {
        wrong.push(format!("bounds of the largest contours: {:?}", found));
    }
}

/// The numbers of the smallest contours, worked out by hand: on a single sample they are
/// the same in either order, on two samples they are not.
fn by_hand(wrong: &mut Vec<String>) {
    let both = |rows: &str, t: u8| {
        let layer = picture::shown(rows);
        let contour = contours(&layer).concat();
        [Order::First, Order::Second].map(|order| {
            let mut table = traced(&layer).table;
            brute::simplify(&layer, &contour, &mut table, t, order)
        })
    };
    let one = [2, 3, 2, 1, 2, 1];
    if both(SINGLE, 255) != [one, one] {
        wrong.push("runs that wait on a single sample".to_string());
    }
    let two = [
        [2, 3, 2, 3, 2, 1, 2, 1, 2, 1],
        [2, 3, 4, 3, 2, 1, 2, 3, 2, 1],
    ];
    if both(".... .##. ....", 0) != two {
        wrong.push("runs that wait on two samples".to_string());
    }
}

/// A Simplify that is done: its layer with the contours, the table before and after, and
/// its answer.
struct Done {
    t: u8,
    layer: Layer,
    walks: Vec<Contour>,
    before: Vec<u16>,
    after: Vec<u16>,
    answer: Vec<u64>,
}

/// A contour under Simplify: its first stick, how many it has, and how many runs wait
/// whenever one is taken.
struct Waits {
    first: usize,
    sticks: usize,
    list: Vec<usize>,
}

impl Waits {
    fn figures(&self) -> (usize, usize) {
        (self.sticks, most(&self.list))
    }
}

impl Done {
    /// Simplify on the machine, if it is not refused.
    fn new(machine: &mut Machine, t: u8) -> Option<Done> {
        let before = machine.table.clone();
        let answer = call(machine, Command::Simplify { t });
        if answer.number != 0 {
            return None;
        }
        let (layer, walks) = ask_1_to_7(machine.w, machine.h, &machine.bitmap, &before).ok()?;
        Some(Done {
            t,
            layer,
            walks,
            before,
            after: machine.table.clone(),
            answer: answer.figures,
        })
    }

    /// The contours one after the other by the loop, if it has the numbers of the
    /// recursion, within the bound, and comes to the same table and answer.
    fn by_loop(&self) -> Option<Vec<Waits>> {
        let (layer, t) = (&self.layer, self.t);
        let mut table = self.before.clone();
        let mut all = Vec::new();
        for contour in &self.walks {
            let runs = Runs { layer, contour, t };
            let (first, sticks) = (contour[0], contour.len());
            let list = by_loop(sticks, Order::First, |(start, edges)| {
                runs.remove_if_passing(&mut table, start, edges)
            });
            let passes = |(start, edges): Run| runs.passes(&self.before, start, edges);
            if list != by_recursion(sticks, passes) || most(&list) > bound(sticks, Order::First) {
                return None;
            }
            all.push(Waits {
                first,
                sticks,
                list,
            });
        }
        let removed = table.iter().filter(|&&entry| is_removed(entry)).count();
        let tried: usize = all.iter().map(|waits| waits.list.len()).sum();
        let same = table == self.after && self.answer == [removed as u64, tried as u64];
        same.then(|| all)
    }

    /// The loop in either order, with the slow test of a run: does it come to the same
    /// table, and to as many runs tried, those that wait within the bound? Answers besides
    /// whether other numbers wait if second parts come first.
    fn in_either_order(&self, all: &[Waits]) -> (bool, bool) {
        let (mut one, mut other) = (self.before.clone(), self.before.clone());
        let (mut same, mut differs) = (true, false);
        for (contour, waits) in self.walks.iter().zip(all) {
            let first = brute::simplify(&self.layer, contour, &mut one, self.t, Order::First);
            let second = brute::simplify(&self.layer, contour, &mut other, self.t, Order::Second);
            same &= first == waits.list
                && second.len() == first.len()
                && most(&second) <= bound(contour.len(), Order::Second);
            differs |= first != second;
        }
        (same && one == self.after && other == self.after, differs)
    }

    /// Is the bound reached on each outline? The first stick of an outline, a horizontal one,
    /// has its left sample outside, that of a bore inside.
    fn reaches_bound(&self, all: &[Waits]) -> bool {
        let outline = |waits: &&Waits| {
            let [(c, r), _] = self.layer.edge(waits.first).ends();
            !self.layer.sample(c, r)
        };
        all.iter()
            .filter(outline)
            .all(|waits| most(&waits.list) == bound(waits.sticks, Order::First))
    }
}

/// Random layers, as traced, slid, pinned and smoothed, under several tolerances. As traced,
/// pinned or not, and under T 0 the bound is reached on each outline: it bends at its second
/// vertex, so that no run from its first one on passes but a single edge.
fn random_layers(wrong: &mut Vec<String>, seed: u64) {
    let mut b = Builder::new(seed);
    let (mut reached, mut others) = (0, 0);
    for _ in 0..5000 {
        let layer = b.some_layer(20);
        b.traced(&layer);
        let sixteenths = b.rng.pick(&[0, 0, 1, 4, 16]);
        b.jitter(sixteenths);
        let pinned = b.rng.pick(&[0, 0, 1, 4]);
        b.pin(pinned);
        let limit = b.rng.pick(&[0, 0, 0, 1, 20]);
        b.add(Command::Smooth { limit });
        let t = b.rng.pick(&[0, 0, 1, 12, 64, 85, 86, 128, 255]);
        let done = Done::new(&mut b.machine, t).expect("every vertex is kept");
        let all = done.by_loop().unwrap_or_default();
        let (same, differs) = done.in_either_order(&all);
        let plain = (sixteenths, limit, t) == (0, 0, 0);
        if all.is_empty() || !same || (plain && !done.reaches_bound(&all)) {
            wrong.push(format!("T {}: {:?} {:?}", t, layer, done.before));
        }
        reached += plain as usize;
        others += differs as usize;
    }
    if reached < 150 || others < 2000 {
        wrong.push(format!(
            "the bound reached on {} layers, other numbers on {}",
            reached, others
        ));
    }
}

/// A serpentine of the largest size has 511 rows of 1,022 samples, 510 samples that join them
/// and one at its end, each next to the one before it: twice as many sticks and two more.
fn on_a_serpentine(wrong: &mut Vec<String>) {
    let mut machine = traced(&picture::serpentine(1024, 1024));
    let done = Done::new(&mut machine, 0).expect("every vertex is kept");
    let all = done.by_loop().unwrap_or_default();
    let found: Vec<(usize, usize)> = all.iter().map(Waits::figures).collect();
    if found != [(1_045_508, 20)] {
        wrong.push(format!("runs that wait on a serpentine: {:?}", found));
    }
}

/// The tolerance of each Simplify of the vectors that is done, and its contours.
fn vector_calls(wrong: &mut Vec<String>) -> Vec<(u8, Vec<Waits>)> {
    let bytes = script("simplify", None).expect("the set has this name");
    let mut machine = Machine::default();
    let mut calls = Vec::new();
    for command in parse(&bytes).expect("a set is a good script") {
        let t = match command {
            Command::Simplify { t } => t,
            _ => {
                machine.run(&command);
                continue;
            }
        };
        if let Some(done) = Done::new(&mut machine, t) {
            match done.by_loop() {
                Some(all) => calls.push((t, all)),
                None => wrong.push(format!("vector: T {}, {:?}", t, done.answer)),
            }
        }
    }
    calls
}

/// What the vectors are there for, each with one contour. At each step of the bound as many
/// runs wait as can under T 0; with few sticks also where single edges alone pass. On the
/// comb 21 wait, and 20 where its first two edges pass as one run. Of 347,481 samples in
/// its 681 slits each has four sticks, and a full layer has 4,088; but where a slit is open
/// one of its own and one of the layer's are missing, and two of each in the corner.
fn vectors_show(wrong: &mut Vec<String>) {
    let calls = vector_calls(wrong);
    let mut expect = |t: u8, figures: (usize, usize), single_edges: bool| {
        let found = calls.iter().any(|(at, all)| match all.as_slice() {
            [waits] => {
                let tried = waits.list.len();
                let right = !single_edges || tried == 2 * waits.sticks - 2;
                *at == t && waits.figures() == figures && right
            }
            _ => false,
        });
        if !found {
            wrong.push(format!("no vector: T {}, sticks and runs {:?}", t, figures));
        }
    };
    for (sticks, most) in steps() {
        expect(0, (sticks, most), false);
        if sticks <= SLID {
            expect(0, (sticks, most), true);
        }
    }
    expect(0, (1_392_648, 21), false);
    expect(255, (1_392_648, 20), false);
}

/// What is wrong.
pub fn wrong(seed: u64) -> Vec<String> {
    let mut wrong = Vec::new();
    by_size(&mut wrong);
    by_hand(&mut wrong);
    random_layers(&mut wrong, seed);
    on_a_serpentine(&mut wrong);
    vectors_show(&mut wrong);
    wrong
}
