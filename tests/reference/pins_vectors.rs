// What the vectors of Note 5 have to show beside the cases that are worked out by hand.

use crate::cases::whole;
use crate::contour::Contour;
use crate::hold::{ask_1_to_7, drawn_edges, is_pinned};
use crate::layer::Layer;
use crate::machine::Machine;
use crate::pins::{by_runs, on, outcome, slowly, Counted, Parted};
use crate::script::{parse, Command};
use crate::sets::script;
use crate::sets_pins::{LIMITS, TOLERANCES};
use crate::smooth::joined;

/// A call of the vectors, the machine before it, and what it answers and leaves.
struct Made {
    before: Machine,
    command: Command,
    answer: Vec<u64>,
    after: Vec<u16>,
}

impl Made {
    /// The layer and its contours, if the call found it held.
    fn held(&self) -> Option<(Layer, Vec<Contour>)> {
        let Machine {
            w,
            h,
            bitmap,
            table,
        } = &self.before;
        ask_1_to_7(*w, *h, bitmap, table).ok()
    }

    /// The limit of a Smooth that is done, and of each contour how many of its vertices are
    /// pinned, and how many there are.
    fn smoothed(&self) -> Option<(u16, Vec<(usize, usize)>)> {
        let limit = match self.command {
            Command::Smooth { limit } if self.answer[0] == 0 => limit,
            _ => return None,
        };
        let (_, walks) = self.held()?;
        let pinned = |walk: &Contour| {
            let pins = walk
                .iter()
                .filter(|&&stick| is_pinned(self.before.table[stick]));
            (pins.count(), walk.len())
        };
        Some((limit, walks.iter().map(pinned).collect()))
    }

    /// Is a Smooth or a Simplify that is done as by the other reading of pins?
    fn agrees(&self) -> bool {
        let (layer, walks) = match self.held() {
            Some(held) if self.answer[0] == 0 => held,
            _ => return true,
        };
        let parted = Parted::new(&self.before.table);
        let (answer, table) = match self.command {
            Command::Smooth { limit } => {
                let (answers, table) = slowly(&layer, &walks, &parted, limit, Counted::All);
                let whole = joined(&answers);
                let figures = vec![0, 0, whole.passes, whole.total, whole.settled as u64];
                (figures, table)
            }
            Command::Simplify { t } => by_runs(&layer, &walks, &parted, t),
            _ => return true,
        };
        answer == self.answer && table == self.after
    }

    /// How many vertices the first contour has that would have another number of passes, but
    /// not none, if the pinned ones did not count.
    fn count_matters(&self) -> Option<usize> {
        let (limit, _) = self.smoothed()?;
        let (layer, walks) = self.held()?;
        let parted = Parted::new(&self.before.table);
        let (all, _) = slowly(&layer, &walks, &parted, limit, Counted::All);
        let (free, _) = slowly(&layer, &walks, &parted, limit, Counted::Free);
        let others = |&i: &usize| free[i].passes > 0 && all[i].passes != free[i].passes;
        (0..walks.len()).find(others).map(|i| walks[i].len())
    }

    /// Of a Simplify that is done on a table with pins: how many fewer vertices are removed
    /// than without, and whether a run with a pinned end and inner vertices passes.
    fn simplified(&self) -> Option<(u64, bool)> {
        if !matches!(self.command, Command::Simplify { .. }) || self.answer[0] != 0 {
            return None;
        }
        let (_, walks) = self.held()?;
        let parted = Parted::new(&self.before.table);
        if !parted.pinned.contains(&true) {
            return None;
        }
        let (without, _) = outcome(&on(&self.before, &parted.plain), &self.command);
        let at_end = walks.iter().any(|walk| {
            let drawn = drawn_edges(walk, &self.after);
            drawn.iter().any(|edge| {
                let ends = [edge.from, edge.to];
                !edge.between.is_empty() && ends.iter().any(|&end| parted.pinned[end])
            })
        });
        Some((without[2] - self.answer[2], at_end))
    }

    /// Of a roll that is stopped by 16: what the command that stops it gets without pins, and
    /// whether it is the first.
    fn stopped(&self) -> Option<(u64, bool)> {
        let (t, bytes) = match &self.command {
            Command::Roll { t, bytes } if self.answer[0] == 16 => (*t, bytes),
            _ => return None,
        };
        let place = self.answer[1] as usize;
        let length = if bytes[place] == b'S' { 7 } else { 6 };
        let bytes = [&bytes[place..place + length], &[0x45]].concat();
        let parted = Parted::new(&self.after);
        let (answer, _) = outcome(
            &on(&self.before, &parted.plain),
            &Command::Roll { t, bytes },
        );
        Some((answer[0], place == 0))
    }
}

fn vector_calls() -> Vec<Made> {
    let bytes = script("pins", None).expect("the set has this name");
    let mut machine = Machine::default();
    let mut calls = Vec::new();
    for command in parse(&bytes).expect("a set is a good script") {
        let before = machine.clone();
        if let Some(answer) = machine.run(&command) {
            calls.push(Made {
                before,
                command,
                answer: whole(answer),
                after: machine.table.clone(),
            });
        }
    }
    calls
}

/// Something is wrong if no call shows this.
fn expect(wrong: &mut Vec<String>, calls: &[Made], what: String, shows: impl Fn(&Made) -> bool) {
    if !calls.iter().any(shows) {
        wrong.push(format!("no vector with pins: {}", what));
    }
}

/// With each limit a contour with some vertices pinned, and one with all. The short contour
/// and the long one that would have another number of passes if pinned vertices did not
/// count, with the figures that they have.
fn smooths(wrong: &mut Vec<String>, calls: &[Made]) {
    for limit in LIMITS {
        let among = |made: &Made, which: fn(usize, usize) -> bool| {
            let (at, pinned) = made.smoothed().unwrap_or_default();
            at == limit && pinned.iter().any(|&(pins, all)| which(pins, all))
        };
        expect(wrong, calls, format!("some, limit {}", limit), |made| {
            among(made, |pins, all| 0 < pins && pins < all)
        });
        expect(wrong, calls, format!("all, limit {}", limit), |made| {
            among(made, |pins, all| pins == all)
        });
    }
    for (vertices, answer) in [(4, [0, 0, 9, 1, 1]), (1002, [0, 0, 3, 256, 1])] {
        expect(wrong, calls, format!("they count: {}", vertices), |made| {
            made.answer == answer && made.count_matters() == Some(vertices)
        });
    }
}

/// With each tolerance a layer with pins; one on which fewer vertices are removed than
/// without them; and one where a run passes that has a pinned end.
fn simplifies(wrong: &mut Vec<String>, calls: &[Made]) {
    for t in TOLERANCES {
        expect(wrong, calls, format!("T {}", t), |made| {
            made.command == Command::Simplify { t } && made.simplified().is_some()
        });
    }
    let shown = |made: &Made| made.simplified().unwrap_or_default();
    expect(wrong, calls, "inside a run".to_string(), |made| {
        shown(made).0 > 1
    });
    expect(wrong, calls, "at an end".to_string(), |made| shown(made).1);
}

/// 16 of an edit that would be done without pins, and of one that 10, 11 or 12 would stop,
/// at the first command of a roll and at a later one.
fn rolls(wrong: &mut Vec<String>, calls: &[Made]) {
    for number in [0, 10, 11, 12] {
        for first in [true, false] {
            let what = format!("16 in place of {}, first: {}", number, first);
            expect(wrong, calls, what, |made| {
                made.stopped() == Some((number, first))
            });
        }
    }
}

/// What is wrong: a vector that does not agree with the other reading, or one that there
/// is not.
pub fn wrong() -> Vec<String> {
    let calls = vector_calls();
    let mut wrong = Vec::new();
    for made in calls.iter().filter(|made| !made.agrees()) {
        let (command, table) = (&made.command, &made.before.table);
        wrong.push(format!("vector: {:?} on {:?}", command, table));
    }
    smooths(&mut wrong, &calls);
    simplifies(&mut wrong, &calls);
    rolls(&mut wrong, &calls);
    wrong
}
