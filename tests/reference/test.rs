// The reference's own test: the paper's cases, random layers and calls against
// slow checks, and the sets of vectors.

use crate::areas_checks;
use crate::brute::{self, Stroke};
use crate::builder::Builder;
use crate::cases::{self, call, traced};
use crate::ceiling;
use crate::chord::{crosses, meets, vertex, Fraction, Point};
use crate::contour::contours;
use crate::depth::depths;
use crate::flood;
use crate::halves;
use crate::hold::{contour_is_held, is_kept, is_pinned, is_removed, offset, State};
use crate::layer::{ask_1_to_4, Layer};
use crate::machine::{answers, Machine};
use crate::order;
use crate::pending::{self, Order};
use crate::picture;
use crate::pins;
use crate::pins_vectors;
use crate::planner::planner;
use crate::prng::Rng;
use crate::roll::Action;
use crate::script::{parse, Command};
use crate::sets::{script, SETS};
use crate::settling;
use crate::smooth::{half_upward, new_offset, smooth_by};

/// What is wrong is collected here.
type Wrong = Vec<String>;

fn expect(wrong: &mut Wrong, right: bool, what: impl Fn() -> String) {
    if !right {
        wrong.push(what());
    }
}

/// A chord's meeting and crossing of an edge against the points of the segments.
fn chords(wrong: &mut Wrong, rng: &mut Rng) {
    let layer = Layer::blank(4, 4);
    for _ in 0..4000 {
        let mut end = || {
            let edge = layer.edge(rng.below(layer.edge_count()));
            let offset = rng.pick(&[1, 64, 128, 128, 192, 255]);
            vertex(edge, offset)
        };
        let (a, b) = (end(), end());
        if a == b {
            continue;
        }
        for number in 0..layer.edge_count() {
            let edge = layer.edge(number);
            let slow = brute::crosses_once(&layer, a, b, number);
            let fast = crosses(a, b, edge);
            expect(wrong, slow == fast, || {
                format!("crossing of {:?} by {:?} {:?}", edge, a, b)
            });
            let on_line = meets(a, b, edge)
                .map_or(true, |v| lies_on_line(a, b, v, vertex(edge, 0), edge.kind));
            expect(wrong, on_line, || {
                format!("meeting of {:?} by {:?} {:?}", edge, a, b)
            });
        }
    }
}

/// Does the point at offset v of the edge lie on the line through a and b?
fn lies_on_line(a: Point, b: Point, v: Fraction, origin: Point, kind: u8) -> bool {
    let along = if kind == 0 { (v.num, 0) } else { (0, v.num) };
    let x = origin.x * v.den + along.0 - a.x * v.den;
    let y = origin.y * v.den + along.1 - a.y * v.den;
    x * (b.y - a.y) == y * (b.x - a.x)
}

/// The new offset is the whole number nearest to x, and of two that are equally
/// near the one nearer to 128; where x is a half above 128 a half upward gives
/// another, elsewhere the same; old and v mirrored about 128 give it mirrored.
/// Answers whether x is a half below 128, and whether it is one above.
fn rounding(wrong: &mut Wrong, old: u8, v: Fraction) -> [bool; 2] {
    let (num, den) = (v.num, v.den);
    // 10 den x, to be compared with 10 den k.
    let x = 6 * den * old as i128 + 4 * num;
    let distance = |k: i128| (10 * den * k - x).abs();
    let new = new_offset(old, v);
    let near = (0..=256).min_by_key(|&k| (distance(k), (k - 128).abs()));
    let half = distance(new as i128) == 5 * den;
    let halves = [half && x < 1280 * den, half && x > 1280 * den];
    let mirrored = Fraction {
        num: 256 * den - num,
        den,
    };
    let right = near == Some(new as i128)
        && (1..=255).contains(&new)
        && (half_upward(old, v) != new) == halves[1]
        && new_offset((256 - old as u16) as u8, mirrored) as u16 == 256 - new as u16;
    expect(wrong, right, || {
        format!("rounding of {} towards {}/{}: {}", old, num, den, new)
    });
    halves
}

/// The rounding of random fractions, and of every half that an old offset can be
/// drawn to: v is (10 k + 5 - 6 old) / 4 for a half k + 1/2, also written over
/// another denominator.
fn roundings(wrong: &mut Wrong, rng: &mut Rng) {
    for _ in 0..4000 {
        let den = rng.pick(&[1, 2, 3, 4, 5, 128, 255, 511, 1000]);
        let num = rng.below(256 * den + 1) as i128;
        let den = den as i128;
        rounding(wrong, rng.between(1, 255) as u8, Fraction { num, den });
    }
    let mut seen = [0, 0];
    for old in 1..=255 {
        for k in 1..=254 {
            let fourths = 10 * k + 5 - 6 * old as i128;
            if !(0..=1024).contains(&fourths) {
                continue;
            }
            let times = rng.pick(&[1, 1, 32, 125]);
            let v = Fraction {
                num: times * fourths,
                den: times * 4,
            };
            let halves = rounding(wrong, old, v);
            expect(wrong, halves == [k < 128, k >= 128], || {
                format!("no half: {} towards {}/4", old, fourths)
            });
            seen = [seen[0] + halves[0] as usize, seen[1] + halves[1] as usize];
        }
    }
    expect(wrong, seen[0] > 10_000 && seen[1] > 10_000, || {
        format!("halves below and above 128: {:?}", seen)
    });
}

/// No layer comes to a half: random ones with vertices at random offsets are
/// smoothed as by a half upward.
fn no_halves(wrong: &mut Wrong, rng: &mut Rng) {
    for _ in 0..300 {
        let layer = picture::any(rng, 12);
        let mut machine = traced(&layer);
        for entry in machine.table.iter_mut().filter(|entry| **entry != 0) {
            *entry = rng.between(1, 255) as u16;
        }
        let mut table = machine.table.clone();
        let (w, h, limit) = (machine.w, machine.h, 20);
        let done = smooth_by(half_upward, w, h, &machine.bitmap, &mut table, limit).is_ok();
        call(&mut machine, Command::Smooth { limit });
        expect(wrong, done && machine.table == table, || {
            format!("a half on {:?}", layer)
        });
    }
}

/// The lines of the halves program as Note 2 has them: a half goes toward 128.
fn half_lines(wrong: &mut Wrong) {
    let line = |k: u32| {
        let new = if k < 128 { k + 1 } else { k };
        format!("{}.5 {} {} {} {}\n", k, new, new, new, new)
    };
    let wanted: String = (1..=254).map(line).collect();
    expect(wrong, halves::lines() == wanted, || {
        "lines of the halves program".to_string()
    });
}

/// Counts and contours against flood filling and plain counting.
fn counting(wrong: &mut Wrong, rng: &mut Rng) {
    for _ in 0..120 {
        let layer = picture::any(rng, 14);
        let walks = contours(&layer);
        expect(wrong, flood::contours_are_right(&layer, &walks), || {
            format!("contours of {:?}", layer)
        });
        let (inside, sticks) = flood::inside_and_sticks(&layer);
        let wanted = vec![
            inside as u64,
            sticks as u64,
            flood::contour_count(&layer) as u64,
        ];
        let found = call(&mut traced(&layer), Command::Counts).figures;
        expect(wrong, wanted == found, || {
            format!("counts of {:?}: {:?}", layer, found)
        });
    }
}

/// Whether the machine's table is faithful to its bitmap, which is good.
pub fn stays_faithful(machine: &Machine) -> bool {
    match ask_1_to_4(machine.w, machine.h, &machine.bitmap) {
        Ok(layer) => faithful(&layer, &machine.table),
        Err(_) => false,
    }
}

/// Whether the table is as the definitions of the paper ask, by the slow checks
/// and by those of the calls.
fn faithful(layer: &Layer, table: &[u16]) -> bool {
    let walks = contours(layer);
    let drawn: Vec<Stroke> = walks
        .iter()
        .flat_map(|walk| brute::strokes(walk, table))
        .collect();
    let entries = (0..table.len()).all(|n| match layer.is_stick(n) {
        true => is_kept(table[n]) || is_removed(table[n]),
        false => table[n] == 0,
    });
    entries
        && walks
            .iter()
            .all(|walk| brute::contour_is_held(layer, walk, table))
        && walks.iter().all(|walk| contour_is_held(layer, walk, table))
        && brute::passes_once_between(layer, &drawn, table)
        && brute::meet_at_vertices_only(layer, &drawn, table)
}

/// Simplify against the slow one; it is refused where a vertex is removed.
fn simplified(wrong: &mut Wrong, machine: &mut Machine, layer: &Layer, t: u8) {
    let mut table = machine.table.clone();
    let all_kept = !table.iter().any(|&entry| is_removed(entry));
    let answer = call(machine, Command::Simplify { t });
    let walks = contours(layer);
    let mut tried = 0;
    for walk in walks.iter().filter(|_| all_kept) {
        tried += brute::simplify(layer, walk, &mut table, t, Order::First).len() as u64;
    }
    let removed = table.iter().filter(|&&entry| is_removed(entry)).count() as u64;
    let wanted = if all_kept {
        vec![removed, tried]
    } else {
        vec![0, 0]
    };
    let right = answer.figures == wanted && machine.table == table;
    expect(wrong, right && (answer.number == 0) == all_kept, || {
        format!("Simplify of {:?}: {:?}", layer, answer.figures)
    });
}

/// The refusal that a roll of one edit gives on a copy of the machine.
fn outcome(machine: &Machine, edit: &[u8], t: i128) -> u64 {
    let bytes = [edit, &[0x45]].concat();
    call(&mut machine.clone(), Command::Roll { t: t as u8, bytes }).number
}

/// One random edit of a kept vertex against the slow checks: 16 with any T if it is
/// pinned, else 11 if no T will do, else done with the least T and 12 below it.
fn edits(wrong: &mut Wrong, b: &mut Builder, layer: &Layer) {
    let mut table = b.machine.table.clone();
    let kept: Vec<usize> = (0..table.len()).filter(|&n| is_kept(table[n])).collect();
    let stick = b.rng.pick(&kept);
    let new = b.rng.between(1, 255) as u8;
    let slides = b.rng.chance(1, 2);
    let pinned = is_pinned(table[stick]);
    let (action, after) = match slides {
        true => (Action::Slide(new), State::Free.at(new)),
        false => (Action::Remove, State::Removed.at(offset(table[stick]))),
    };
    table[stick] = after;
    let walks = contours(layer);
    let walk = walks
        .iter()
        .find(|walk| walk.contains(&stick))
        .expect("a stick is on one");
    let edit = b.edit(stick, action);
    let right = match brute::edit_tolerance(layer, walk, &table, stick) {
        _ if pinned => [0, 255].map(|t| outcome(&b.machine, &edit, t)) == [16, 16],
        None => outcome(&b.machine, &edit, 255) == 11,
        Some(0) => outcome(&b.machine, &edit, 0) == 0,
        Some(t) => outcome(&b.machine, &edit, t) == 0 && outcome(&b.machine, &edit, t - 1) == 12,
    };
    expect(wrong, right, || {
        format!("edit {:?} on {:?} {:?}", edit, layer, b.machine.table)
    });
}

/// A sheet is written, has the length of the formula, and reads back the same
/// over another table.
fn sheet_and_back(wrong: &mut Wrong, b: &Builder, layer: &Layer) {
    let sheet = b.sheet();
    let (_, sticks) = flood::inside_and_sticks(layer);
    let length = 6 + 6 * flood::contour_count(layer) + 2 * sticks;
    let mut other = b.machine.clone();
    other.table = vec![999; other.table.len()];
    let answer = call(
        &mut other,
        Command::ReadSheet {
            bytes: sheet.clone(),
        },
    );
    let right = answer.number == 0 && other.table == b.machine.table && sheet.len() == length;
    expect(wrong, right, || format!("sheet of {:?}", layer));
}

/// The planner's list has the kept vertices, one move and one close per contour,
/// and coordinates that are 1/256ths on the edges.
fn listed(wrong: &mut Wrong, machine: &Machine, layer: &Layer) {
    let kept = machine
        .table
        .iter()
        .filter(|&&entry| is_kept(entry))
        .count();
    let walks = flood::contour_count(layer);
    let mut items = vec![0; kept + walks];
    let mut floats = vec![-1.0; 2 * kept];
    let (w, h, bitmap, table) = (machine.w, machine.h, &machine.bitmap, &machine.table);
    let done = planner(w, h, bitmap, table, &mut items, &mut floats).is_ok();
    let count = |letter: u8| items.iter().filter(|&&item| item == letter).count();
    let whole = |x: f64| (x * 256.0).fract() == 0.0;
    let on_edges = floats.chunks(2).all(|point| {
        let fractions = (point[0].fract() != 0.0) as u8 + (point[1].fract() != 0.0) as u8;
        fractions == 1 && whole(point[0]) && whole(point[1])
    });
    let right = count(0x4D) == walks && count(0x5A) == walks && count(0x6C) == kept - walks;
    expect(wrong, done && right && on_edges, || {
        format!("list of {:?}", layer)
    });
}

/// The order of the planner's list against the slow reading: on every layer of 4
/// by 4 and of 5 by 5, and on nested and random ones, as traced and with vertices
/// removed and pinned.
fn orders(wrong: &mut Wrong, seed: u64) {
    let mut b = Builder::new(seed);
    let mut layers: Vec<Layer> = picture::every(4).chain(picture::every(5)).collect();
    layers.extend(picture::nested());
    for _ in 0..1000 {
        layers.push(picture::any(&mut b.rng, 12));
        let (w, h) = (b.rng.between(5, 20), b.rng.between(5, 20));
        let turned = b.rng.below(8);
        layers.push(picture::rings(&mut b.rng, w, h, turned));
    }
    for layer in layers {
        b.traced(&layer);
        let traced = b.machine.table.clone();
        b.remove_firsts(3);
        b.pin(4);
        b.thin(8);
        for table in [&traced, &b.machine.table] {
            if let Some(what) = order::wrong_with(&layer, table) {
                wrong.push(format!("{}: {:?} {:?}", what, layer, table));
            }
        }
    }
}

/// A random edit roll of one to three edits on any stick, with pins or without.
fn random_roll(b: &mut Builder, pins: bool) -> Vec<u8> {
    let mut bytes = Vec::new();
    let sticks = b.sticks();
    for _ in 0..b.rng.between(1, 3) {
        let stick = b.rng.pick(&sticks);
        let slide = Action::Slide(b.rng.below(256) as u8);
        let action = match b.rng.below(if pins { 5 } else { 4 }) {
            0 | 1 => slide,
            2 | 3 => Action::Remove,
            _ => Action::Pin,
        };
        bytes.extend(b.edit(stick, action));
    }
    bytes.push(0x45);
    bytes
}

/// One random call on the builder's machine; 13 is never given, since an edge
/// that would leave two kept vertices misses a stick.
fn random_call(wrong: &mut Wrong, b: &mut Builder, layer: &Layer, pins: bool) {
    let t = b.rng.pick(&[0, 12, 64, 128, 255]);
    match b.rng.below(5) {
        0 => {
            b.add(Command::Smooth { limit: 3 });
        }
        1 => simplified(wrong, &mut b.machine, layer, t),
        _ => {
            let before = b.machine.table.clone();
            let bytes = random_roll(b, pins);
            let answer = call(&mut b.machine, Command::Roll { t, bytes });
            let changed = before
                .iter()
                .zip(&b.machine.table)
                .filter(|(a, b)| a != b)
                .count();
            let right = answer.number != 13 && changed as u64 <= answer.figures[0];
            expect(wrong, right, || format!("roll on {:?}", layer));
        }
    }
}

/// Lists of random calls on small layers, half of them with pins; the layer stays
/// faithful.
fn call_lists(wrong: &mut Wrong, seed: u64) {
    let mut b = Builder::new(seed);
    for i in 0..150 {
        let layer = b.some_layer(9);
        b.traced(&layer);
        for _ in 0..12 {
            random_call(wrong, &mut b, &layer, i % 2 == 0);
            edits(wrong, &mut b, &layer);
            let table = &b.machine.table;
            expect(wrong, faithful(&layer, table), || {
                format!("{:?} {:?}", layer, table)
            });
        }
        sheet_and_back(wrong, &b, &layer);
        listed(wrong, &b.machine, &layer);
    }
}

/// Held or not: the calls' check against the slow one, with vertices removed and pinned
/// at random.
fn held_or_not(wrong: &mut Wrong, rng: &mut Rng) {
    for _ in 0..400 {
        let layer = picture::blocks(rng, 8);
        let mut table = traced(&layer).table;
        for entry in table.iter_mut().filter(|entry| **entry != 0) {
            let state = rng.pick(&[State::Free, State::Free, State::Removed, State::Pinned]);
            *entry = state.at(rng.between(1, 255) as u8);
        }
        for walk in contours(&layer) {
            let right = contour_is_held(&layer, &walk, &table)
                == brute::contour_is_held(&layer, &walk, &table);
            expect(wrong, right, || format!("held: {:?} {:?}", layer, table));
        }
    }
}

/// The refusal numbers that each set has to give, 0 for done.
fn wanted_numbers(name: &str) -> Vec<u64> {
    match name {
        "trace" | "counts" => vec![0, 1, 2, 3, 4, 5],
        "view" => vec![0, 1, 2, 3, 4],
        "held" => vec![0, 1, 2, 3, 4, 5, 6, 7],
        "smooth" | "simplify" => vec![0, 1, 2, 3, 4, 5, 6, 7, 15],
        "roll" => vec![0, 1, 2, 3, 4, 5, 6, 7, 8, 9, 10, 11, 12],
        "sheet" => vec![0, 1, 2, 3, 4, 5, 6, 7, 8, 14],
        "planner" | "areas" => vec![0, 1, 2, 3, 4, 5, 6, 7, 14],
        "pins" => vec![0, 6, 7, 8, 9, 10, 11, 12, 14, 15, 16],
        _ => vec![0],
    }
}

/// Each set is a good script below 500 KB with its refusals in it; cut short or
/// with a byte more it is no script.
fn sets(wrong: &mut Wrong, seed: Option<u64>) {
    for set in &SETS {
        let bytes = script(set.name, seed).expect("the set has this name");
        let commands = parse(&bytes).expect("a set is a good script");
        let encoded: Vec<u8> = commands
            .iter()
            .flat_map(|command| command.bytes())
            .collect();
        let whole = bytes.len() < 500_000 && encoded == bytes[..bytes.len() - 1];
        expect(wrong, whole, || format!("bytes of the set {}", set.name));
        let damaged = parse(&bytes[..bytes.len() - 1]).is_err()
            && parse(&[&bytes[..], &[0]].concat()).is_err();
        expect(wrong, damaged, || format!("damage of the set {}", set.name));
        let lines = refusals_write_nothing(wrong, &commands);
        let main: Vec<&str> = lines
            .lines()
            .filter(|line| is_main(set.name, line))
            .collect();
        let numbers: Vec<&str> = main
            .iter()
            .filter_map(|line| line.split(' ').nth(1))
            .collect();
        expect(wrong, main.len() >= 150, || {
            format!("calls of the set {}", set.name)
        });
        for number in wanted_numbers(set.name) {
            let given = numbers.contains(&number.to_string().as_str());
            expect(wrong, given, || {
                format!("no {} in the set {}", number, set.name)
            });
        }
    }
}

/// "A refusal leaves all buffers as found, but for earlier commands of a roll." The lines
/// that answer the script.
fn refusals_write_nothing(wrong: &mut Wrong, commands: &[Command]) -> String {
    let mut machine = Machine::default();
    let mut lines = String::new();
    for command in commands {
        if matches!(command, Command::Poke { .. }) {
            machine.run(command);
            continue;
        }
        let is_roll = matches!(command, Command::Roll { .. });
        let before = machine.table.clone();
        if let Some(answer) = machine.run(command) {
            let may_write = answer.number == 0 || (is_roll && answer.figures[0] > 0);
            expect(wrong, may_write || machine.table == before, || {
                format!("a refused {:?} wrote", command)
            });
            lines += &machine.line(command.letter(), &answer);
        }
    }
    lines
}

/// The set for Roll has each refusal 8 to 12 at the first command and at a later
/// one, and a roll of thousands of commands.
fn stops(wrong: &mut Wrong) {
    let bytes = script("roll", None).expect("the set has this name");
    let lines = answers(&parse(&bytes).expect("a set is a good script"));
    let rolls: Vec<Vec<u64>> = lines
        .lines()
        .filter_map(|line| line.strip_prefix("R "))
        .map(|words| {
            words
                .split(' ')
                .filter_map(|word| word.parse().ok())
                .collect()
        })
        .collect();
    for number in 8..13 {
        for first in [true, false] {
            let found = rolls
                .iter()
                .any(|roll| roll[0] == number && (roll[1] == 0) == first);
            expect(wrong, found, || {
                format!("no {} of a roll, first: {}", number, first)
            });
        }
    }
    let long = rolls.iter().any(|roll| roll[0] == 0 && roll[2] >= 3000);
    expect(wrong, long, || "no long roll".to_string());
}

/// The set for the planner's list has contours within more than a hundred others,
/// lists in another order than that of first sticks, and moves of contours within
/// others to another stick than their first.
fn order_shows(wrong: &mut Wrong) {
    let bytes = script("planner", None).expect("the set has this name");
    let mut machine = Machine::default();
    let (mut deepest, mut reordered, mut moved) = (0, 0, 0);
    for command in parse(&bytes).expect("a set is a good script") {
        let is_list = matches!(command, Command::Planner { .. });
        let done = machine
            .run(&command)
            .map_or(false, |answer| answer.number == 0);
        if !is_list || !done {
            continue;
        }
        let layer = ask_1_to_4(machine.w, machine.h, &machine.bitmap).expect("the list is done");
        let walks = contours(&layer);
        let depths = depths(&layer, &walks);
        let first_removed = |i: usize| depths[i] > 0 && is_removed(machine.table[walks[i][0]]);
        deepest = depths.iter().copied().chain([deepest]).max().unwrap_or(0);
        reordered += depths.windows(2).any(|pair| pair[0] > pair[1]) as usize;
        moved += (0..walks.len()).any(first_removed) as usize;
    }
    expect(wrong, deepest > 100 && reordered > 20 && moved > 20, || {
        format!(
            "depth {}, {} lists reordered, {} moved",
            deepest, reordered, moved
        )
    });
}

/// Does the line answer the calls that the set is about?
fn is_main(name: &str, line: &str) -> bool {
    let letters = match name {
        "trace" => "T",
        "counts" => "N",
        "view" => "V",
        "held" => "H",
        "smooth" => "S",
        "simplify" => "Y",
        "roll" => "R",
        "sheet" => "WD",
        "planner" => "L",
        "pins" => "TNSYRWDL",
        "areas" => "A",
        "lists" | "large" => "TDSYR",
        _ => "G",
    };
    letters.contains(&line[..1])
}

/// All tests, with random layers from this seed; what is wrong.
pub fn wrong(seed: Option<u64>) -> Vec<String> {
    let mut wrong = cases::wrong();
    let mut rng = Rng(seed.unwrap_or(1));
    chords(&mut wrong, &mut rng);
    roundings(&mut wrong, &mut rng);
    no_halves(&mut wrong, &mut rng);
    half_lines(&mut wrong);
    counting(&mut wrong, &mut rng);
    held_or_not(&mut wrong, &mut rng);
    call_lists(&mut wrong, rng.next());
    orders(&mut wrong, rng.next());
    sets(&mut wrong, seed);
    wrong.extend(settling::wrong(&mut rng));
    wrong.extend(pending::wrong(rng.next()));
    wrong.extend(pins::wrong(rng.next()));
    wrong.extend(pins_vectors::wrong());
    wrong.extend(areas_checks::wrong(rng.next()));
    wrong.extend(ceiling::wrong(rng.next()));
    stops(&mut wrong);
    order_shows(&mut wrong);
    wrong
}
