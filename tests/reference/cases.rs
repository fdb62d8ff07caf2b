// The cases of the paper's section 'Cases', starred or not, each with the
// figures it gives, the layer program's example, and cases of the changes.

use crate::areas_cases;
use crate::contour::{contours, Contour};
use crate::depth::depths;
use crate::layer::Layer;
use crate::machine::{Answer, Machine};
use crate::picture::{frames, lattice, shown};
use crate::pins_cases;
use crate::places;
use crate::planner::planner;
use crate::program::program;
use crate::script::Command;
use crate::sums_cases;

pub const SINGLE: &str = "... .#. ...";
pub const BAR: &str = "..... .###. .....";

/// A machine with this layer set, and its table as Trace leaves it.
pub fn traced(layer: &Layer) -> Machine {
    let mut machine = Machine {
        w: layer.w as u16,
        h: layer.h as u16,
        bitmap: layer.bitmap(),
        table: vec![7; layer.edge_count()],
    };
    machine.run(&Command::Trace);
    machine
}

/// What a call on the machine answers.
pub fn call(machine: &mut Machine, command: Command) -> Answer {
    machine.run(&command).expect("it is a call")
}

/// Number, place and figures in one list.
pub fn whole(answer: Answer) -> Vec<u64> {
    [vec![answer.number, answer.place as u64], answer.figures].concat()
}

/// What a case should give, and what it gave.
pub struct Check {
    name: &'static str,
    wanted: Vec<u64>,
    found: Vec<u64>,
}

pub fn check(name: &'static str, wanted: &[u64], found: Vec<u64>) -> Check {
    Check {
        name,
        wanted: wanted.to_vec(),
        found,
    }
}

/// The table's entries on the single sample's contour.
fn around(machine: &Machine) -> Vec<u64> {
    [2, 7, 3, 10]
        .iter()
        .map(|&stick| machine.table[stick] as u64)
        .collect()
}

/// "W 3, H 3, inside (1,1): entries 2, 7, 3, 10 in contour order, 12 entries in
/// all." "One pass on it: 179, 179, 77, 77, total 204."
fn single_sample() -> Vec<Check> {
    let layer = shown(SINGLE);
    let walk = contours(&layer).concat();
    let mut machine = traced(&layer);
    let entries = machine.table.len() as u64;
    let at_128 = around(&machine);
    let one = whole(call(&mut machine, Command::Smooth { limit: 1 }));
    vec![
        check(
            "contour",
            &[2, 7, 3, 10],
            walk.iter().map(|&n| n as u64).collect(),
        ),
        check("number of entries", &[12], vec![entries]),
        check("entries as traced", &[128; 4], at_128),
        check("one pass", &[0, 0, 1, 204, 0], one),
        check("entries after it", &[179, 179, 77, 77], around(&machine)),
    ]
}

/// "Its tenth pass ends at 255, 255, 1, 1, total 0, settled. Limit 9: total 4, not
/// settled." "Limit 0: 0 passes, total 0, limit. No inside sample: 0 passes,
/// settled."
fn limits() -> Vec<Check> {
    let at = |layer: &str, limit: u16| {
        let mut machine = traced(&shown(layer));
        let answer = whole(call(&mut machine, Command::Smooth { limit }));
        (answer, machine)
    };
    let blank = "... ... ...";
    let mut checks = vec![
        check("limit 9", &[0, 0, 9, 4, 0], at(SINGLE, 9).0),
        check("limit 0", &[0, 0, 0, 0, 0], at(SINGLE, 0).0),
        check("no inside sample", &[0, 0, 0, 0, 1], at(blank, 0).0),
        check("no inside sample", &[0, 0, 0, 0, 1], at(blank, 5).0),
    ];
    for limit in [10, 11, 65535] {
        let (answer, machine) = at(SINGLE, limit);
        checks.push(check("tenth pass", &[0, 0, 10, 0, 1], answer));
        checks.push(check(
            "entries after it",
            &[255, 255, 1, 1],
            around(&machine),
        ));
    }
    checks
}

/// Note 3: "Each contour is now settled by its own total and its own vertices". Of
/// four single samples three are where their tenth pass leaves them, and have totals
/// of 0. So the fourth, wherever it stands, makes the answer, that of the paper's
/// single sample; over the layer the 4 of its ninth pass would be settled, as
/// 1000×4 is below 256×16.
fn one_of_four() -> Vec<Check> {
    let layer = lattice(2, 2);
    let walks = contours(&layer);
    let mut checks = Vec::new();
    for fourth in &walks {
        for (limit, wanted) in [
            (0, [0, 0, 0, 0, 0]),
            (1, [0, 0, 1, 204, 0]),
            (9, [0, 0, 9, 4, 0]),
            (10, [0, 0, 10, 0, 1]),
            (65535, [0, 0, 10, 0, 1]),
        ] {
            let mut machine = traced(&layer);
            for walk in walks.iter().filter(|walk| *walk != fourth) {
                for (stick, offset) in walk.iter().zip([255, 255, 1, 1]) {
                    machine.table[*stick] = offset;
                }
            }
            let answer = whole(call(&mut machine, Command::Smooth { limit }));
            checks.push(check("one of four samples", &wanted, answer));
        }
    }
    checks
}

/// "Simplify it at T 255: 6 runs tried, none removed"; the bar at T 86 and 85.
fn simplified() -> Vec<Check> {
    let at = |layer: &str, t: u8| whole(call(&mut traced(&shown(layer)), Command::Simplify { t }));
    vec![
        check("single sample, T 255", &[0, 0, 0, 6], at(SINGLE, 255)),
        check("bar, T 86", &[0, 0, 4, 6], at(BAR, 86)),
        check("bar, T 85", &[0, 0, 0, 14], at(BAR, 85)),
    ]
}

/// "With its lower middle vertex slid from 128 to 140 first, its removal passes
/// at T 12 and gives 12 at T 11", in one roll and in two.
fn slid_bar() -> Vec<Check> {
    let slide = vec![0x53, 1, 2, 0, 0, 0, 140];
    let removal = vec![0x58, 1, 2, 0, 0, 0];
    let end = vec![0x45];
    let both = [slide.clone(), removal.clone(), end.clone()].concat();
    let roll = |machine: &mut Machine, t: u8, bytes: Vec<u8>| {
        whole(call(machine, Command::Roll { t, bytes }))
    };
    let mut checks = vec![
        check(
            "slide and removal, T 12",
            &[0, 0, 2],
            roll(&mut traced(&shown(BAR)), 12, both.clone()),
        ),
        check(
            "slide and removal, T 11",
            &[12, 7, 1],
            roll(&mut traced(&shown(BAR)), 11, both),
        ),
    ];
    for (t, wanted, entry) in [(12, [0, 0, 1], 256 + 140), (11, [12, 0, 0], 140)] {
        let mut machine = traced(&shown(BAR));
        roll(&mut machine, 0, [slide.clone(), end.clone()].concat());
        let found = roll(&mut machine, t, [removal.clone(), end.clone()].concat());
        checks.push(check("removal alone", &wanted, found));
        checks.push(check(
            "the entry after it",
            &[entry],
            vec![machine.table[14] as u64],
        ));
    }
    checks
}

/// "W 4, H 4, inside (1,1), (2,2): two contours of 4. The other diagonal: two
/// also." The slides on the single sample, an E alone and the empty roll.
fn diagonals_and_rolls() -> Vec<Check> {
    let sizes = |layer: &str| {
        contours(&shown(layer))
            .iter()
            .map(|contour| contour.len() as u64)
            .collect()
    };
    let roll = |bytes: &[u8]| {
        let command = Command::Roll {
            t: 0,
            bytes: bytes.to_vec(),
        };
        whole(call(&mut traced(&shown(SINGLE)), command))
    };
    vec![
        check("one diagonal", &[4, 4], sizes(".... ..#. .#.. ....")),
        check("the other diagonal", &[4, 4], sizes(".... .#.. ..#. ....")),
        check(
            "slide to 0",
            &[10, 0, 0],
            roll(&[0x53, 0, 0, 0, 1, 0, 0, 0x45]),
        ),
        check(
            "slide to 255",
            &[0, 0, 1],
            roll(&[0x53, 0, 0, 0, 1, 0, 255, 0x45]),
        ),
        check("an E alone", &[0, 0, 0], roll(&[0x45])),
        check("the empty roll", &[8, 0, 0], roll(&[])),
    ]
}

/// "W 1: 1. W 1,024: accepted. W 1,025: 1."
fn widths() -> Vec<Check> {
    let width = |w: u16| {
        let (columns, rows) = (w as usize, 2);
        let mut machine = Machine {
            w,
            h: 2,
            bitmap: vec![0; (columns + 7) / 8 * rows],
            table: vec![9; (columns - 1) * rows + columns],
        };
        whole(call(&mut machine, Command::Trace))
    };
    vec![
        check("W 1", &[1, 0], width(1)),
        check("W 1,024", &[0, 0], width(1024)),
        check("W 1,025", &[1, 0], width(1025)),
    ]
}

/// "For input hex 4C 03 00 03 00 00 02 00 it writes 4C 03 00 03 00 43 00 00 00 01
/// 00 4B FF 4B FF 4B 01 4B 01 45", and its refusals.
fn layer_program() -> Vec<Check> {
    let run = |input: &[u8]| program(input).iter().map(|&byte| byte as u64).collect();
    let wanted = [
        0x4C, 0x03, 0x00, 0x03, 0x00, 0x43, 0x00, 0x00, 0x00, 0x01, 0x00, 0x4B, 0xFF, 0x4B, 0xFF,
        0x4B, 0x01, 0x4B, 0x01, 0x45,
    ];
    vec![
        check("example", &wanted, run(&[0x4C, 3, 0, 3, 0, 0, 2, 0])),
        check("no input", &[0x3F, 2], run(&[])),
        check("a cut L command", &[0x3F, 2], run(&[0x4C, 3, 0, 3])),
        check(
            "another first byte",
            &[0x3F, 2],
            run(&[0x4D, 3, 0, 3, 0, 0, 2, 0]),
        ),
        check("a side of 65", &[0x3F, 1], run(&[0x4C, 65, 0, 3, 0])),
        check("a side of 1", &[0x3F, 1], run(&[0x4C, 3, 0, 1, 0, 0])),
        check("a byte short", &[0x3F, 2], run(&[0x4C, 3, 0, 3, 0, 0, 2])),
        check(
            "a byte long",
            &[0x3F, 2],
            run(&[0x4C, 3, 0, 3, 0, 0, 2, 0, 0]),
        ),
        check(
            "a spare bit",
            &[0x3F, 3],
            run(&[0x4C, 3, 0, 3, 0, 0, 10, 1]),
        ),
        check(
            "a border sample",
            &[0x3F, 4],
            run(&[0x4C, 3, 0, 3, 0, 0, 2, 1]),
        ),
    ]
}

/// "The planner's list": the single sample as traced, by its digests' figures.
fn list() -> Vec<Check> {
    let mut machine = traced(&shown(SINGLE));
    let mut figures = |items: u32, floats: u32| {
        let mut answer = whole(call(&mut machine, Command::Planner { items, floats }));
        answer.truncate(4);
        answer
    };
    vec![
        check("the list", &[0, 0, 5, 8], figures(5, 8)),
        check("an item short", &[14, 0, 0, 0], figures(4, 8)),
        check("a float short", &[14, 0, 0, 0], figures(5, 7)),
    ]
}

/// "Contours now come by depth, which is the number of other contours around them,
/// and among equal depth by first stick number": a ring that holds a sample, and a
/// sample above the ring. The ring's outline starts at stick 6, its bore at 13, the
/// sample within at 20 and the one above at 42. And of nested squares as many as a
/// layer has room for.
fn order() -> Vec<Check> {
    let layer = shown("....... .#..... ....... .#####. .#...#. .#.#.#. .#...#. .#####. .......");
    let walks = contours(&layer);
    let firsts = walks.iter().map(|walk| walk[0] as u64).collect();
    let of_all = |layer: &Layer, walks: &[Contour]| -> Vec<u64> {
        depths(layer, walks)
            .iter()
            .map(|&depth| depth as u64)
            .collect()
    };
    let table = traced(&layer).table;
    let (mut items, mut floats) = (vec![0; 44], vec![-1.0; 80]);
    let listed = planner(7, 9, &layer.bitmap(), &table, &mut items, &mut floats);
    let moves = (0..items.len()).filter(|&i| items[i] == 0x4D);
    // The items before a move have a point each, but for the closes of the contours before.
    let points = moves.enumerate().map(|(before, i)| 2 * (i - before));
    let doubled = points.flat_map(|i| [2.0 * floats[i], 2.0 * floats[i + 1]]);
    let squares = frames(1024, 1024);
    let deepest: Vec<u64> = (0..=510).collect();
    vec![
        check("first sticks", &[6, 13, 20, 42], firsts),
        check("depths", &[0, 1, 2, 0], of_all(&layer, &walks)),
        check("a list of four contours", &[1], vec![listed.is_ok() as u64]),
        check(
            "its moves, in halves of the pitch",
            &[1, 2, 1, 14, 3, 4, 5, 6],
            doubled.map(|half| half as u64).collect(),
        ),
        check(
            "depths of nested squares",
            &deepest,
            of_all(&squares, &contours(&squares)),
        ),
    ]
}

/// What is wrong with these cases, those of the questions' places, or those of Notes 5 to 7.
pub fn wrong() -> Vec<String> {
    let groups = vec![
        single_sample(),
        limits(),
        one_of_four(),
        simplified(),
        slid_bar(),
        diagonals_and_rolls(),
        widths(),
        layer_program(),
        list(),
        order(),
        places::checks(),
        pins_cases::checks(),
        areas_cases::checks(),
        sums_cases::checks(),
    ];
    let checks = groups.iter().flatten();
    checks
        .filter(|check| check.wanted != check.found)
        .map(|check| {
            let (name, wanted, found) = (check.name, &check.wanted, &check.found);
            format!("{}: {:?} wanted, {:?} found", name, wanted, found)
        })
        .collect()
}
