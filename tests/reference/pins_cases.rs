// Cases of Note 5, "pinned faces", worked out by hand: a layer as traced with some entries
// set, a call on it, what it answers, and the entries that it alters. A vertex at 128 has
// entry 384 if it is removed and 640 if it is pinned.

use crate::builder::edit_bytes;
use crate::cases::{call, check, traced, whole, Check, BAR, SINGLE};
use crate::machine::digest;
use crate::picture::shown;
use crate::roll::Action::{self, Pin, Remove, Slide};
use crate::script::Command;

/// Entries of a table by their numbers.
type Entries = [(usize, u16)];

pub struct Case {
    name: &'static str,
    pub layer: &'static str,
    pub entries: Vec<(usize, u16)>,
    pub command: Command,
    wanted: Vec<u64>,
    after: Vec<(usize, u16)>,
}

/// The wanted numbers are the first ones of the answer.
fn case(
    name: &'static str,
    (layer, entries): (&'static str, &Entries),
    command: Command,
    wanted: &[u64],
    after: &Entries,
) -> Case {
    Case {
        name,
        layer,
        entries: entries.to_vec(),
        command,
        wanted: wanted.to_vec(),
        after: after.to_vec(),
    }
}

/// All sticks of the single sample, in the order of its contour.
pub const SINGLE_STICKS: [usize; 4] = [2, 7, 3, 10];

/// The bar's: its left end, its lower side from left to right, its right end, and its upper
/// side from right to left.
const BAR_STICKS: [usize; 8] = [4, 13, 14, 15, 7, 20, 19, 18];

/// A bar of six samples: its left end is 7, its lower side 22 to 27, its right end 13, and
/// its upper side 35 down to 30.
pub const LONG_BAR: &str = "........ .######. ........";

pub const RING: &str = "..... .###. .#.#. .###. .....";
pub const RING_OUTLINE: [usize; 12] = [4, 21, 22, 23, 7, 11, 15, 38, 37, 36, 12, 8];
pub const RING_BORE: [usize; 4] = [9, 32, 10, 27];

/// These sticks with the vertex pinned at 128.
fn pinned(sticks: &[usize]) -> Vec<(usize, u16)> {
    sticks.iter().map(|&stick| (stick, 640)).collect()
}

/// A roll of these commands.
fn roll(t: u8, commands: &[&[u8]]) -> Command {
    let bytes = commands.concat();
    Command::Roll { t, bytes }
}

const END: &[u8] = &[0x45];

/// Question 6 by a roll without a command, and 7 after it.
fn entries() -> Vec<Case> {
    let asked = |name, entries: &Entries, wanted: &[u64]| {
        case(name, (SINGLE, entries), roll(0, &[END]), wanted, &[])
    };
    vec![
        asked("513", &[(2, 513)], &[0, 0, 0]),
        asked("767", &[(10, 767)], &[0, 0, 0]),
        asked("all pinned", &pinned(&SINGLE_STICKS), &[0, 0, 0]),
        asked("256", &[(2, 256), (7, 640)], &[6, 2, 0]),
        asked("512", &[(2, 640), (7, 512)], &[6, 7, 0]),
        asked("768", &[(3, 768)], &[6, 3, 0]),
        asked("769", &[(10, 769)], &[6, 10, 0]),
        asked("1023", &[(7, 1023)], &[6, 7, 0]),
        asked("65535", &[(2, 65535)], &[6, 2, 0]),
        asked("two of them", &[(10, 769), (3, 1023)], &[6, 3, 0]),
        asked("0 on a stick", &[(2, 640), (7, 0)], &[6, 7, 0]),
        asked("513 off sticks", &[(0, 513)], &[6, 0, 0]),
        asked("640 off sticks", &[(4, 640), (7, 768)], &[6, 4, 0]),
        asked("767 off sticks", &[(11, 767)], &[6, 11, 0]),
        asked("6 before 7", &[(2, 384), (10, 768)], &[6, 10, 0]),
        asked("not held", &[(2, 384), (7, 640)], &[7, 2, 0]),
    ]
}

/// Question 6 of the other calls; Counts and Trace skip it.
fn wrong_entry() -> Vec<Case> {
    let on_wrong = |name, command, wanted: &[u64], after: &Entries| {
        let entries = [(7, 640), (3, 768)];
        case(name, (SINGLE, &entries), command, wanted, after)
    };
    let refused = |name, command| on_wrong(name, command, &[6, 3, 0], &[]);
    let (items, floats) = (9, 9);
    vec![
        refused("6 of Smooth", Command::Smooth { limit: 0 }),
        refused("6 of Simplify", Command::Simplify { t: 0 }),
        refused("6 of a sheet", Command::WriteSheet { n: 40 }),
        refused("6 of a list", Command::Planner { items, floats }),
        on_wrong("no 6 of Counts", Command::Counts, &[0, 0, 1, 4, 1], &[]),
        on_wrong(
            "no 6 of Trace",
            Command::Trace,
            &[0, 0],
            &[(3, 128), (7, 128)],
        ),
    ]
}

/// The single sample with every vertex pinned, each at an offset of its own. Counts, list
/// and sheet are as long as without pins; a Trace sets none.
fn all_pinned() -> Vec<Case> {
    let on_pinned = |name, command, wanted: &[u64], after: &Entries| {
        let entries = [(2, 513), (7, 600), (3, 700), (10, 767)];
        case(name, (SINGLE, &entries), command, wanted, after)
    };
    let list = |items, floats| Command::Planner { items, floats };
    let traced = [(2, 128), (3, 128), (7, 128), (10, 128)];
    let sheet: [u16; 20] = [
        0x4C, 3, 0, 3, 0, 0x43, 0, 0, 0, 1, 0, 0x4E, 1, 0x4E, 88, 0x4E, 188, 0x4E, 255, 0x45,
    ];
    let written = [0, 0, 20, digest(sheet.into_iter())];
    vec![
        on_pinned("Counts", Command::Counts, &[0, 0, 1, 4, 1], &[]),
        on_pinned("Trace", Command::Trace, &[0, 0], &traced),
        on_pinned("a sheet", Command::WriteSheet { n: 20 }, &written, &[]),
        on_pinned("short", Command::WriteSheet { n: 19 }, &[14, 0, 0], &[]),
        on_pinned("a list", list(5, 8), &[0, 0, 5, 8], &[]),
        on_pinned("a float short", list(5, 7), &[14, 0, 0, 0], &[]),
    ]
}

/// The bar with a removed vertex between two pinned ones. 15 is about removed ones alone.
fn one_removed() -> Vec<Case> {
    let on_bar = |name, command, wanted: &[u64]| {
        let entries = [(13, 640), (14, 384), (15, 640)];
        case(name, (BAR, &entries), command, wanted, &[])
    };
    let list = |items, floats| Command::Planner { items, floats };
    vec![
        on_bar("a sheet", Command::WriteSheet { n: 28 }, &[0, 0, 28]),
        on_bar("a list", list(8, 14), &[0, 0, 8, 14]),
        on_bar("an item short", list(7, 14), &[14, 0, 0, 0]),
        on_bar("15 of Smooth", Command::Smooth { limit: 9 }, &[15, 14, 0]),
        on_bar("15 of Simplify", Command::Simplify { t: 9 }, &[15, 14, 0]),
    ]
}

/// On the single sample a vertex goes from 128 to 179, 210, 228, 239, 246, 250, 252, 254,
/// 255 and stays, or mirrored from 128 to 77 and so on, whatever its neighbours do. The
/// pinned ones count: if one alone is not pinned, its ninth pass has a total of 1, and
/// 1000×1 is below 256×4, though not below 256×1.
fn smooth_single() -> Vec<Case> {
    let at = |name, entries: &Entries, limit, figures: [u64; 3], after: &Entries| {
        let wanted = [&[0, 0], &figures[..]].concat();
        let command = Command::Smooth { limit };
        case(name, (SINGLE, entries), command, &wanted, after)
    };
    let all = pinned(&SINGLE_STICKS);
    let (one, two, three) = (&all[..1], &all[..2], &all[..3]);
    let first = [(3, 77), (7, 179), (10, 77)];
    let last = [(3, 1), (7, 255), (10, 1)];
    let other = [(2, 513), (7, 767), (10, 600)];
    vec![
        at("one pinned, limit 0", one, 0, [0, 0, 0], &[]),
        at("one pinned, limit 1", one, 1, [1, 153, 0], &first),
        at("one pinned, limit 9", one, 9, [9, 3, 0], &last),
        at("one pinned, limit 100", one, 100, [10, 0, 1], &last),
        at("two pinned, limit 9", two, 9, [9, 2, 0], &[(3, 1), (10, 1)]),
        at("two pinned", two, 65535, [10, 0, 1], &[(3, 1), (10, 1)]),
        at("three pinned, limit 8", three, 8, [8, 2, 0], &[(10, 2)]),
        at("three pinned, limit 9", three, 9, [9, 1, 1], &[(10, 1)]),
        at("three pinned", three, 100, [9, 1, 1], &[(10, 1)]),
        at("pinned elsewhere", &other, 65535, [9, 1, 1], &[(3, 1)]),
        at("all pinned, limit 0", &all, 0, [0, 0, 0], &[]),
        at("all pinned, limit 1", &all, 1, [1, 0, 1], &[]),
        at("all pinned, limit 100", &all, 100, [1, 0, 1], &[]),
    ]
}

/// A pass on the bar with 13 pinned at 100: 4 is drawn towards 256, 14 towards 114, 15
/// towards 122 + 134×2/3, 7 towards 0, 20 towards 128×77/333, 19 towards 108 1/2, and 18
/// towards 120×77/333.
fn smooth_bar() -> Vec<Case> {
    let drawn = [
        (4, 179),
        (7, 77),
        (14, 122),
        (15, 161),
        (18, 88),
        (19, 120),
        (20, 89),
    ];
    let all = pinned(&BAR_STICKS);
    let at = |name, entries: &Entries, limit, wanted: &[u64], after: &Entries| {
        case(
            name,
            (BAR, entries),
            Command::Smooth { limit },
            wanted,
            after,
        )
    };
    vec![
        at("a pass", &[(13, 612)], 1, &[0, 0, 1, 228, 0], &drawn),
        at("all pinned", &all, 65535, &[0, 0, 1, 0, 1], &[]),
    ]
}

/// A ring of which one contour is pinned. The bore is that of a single sample, and goes on
/// after the outline had its pass. A pass of the outline draws its vertices, in the order
/// of its walk, by 34, 37, 7, 35, 38, 8, 35, 38, 8, 35, 38 and 14.
fn smooth_ring() -> Vec<Case> {
    let (outline, bore) = (pinned(&RING_OUTLINE), pinned(&RING_BORE));
    let first = [(9, 179), (10, 77), (27, 179), (32, 77)];
    let last = [(9, 255), (10, 1), (27, 255), (32, 1)];
    let drawn = [
        (4, 162),
        (7, 90),
        (8, 142),
        (11, 120),
        (12, 166),
        (15, 93),
        (21, 165),
        (22, 135),
        (23, 163),
        (36, 93),
        (37, 120),
        (38, 90),
    ];
    let at = |name, entries: &Entries, limit, wanted: &[u64], after: &Entries| {
        case(
            name,
            (RING, entries),
            Command::Smooth { limit },
            wanted,
            after,
        )
    };
    vec![
        at("outline pinned", &outline, 0, &[0, 0, 0, 0, 0], &[]),
        at("outline pinned", &outline, 1, &[0, 0, 1, 204, 0], &first),
        at("outline pinned", &outline, 9, &[0, 0, 9, 4, 0], &last),
        at("outline pinned", &outline, 100, &[0, 0, 10, 0, 1], &last),
        at("bore pinned", &bore, 1, &[0, 0, 1, 327, 0], &drawn),
    ]
}

/// The bar at T 86. The run from 4 to 14 passes without pins, and with one at an end, but
/// not with 13 pinned; at T 85 no run passes but single edges.
fn simplify_bar() -> Vec<Case> {
    let at = |name, sticks: &[usize], t, wanted: &[u64], after: &[usize]| {
        let entries = pinned(sticks);
        let removed: Vec<(usize, u16)> = after.iter().map(|&stick| (stick, 384)).collect();
        let command = Command::Simplify { t };
        case(name, (BAR, &entries), command, wanted, &removed)
    };
    let all: &[usize] = &[13, 15, 18, 20];
    let three: &[usize] = &[15, 18, 20];
    vec![
        at("an end pinned", &[14], 86, &[0, 0, 4, 6], all),
        at("ends pinned", &[4, 14, 7, 19], 86, &[0, 0, 4, 6], all),
        at(
            "ends pinned, T 85",
            &[4, 14, 7, 19],
            85,
            &[0, 0, 0, 14],
            &[],
        ),
        at("an inner one pinned", &[13], 86, &[0, 0, 3, 8], three),
        at("inner ones pinned", all, 255, &[0, 0, 0, 14], &[]),
        at("all pinned", &BAR_STICKS, 255, &[0, 0, 0, 14], &[]),
    ]
}

/// The long bar at T 128: its two runs do not pass, the four parts of 3, 4, 3 and 4 edges
/// do if no pin is inside. With 26 pinned, in the middle of the second, its parts of 2 edges
/// pass, and with 25 or 27 pinned one of them does.
fn simplify_long_bar() -> Vec<Case> {
    let at = |name, sticks: &[usize], wanted: &[u64], kept: &[usize]| {
        let inner = [22, 23, 25, 26, 27, 30, 31, 32, 34, 35];
        let removed = inner.iter().filter(|stick| !kept.contains(stick));
        let removed: Vec<(usize, u16)> = removed.map(|&stick| (stick, 384)).collect();
        let command = Command::Simplify { t: 128 };
        case(name, (LONG_BAR, &pinned(sticks)), command, wanted, &removed)
    };
    vec![
        at("no pins", &[], &[0, 0, 10, 6], &[]),
        at("ends pinned", &[7, 24, 13, 33], &[0, 0, 10, 6], &[]),
        at("the middle pinned", &[26], &[0, 0, 9, 8], &[26]),
        at("before the middle", &[25], &[0, 0, 8, 10], &[25, 26]),
        at("after the middle", &[27], &[0, 0, 8, 10], &[26, 27]),
        at("of three edges", &[22], &[0, 0, 9, 8], &[22]),
    ]
}

/// The bytes of an edit of one of the bar's sticks.
fn edit(stick: usize, action: Action) -> Vec<u8> {
    let edge = shown(BAR).edge(stick);
    edit_bytes(edge.kind, edge.c as u16, edge.r as u16, action)
}

/// Pins, and slides and removals of pinned vertices.
fn pins() -> Vec<Case> {
    let on_bar = |name, entries: &Entries, commands: &[&[u8]], wanted: &[u64], after: &Entries| {
        let commands = [commands, &[END]].concat();
        case(name, (BAR, entries), roll(255, &commands), wanted, after)
    };
    let free: &Entries = &[];
    let fast: &Entries = &[(14, 640)];
    let pin: &[u8] = &edit(14, Pin);
    let slide: &[u8] = &edit(14, Slide(140));
    let nowhere: &[u8] = &edit(14, Slide(128));
    let to_zero: &[u8] = &edit(14, Slide(0));
    let removal: &[u8] = &edit(14, Remove);
    let upper: &[u8] = &edit(19, Slide(100));
    let (left, off): (&[u8], &[u8]) = (&edit(13, Pin), &edit(13, Remove));
    let partway = [(13, 640), (14, 384), (19, 100)];
    vec![
        on_bar("a pin", free, &[pin], &[0, 0, 1], fast),
        on_bar("two pins", free, &[pin, pin], &[0, 0, 2], fast),
        on_bar("pinned again", &[(14, 652)], &[pin], &[0, 0, 1], &[]),
        on_bar(
            "slid and pinned",
            free,
            &[slide, pin],
            &[0, 0, 2],
            &[(14, 652)],
        ),
        on_bar(
            "removed first",
            free,
            &[removal, pin],
            &[9, 6, 1],
            &[(14, 384)],
        ),
        on_bar("then slid", free, &[pin, slide], &[16, 6, 1], fast),
        on_bar(
            "then slid nowhere",
            free,
            &[pin, nowhere],
            &[16, 6, 1],
            fast,
        ),
        on_bar("then slid to 0", free, &[pin, to_zero], &[16, 6, 1], fast),
        on_bar(
            "then removed",
            free,
            &[pin, removal, upper],
            &[16, 6, 1],
            fast,
        ),
        on_bar("slid pin", fast, &[slide], &[16, 0, 0], &[]),
        on_bar("pin slid to 0", fast, &[to_zero], &[16, 0, 0], &[]),
        on_bar("removed pin", fast, &[removal], &[16, 0, 0], &[]),
        on_bar(
            "third",
            free,
            &[slide, pin, slide],
            &[16, 13, 2],
            &[(14, 652)],
        ),
        on_bar(
            "fourth",
            free,
            &[upper, removal, left, off],
            &[16, 19, 3],
            &partway,
        ),
    ]
}

/// A pin of every vertex.
fn pins_of_all() -> Case {
    let edits = BAR_STICKS.map(|stick| edit(stick, Pin));
    let bytes = [edits.concat(), END.to_vec()].concat();
    let command = Command::Roll { t: 0, bytes };
    let mut after = pinned(&BAR_STICKS);
    after.sort_unstable();
    case("every vertex", (BAR, &[]), command, &[0, 0, 8], &after)
}

/// Question 9, among vertices that are all pinned but for one that is removed: sticks off
/// the grid, a kind of 2, edges that are no sticks, and the removed vertex, which gives
/// 9 and not 16.
fn nothing_to_pin() -> Vec<Case> {
    let mut entries = pinned(&BAR_STICKS);
    entries.retain(|&(stick, _)| stick != 14);
    entries.push((14, 384));
    let on_bar = |name, edit: Vec<u8>| {
        let first: &[u8] = &edit_bytes(0, 0, 1, Pin);
        let commands: [&[u8]; 4] = [first, &edit, first, END];
        case(name, (BAR, &entries), roll(255, &commands), &[9, 6, 1], &[])
    };
    let pin = |kind, c, r| edit_bytes(kind, c, r, Pin);
    vec![
        on_bar("a pin on the right", pin(0, 4, 1)),
        on_bar("a pin above", pin(1, 2, 2)),
        on_bar("a pin far off", pin(1, 65535, 65535)),
        on_bar("a pin of kind 2", pin(2, 2, 0)),
        on_bar("a pin of kind 255", pin(255, 0, 1)),
        on_bar("a pin within", pin(0, 1, 1)),
        on_bar("a pin outside", pin(1, 0, 0)),
        on_bar("a pin of a removed one", edit(14, Pin)),
        on_bar("a slide of a removed one", edit(14, Slide(128))),
        on_bar("a slide of it to 0", edit(14, Slide(0))),
        on_bar("a removal of a removed one", edit(14, Remove)),
    ]
}

/// 16 comes before 10, 11 and 12: each edit with its vertex pinned at an offset, and without
/// the pin. Where four vertices are kept a removal would leave three, so that it does not
/// come to 13; fewer than four are not held, as the lowest, the rightmost, the highest and
/// the leftmost vertex of a contour are different ones.
fn pins_and_noes() -> Vec<Case> {
    let four = [(13, 384), (15, 384), (18, 384), (20, 384)];
    let tries: [(&'static str, &Entries, u8, (usize, u16), Action, u64); 6] = [
        ("to 0", &[], 255, (14, 128), Slide(0), 10),
        ("a corner", &[], 255, (4, 128), Remove, 11),
        ("one of four", &four, 255, (14, 128), Remove, 11),
        ("beyond T", &[], 11, (14, 140), Remove, 12),
        ("a slide beyond T", &four, 0, (14, 128), Slide(1), 12),
        ("within T", &[], 12, (14, 140), Remove, 0),
    ];
    let mut cases = Vec::new();
    for (name, others, t, (stick, offset), action, number) in tries {
        let command = roll(t, &[&edit(stick, action), END]);
        let with = |entry| [others, &[(stick, entry)]].concat();
        let (fast, free) = (with(512 + offset), with(offset));
        let done = (number == 0) as usize;
        let wanted = [number, 0, done as u64];
        let after = &[(stick, 256 + offset)][..done];
        cases.push(case(name, (BAR, &fast), command.clone(), &[16, 0, 0], &[]));
        cases.push(case(name, (BAR, &free), command, &wanted, after));
    }
    cases
}

/// Edits of a free vertex between pinned ones, which are neighbours like any other. With
/// 14 removed and 15 slid to 140, the edge from 13 to 15 crosses 14 at 134.
fn beside_pins() -> Vec<Case> {
    let on_bar = |name, entries: &Entries, t, edit: Vec<u8>, wanted: &[u64], after: &Entries| {
        let both = [entries, &[(13, 640)]].concat();
        case(name, (BAR, &both), roll(t, &[&edit, END]), wanted, after)
    };
    let right: &Entries = &[(15, 640)];
    let slid: &Entries = &[(14, 140), (15, 640)];
    let gap: &Entries = &[(14, 384)];
    let (removal, corner) = (edit(14, Remove), edit(4, Remove));
    let (slide, to_zero, far) = (
        edit(14, Slide(255)),
        edit(14, Slide(0)),
        edit(15, Slide(140)),
    );
    vec![
        on_bar("removed", right, 0, removal.clone(), &[0, 0, 1], gap),
        on_bar(
            "removed, T 12",
            slid,
            12,
            removal.clone(),
            &[0, 0, 1],
            &[(14, 396)],
        ),
        on_bar("removed, T 11", slid, 11, removal, &[12, 0, 0], &[]),
        on_bar("a corner", &[(18, 640)], 255, corner, &[11, 0, 0], &[]),
        on_bar("slid", right, 0, slide, &[0, 0, 1], &[(14, 255)]),
        on_bar("slid to 0", right, 0, to_zero, &[10, 0, 0], &[]),
        on_bar(
            "across a gap, T 6",
            gap,
            6,
            far.clone(),
            &[0, 0, 1],
            &[(15, 140)],
        ),
        on_bar("across a gap, T 5", gap, 5, far, &[12, 0, 0], &[]),
    ]
}

/// Question 8: a P that is cut short, or has an offset too; nothing is pinned before.
fn ill_formed_pins() -> Vec<Case> {
    let on_bar = |name, commands: &[&[u8]], place| {
        case(name, (BAR, &[]), roll(255, commands), &[8, place, 0], &[])
    };
    let (pin, slide): (&[u8], &[u8]) = (&edit(14, Pin), &edit(14, Slide(140)));
    let mut cases = vec![
        on_bar("no E", &[pin], 6),
        on_bar("with an offset", &[pin, &[140], END], 6),
        on_bar("lower case", &[&[0x70], &pin[1..], END], 0),
        on_bar("N for P", &[&[0x4E], &pin[1..], END], 0),
        on_bar("P after E", &[pin, END, pin], 7),
        on_bar("P and a wrong command", &[pin, slide, &[0x51], END], 13),
    ];
    for cut in 1..6 {
        cases.push(on_bar("a cut P", &[&pin[..cut]], 0));
        cases.push(on_bar(
            "a cut P after others",
            &[slide, pin, &pin[..cut]],
            13,
        ));
    }
    cases
}

/// The sheet of the single sample as traced. Its vertices begin at 11, 13, 15 and 17.
const SINGLE_SHEET: [u8; 20] = [
    0x4C, 3, 0, 3, 0, 0x43, 0, 0, 0, 1, 0, 0x4B, 128, 0x4B, 128, 0x4B, 128, 0x4B, 128, 0x45,
];

/// A sheet with some of its bytes changed.
fn changed(sheet: &[u8], changes: &[(usize, u8)]) -> Vec<u8> {
    let mut bytes = sheet.to_vec();
    for &(i, byte) in changes {
        bytes[i] = byte;
    }
    bytes
}

/// Sheets with N, read against the single sample.
fn sheets() -> Vec<Case> {
    let read = |name, bytes: Vec<u8>, wanted: &[u64], after: &Entries| {
        let command = Command::ReadSheet { bytes };
        case(name, (SINGLE, &[]), command, wanted, after)
    };
    let with = |changes: &[(usize, u8)]| changed(&SINGLE_SHEET, changes);
    let eight = |name, place, changes: &[(usize, u8)]| read(name, with(changes), &[8, place], &[]);
    let cut = |name, n: usize, place| {
        let bytes = with(&[(11, 0x4E), (17, 0x4E)])[..n].to_vec();
        read(name, bytes, &[8, place], &[])
    };
    let all = with(&[(11, 0x4E), (13, 0x4E), (15, 0x4E), (17, 0x4E)]);
    let ends = with(&[(11, 0x4E), (12, 1), (17, 0x4E), (18, 255)]);
    let not_held = with(&[(11, 0x4E), (13, 0x52), (15, 0x4E), (17, 0x4E)]);
    let over_pins = Command::ReadSheet {
        bytes: SINGLE_SHEET.to_vec(),
    };
    let unpinned = [(2, 128), (3, 128), (7, 128), (10, 128)];
    let fast = [(2, 640), (3, 640), (7, 640), (10, 640)];
    vec![
        read("one N", with(&[(11, 0x4E)]), &[0, 0], &[(2, 640)]),
        read("all N", all, &[0, 0], &fast),
        read("N 1 and N 255", ends, &[0, 0], &[(2, 513), (10, 767)]),
        case(
            "K over pins",
            (SINGLE, &fast),
            over_pins,
            &[0, 0],
            &unpinned,
        ),
        eight("N 0", 11, &[(11, 0x4E), (12, 0)]),
        eight("last N 0", 17, &[(17, 0x4E), (18, 0)]),
        eight("N for L", 0, &[(0, 0x4E)]),
        eight("N for C", 5, &[(5, 0x4E)]),
        eight("N for E", 19, &[(19, 0x4E)]),
        eight("lower case", 13, &[(13, 0x6E)]),
        eight("P for N", 15, &[(15, 0x50)]),
        cut("a first N alone", 12, 11),
        cut("a last N alone", 18, 17),
        read("R among N", not_held, &[7, 2], &[]),
    ]
}

/// Sheets of the bar, over a table with a removed vertex between two pinned ones. Its
/// vertices begin at 11, 13 and so on, its E is at 27.
fn sheets_of_bar() -> Vec<Case> {
    let read = |name, letters: &[u8; 8], length, wanted: &[u64], after: &Entries| {
        let mut bytes = vec![0x4C, 5, 0, 3, 0, 0x43, 0, 0, 0, 1, 0];
        bytes.extend(letters.iter().flat_map(|&letter| [letter, 128]));
        bytes.extend(END);
        bytes.truncate(length);
        let entries = [(13, 640), (14, 384), (15, 640)];
        case(
            name,
            (BAR, &entries),
            Command::ReadSheet { bytes },
            wanted,
            after,
        )
    };
    let plain = [(13, 128), (14, 128), (15, 128)];
    let turned = [(13, 128), (14, 640), (15, 128)];
    let four = [
        (4, 640),
        (7, 640),
        (13, 384),
        (14, 640),
        (15, 384),
        (18, 384),
        (19, 640),
        (20, 384),
    ];
    vec![
        read("as it is", b"KNRNKKKK", 28, &[0, 0], &[]),
        read("plain", b"KKKKKKKK", 28, &[0, 0], &plain),
        read("N for R", b"KKNKKKKK", 28, &[0, 0], &turned),
        read("four N", b"NRNRNRNR", 28, &[0, 0], &four),
        read("a corner removed", b"RNNNNNNN", 28, &[7, 4], &[]),
        read("8 before 7", b"RNNNNNNN", 27, &[8, 27], &[]),
    ]
}

pub fn cases() -> Vec<Case> {
    let groups = vec![
        entries(),
        wrong_entry(),
        all_pinned(),
        one_removed(),
        smooth_single(),
        smooth_bar(),
        smooth_ring(),
        simplify_bar(),
        simplify_long_bar(),
        pins(),
        vec![pins_of_all()],
        nothing_to_pin(),
        pins_and_noes(),
        beside_pins(),
        ill_formed_pins(),
        sheets(),
        sheets_of_bar(),
    ];
    groups.into_iter().flatten().collect()
}

/// Numbers and entries in one list.
fn listed(entries: &Entries) -> Vec<u64> {
    let pair = |&(number, entry): &(usize, u16)| [number as u64, entry as u64];
    entries.iter().flat_map(pair).collect()
}

/// Of a case the answer, and the entries that are others after it.
fn checks_of(case: &Case) -> Vec<Check> {
    let mut machine = traced(&shown(case.layer));
    for &(number, entry) in &case.entries {
        machine.table[number] = entry;
    }
    let before = machine.table.clone();
    let mut answer = whole(call(&mut machine, case.command.clone()));
    answer.truncate(case.wanted.len());
    let entries = machine.table.iter().copied().enumerate();
    let altered: Vec<(usize, u16)> = entries.filter(|&(n, entry)| before[n] != entry).collect();
    vec![
        check(case.name, &case.wanted, answer),
        check(case.name, &listed(&case.after), listed(&altered)),
    ]
}

pub fn checks() -> Vec<Check> {
    cases().iter().flat_map(checks_of).collect()
}
