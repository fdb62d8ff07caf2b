// Cases beside the paper's own: for each question 1 to 15 what is refused, at
// which place, and which of two noes wins.

use crate::cases::{call, check, traced, whole, Check, BAR, SINGLE};
use crate::machine::Machine;
use crate::picture::shown;
use crate::script::Command;

/// Trace's number and place on these sides, bitmap and table length.
fn trace(w: u16, h: u16, bitmap: &[u8], entries: usize) -> Vec<u64> {
    let bitmap = bitmap.to_vec();
    let table = vec![500; entries];
    whole(call(
        &mut Machine {
            w,
            h,
            bitmap,
            table,
        },
        Command::Trace,
    ))
}

/// Questions 1 to 5.
fn bitmaps() -> Vec<Check> {
    vec![
        check("a good bitmap", &[0, 0], trace(3, 3, &[0, 2, 0], 12)),
        check("H 1", &[1, 0], trace(3, 1, &[9], 0)),
        check("H 1025", &[1, 0], trace(2, 1025, &[0; 1025], 3073)),
        check("a byte short", &[2, 0], trace(3, 3, &[8, 2], 12)),
        check("a byte long", &[2, 0], trace(3, 3, &[1, 2, 0, 0], 12)),
        check("no bitmap", &[2, 0], trace(3, 3, &[], 12)),
        check("spare bit below", &[3, 0], trace(3, 3, &[8, 2, 8], 12)),
        check(
            "spare bit in the middle",
            &[3, 1],
            trace(3, 3, &[1, 0x82, 8], 12),
        ),
        check("spare bit on top", &[3, 2], trace(3, 3, &[1, 2, 0x10], 0)),
        check(
            "spare bit, W 9",
            &[3, 3],
            trace(9, 3, &[0, 1, 0, 2, 0, 4], 42),
        ),
        check("border below", &[4, 1], trace(3, 3, &[2, 2, 4], 12)),
        check("border on the left", &[4, 3], trace(3, 3, &[0, 3, 1], 12)),
        check("border on the right", &[4, 5], trace(3, 3, &[0, 6, 0], 0)),
        check("border on top", &[4, 8], trace(3, 3, &[0, 2, 4], 12)),
        check("border, W 9", &[4, 8], trace(9, 3, &[0, 1, 0, 0, 0, 0], 42)),
        check("border, W 8", &[4, 15], trace(8, 3, &[0, 0x80, 0], 37)),
        check("no table", &[5, 0], trace(3, 3, &[0, 2, 0], 0)),
        check("an entry short", &[5, 0], trace(3, 3, &[0, 2, 0], 11)),
        check("an entry long", &[5, 0], trace(3, 3, &[0, 2, 0], 13)),
    ]
}

/// Smooth's number and place after these entries were set.
fn smooth(layer: &str, entries: &[(usize, u16)]) -> Vec<u64> {
    let mut machine = traced(&shown(layer));
    for &(number, entry) in entries {
        machine.table[number] = entry;
    }
    let mut answer = whole(call(&mut machine, Command::Smooth { limit: 0 }));
    answer.truncate(2);
    answer
}

/// Questions 6, 7 and 15.
fn tables() -> Vec<Check> {
    let two = ".... ..#. .#.. ....";
    vec![
        check("1 off sticks", &[6, 0], smooth(SINGLE, &[(0, 1), (2, 0)])),
        check("0 on a stick", &[6, 2], smooth(SINGLE, &[(2, 0), (3, 384)])),
        check("256", &[6, 10], smooth(SINGLE, &[(10, 256), (11, 9)])),
        check("512", &[6, 7], smooth(SINGLE, &[(7, 512)])),
        check(
            "257 and 511",
            &[7, 2],
            smooth(SINGLE, &[(7, 257), (2, 511)]),
        ),
        check(
            "a chord on the sample",
            &[7, 2],
            smooth(SINGLE, &[(10, 384)]),
        ),
        check("second contour", &[7, 7], smooth(two, &[(8, 384)])),
        check("both contours", &[7, 3], smooth(two, &[(8, 384), (4, 384)])),
        check("one removed", &[15, 14], smooth(BAR, &[(14, 384)])),
        check("upper one removed", &[15, 19], smooth(BAR, &[(19, 384)])),
        check(
            "two removed",
            &[15, 14],
            smooth(BAR, &[(19, 384), (14, 384)]),
        ),
        check("none removed", &[0, 0], smooth(BAR, &[(19, 255), (14, 1)])),
    ]
}

/// The answer to a roll with T 255 on the bar as traced.
fn roll(parts: &[&[u8]]) -> Vec<u64> {
    let bytes = parts.concat();
    let mut machine = traced(&shown(BAR));
    whole(call(&mut machine, Command::Roll { t: 255, bytes }))
}

/// Questions 8 to 11.
fn rolls() -> Vec<Check> {
    let slide: &[u8] = &[0x53, 1, 2, 0, 0, 0, 140];
    let to_zero: &[u8] = &[0x53, 1, 2, 0, 0, 0, 0];
    let removal: &[u8] = &[0x58, 1, 2, 0, 0, 0];
    let corner: &[u8] = &[0x58, 0, 0, 0, 1, 0];
    let no_stick: &[u8] = &[0x53, 0, 1, 0, 1, 0, 0];
    let off_grid: &[u8] = &[0x58, 1, 2, 0, 2, 0];
    let kind: &[u8] = &[0x58, 2, 2, 0, 0, 0];
    let end: &[u8] = &[0x45];
    vec![
        check("no E", &[8, 7, 0], roll(&[slide])),
        check("cut slide", &[8, 7, 0], roll(&[slide, &slide[..6]])),
        check("cut removal", &[8, 7, 0], roll(&[slide, &removal[..5]])),
        check("other letter", &[8, 7, 0], roll(&[slide, &[0x73], end])),
        check("after E", &[8, 8, 0], roll(&[slide, end, slide])),
        check("second E", &[8, 1, 0], roll(&[end, end])),
        check("9 and then 8", &[8, 7, 0], roll(&[kind, end, end])),
        check("no stick", &[9, 7, 1], roll(&[slide, no_stick, end])),
        check("off the grid", &[9, 0, 0], roll(&[off_grid, end])),
        check("kind 2", &[9, 14, 2], roll(&[slide, slide, kind, end])),
        check("removed", &[9, 6, 1], roll(&[removal, to_zero, end])),
        check("to 0", &[10, 7, 1], roll(&[slide, to_zero, end])),
        check("corner", &[11, 6, 1], roll(&[removal, corner, end])),
        check("all done", &[0, 0, 3], roll(&[slide, slide, removal, end])),
    ]
}

/// The answer to reading this sheet against the single sample, and whether the
/// table is as Trace leaves it afterwards.
fn read(sheet: &[u8]) -> Vec<u64> {
    let before = traced(&shown(SINGLE));
    let mut machine = before.clone();
    machine.table = vec![999; 12];
    let bytes = sheet.to_vec();
    let answer = whole(call(&mut machine, Command::ReadSheet { bytes }));
    let state = if machine.table == vec![999; 12] { 0 } else { 1 };
    let traced = (machine.table == before.table) as u64;
    [answer, vec![state + traced]].concat()
}

/// The sheet of the single sample as traced.
const SHEET: [u8; 20] = [
    0x4C, 3, 0, 3, 0, 0x43, 0, 0, 0, 1, 0, 0x4B, 128, 0x4B, 128, 0x4B, 128, 0x4B, 128, 0x45,
];

/// The sheet with one byte changed.
fn with(i: usize, byte: u8) -> Vec<u8> {
    let mut sheet = SHEET.to_vec();
    sheet[i] = byte;
    sheet
}

/// Questions 8 and 7 of a sheet; a refused one leaves the table (0), the one of
/// Trace's table writes that (2), another one something else (1).
fn sheets() -> Vec<Check> {
    vec![
        check("good sheet", &[0, 0, 2], read(&SHEET)),
        check("another offset", &[0, 0, 1], read(&with(12, 200))),
        check("other W", &[8, 0, 0], read(&with(1, 4))),
        check("other first byte", &[8, 0, 0], read(&with(0, 0x6C))),
        check("other first stick", &[8, 5, 0], read(&with(7, 1))),
        check("K for C", &[8, 5, 0], read(&with(5, 0x4B))),
        check("offset 0", &[8, 13, 0], read(&with(14, 0))),
        check("other letter", &[8, 15, 0], read(&with(15, 0x45))),
        check("no E", &[8, 19, 0], read(&SHEET[..19])),
        check("half a vertex", &[8, 17, 0], read(&SHEET[..18])),
        check("half an L", &[8, 0, 0], read(&SHEET[..4])),
        check("no contour", &[8, 5, 0], read(&SHEET[..5])),
        check("half a C", &[8, 5, 0], read(&SHEET[..10])),
        check("nothing", &[8, 0, 0], read(&[])),
        check(
            "after E",
            &[8, 20, 0],
            read(&[&SHEET[..], &[0x45]].concat()),
        ),
        check("not held", &[7, 2, 0], read(&with(13, 0x52))),
    ]
}

/// Question 14 of a sheet, its length, and what is past its end.
fn outputs() -> Vec<Check> {
    let write = |n: u32| {
        let mut machine = traced(&shown(SINGLE));
        let mut answer = whole(call(&mut machine, Command::WriteSheet { n }));
        answer.truncate(3);
        answer
    };
    vec![
        check("exact output", &[0, 0, 20], write(20)),
        check("long output", &[0, 0, 20], write(40)),
        check("short output", &[14, 0, 0], write(19)),
        check("no output", &[14, 0, 0], write(0)),
    ]
}

/// Samples on the grid and off it, and of a view that was refused.
fn views() -> Vec<Check> {
    let view = |bitmap: &[u8], column: u16, row: u16| {
        let bitmap = bitmap.to_vec();
        let table = Vec::new();
        let mut machine = Machine {
            w: 3,
            h: 3,
            bitmap,
            table,
        };
        whole(call(&mut machine, Command::View { column, row }))
    };
    vec![
        check("inside", &[0, 0, 1], view(&[0, 2, 0], 1, 1)),
        check("outside", &[0, 0, 0], view(&[0, 2, 0], 2, 1)),
        check("right of the grid", &[0, 0, 0], view(&[0, 2, 0], 4, 0)),
        check("right by eight", &[0, 0, 0], view(&[0, 2, 0], 9, 0)),
        check("above the grid", &[0, 0, 0], view(&[0, 2, 0], 1, 3)),
        check("refused", &[4, 3, 0], view(&[0, 3, 0], 1, 1)),
        check("refused length", &[2, 0, 0], view(&[0, 2], 1, 1)),
    ]
}

pub fn checks() -> Vec<Check> {
    let groups = vec![bitmaps(), tables(), rolls(), sheets(), outputs(), views()];
    groups.into_iter().flatten().collect()
}
