// A script for a person: its commands in words, its layers as pictures, other
// bytes in hex.

use crate::layer::{bitmap_sample, row_bytes};
use crate::roll::{edits, Action};
use crate::script::Command;

/// Bytes in hex, 32 to a line, the first 512 only.
fn hex(bytes: &[u8]) -> String {
    let mut text = String::new();
    for line in bytes[..bytes.len().min(512)].chunks(32) {
        let words: Vec<String> = line.iter().map(|byte| format!("{:02X}", byte)).collect();
        text += &format!("  {}\n", words.join(" "));
    }
    if bytes.len() > 512 {
        text += &format!("  and {} bytes more\n", bytes.len() - 512);
    }
    text
}

/// A row of a bitmap: # is inside, . outside; spare bits that are set follow.
fn row(bitmap: &[u8], w: usize, r: usize) -> String {
    let sign = |c: usize| {
        if bitmap_sample(bitmap, w, c, r) {
            '#'
        } else {
            '.'
        }
    };
    let samples: String = (0..w).map(sign).collect();
    let spare: Vec<usize> = (w..8 * row_bytes(w)).filter(|&c| sign(c) == '#').collect();
    if spare.is_empty() {
        return format!("  {}\n", samples);
    }
    format!("  {}  spare bits set: {:?}\n", samples, spare)
}

/// A bitmap as a picture, row H-1 on top; in hex if its length is wrong.
fn picture(w: usize, h: usize, bitmap: &[u8]) -> String {
    if bitmap.is_empty() || bitmap.len() != row_bytes(w) * h {
        return hex(bitmap);
    }
    (0..h).rev().map(|r| row(bitmap, w, r)).collect()
}

/// A roll command by command; in hex if it is not well formed.
fn roll(bytes: &[u8]) -> String {
    let commands = match edits(bytes) {
        Ok(commands) => commands,
        Err(_) => return hex(bytes),
    };
    let mut text = String::new();
    for edit in commands {
        let stick = format!(
            "kind {} column {} row {}",
            edit.stick.kind, edit.stick.c, edit.stick.r
        );
        text += &match edit.action {
            Action::Slide(offset) => format!("  {}: slide {} to {}\n", edit.place, stick, offset),
            Action::Remove => format!("  {}: remove {}\n", edit.place, stick),
            Action::Pin => format!("  {}: pin {}\n", edit.place, stick),
        };
    }
    text
}

/// One command in words.
fn command(command: &Command) -> String {
    match command {
        Command::Bitmap { w, h, bytes } => {
            let head = format!("W {}, H {}, bitmap of {} bytes\n", w, h, bytes.len());
            head + &picture(*w as usize, *h as usize, bytes)
        }
        Command::Table { n, seed } => format!("table of {} entries from seed {}\n", n, seed),
        Command::Poke { index, value } => format!("entry {} = {}\n", index, value),
        Command::Trace => "Trace\n".to_string(),
        Command::Counts => "Counts\n".to_string(),
        Command::Held => "questions 1 to 7\n".to_string(),
        Command::Smooth { limit } => format!("Smooth, limit {}\n", limit),
        Command::Simplify { t } => format!("Simplify, T {}\n", t),
        Command::Roll { t, bytes } => {
            format!("Roll, T {}, {} bytes\n", t, bytes.len()) + &roll(bytes)
        }
        Command::WriteSheet { n } => format!("write a sheet into {} bytes\n", n),
        Command::ReadSheet { bytes } => {
            format!("read a sheet of {} bytes\n", bytes.len()) + &hex(bytes)
        }
        Command::Planner { items, floats } => {
            format!(
                "planner's list into {} items and {} floats\n",
                items, floats
            )
        }
        Command::Areas { areas, sums } => {
            format!("areas into {} numbers, sums into {}\n", areas, sums)
        }
        Command::View { column, row } => format!("view of column {}, row {}\n", column, row),
        Command::Program { bytes } => {
            format!("layer program on {} bytes\n", bytes.len()) + &hex(bytes)
        }
    }
}

/// A whole script.
pub fn show(commands: &[Command]) -> String {
    commands.iter().map(command).collect::<String>() + "end\n"
}
