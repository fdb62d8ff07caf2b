// The sets of vectors: their names, their seeds, and what fills each. A further
// set is one more line and a function.

use crate::builder::Builder;
use crate::sets_areas;
use crate::sets_bitmap;
use crate::sets_lists;
use crate::sets_pins;
use crate::sets_table;
use crate::sets_text;

pub struct Set {
    pub name: &'static str,
    seed: u64,
    fill: fn(&mut Builder),
}

pub const SETS: [Set; 14] = [
    Set {
        name: "trace",
        seed: 101,
        fill: sets_bitmap::trace,
    },
    Set {
        name: "counts",
        seed: 102,
        fill: sets_bitmap::counts,
    },
    Set {
        name: "view",
        seed: 103,
        fill: sets_bitmap::view,
    },
    Set {
        name: "held",
        seed: 110,
        fill: sets_table::held,
    },
    Set {
        name: "smooth",
        seed: 104,
        fill: sets_table::smooth,
    },
    Set {
        name: "simplify",
        seed: 105,
        fill: sets_table::simplify,
    },
    Set {
        name: "roll",
        seed: 106,
        fill: sets_table::roll,
    },
    Set {
        name: "sheet",
        seed: 107,
        fill: sets_text::sheet,
    },
    Set {
        name: "planner",
        seed: 108,
        fill: sets_text::planner,
    },
    Set {
        name: "pins",
        seed: 113,
        fill: sets_pins::pins,
    },
    Set {
        name: "areas",
        seed: 114,
        fill: sets_areas::areas,
    },
    Set {
        name: "lists",
        seed: 111,
        fill: sets_lists::lists,
    },
    Set {
        name: "large",
        seed: 112,
        fill: sets_lists::large,
    },
    Set {
        name: "layer",
        seed: 109,
        fill: sets_text::layer,
    },
];

/// The script of the set with this name, from its own seed or another.
pub fn script(name: &str, seed: Option<u64>) -> Option<Vec<u8>> {
    let set = SETS.iter().find(|set| set.name == name)?;
    let mut builder = Builder::new(seed.unwrap_or(set.seed));
    (set.fill)(&mut builder);
    Some(builder.finish())
}

/// One script of the sets with these names: each without its end, and an end after
/// the last.
pub fn joined(names: &[&str]) -> Option<Vec<u8>> {
    let mut all = Vec::new();
    for name in names {
        all.pop();
        all.extend(script(name, None)?);
    }
    if all.is_empty() {
        return None;
    }
    Some(all)
}
