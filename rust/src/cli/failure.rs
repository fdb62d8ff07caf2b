//! What ends a run early.

use puzhenim::{Layer, Refusal};
use std::ffi::OsStr;
use std::fmt;
use std::path::Path;

pub enum Failure {
    /// The command line is wrong.
    Usage(String),
    /// A call was refused, or a file could not be read or written.
    Stopped(String),
}

impl Failure {
    pub fn status(&self) -> u8 {
        match self {
            Failure::Usage(_) => 2,
            Failure::Stopped(_) => 1,
        }
    }

    /// Something about a file.
    pub fn of(path: &OsStr, what: impl fmt::Display) -> Failure {
        Failure::Stopped(format!("{}: {}", Path::new(path).display(), what))
    }

    /// A refusal because of a file, its place also by column and row.
    pub fn refused(path: &OsStr, layer: Layer, refusal: Refusal) -> Failure {
        Failure::of(path, format_args!("{}{}", refusal, whereabouts(layer, refusal)))
    }
}

fn whereabouts(layer: Layer, refusal: Refusal) -> String {
    match refusal {
        Refusal::BorderInside { sample } => {
            let across = u64::from(layer.width.max(1));
            let (column, row) = (sample % across, sample / across);
            format!("\nThat is column {}, row {} from below. --pad adds a border of outside samples to a picture.", column, row)
        }
        Refusal::NotHeld { stick } => match layer.edge(stick as usize) {
            Some(edge) => format!("\nThat stick is at column {}, row {} from below.", edge.column, edge.row),
            None => String::new(),
        },
        _ => String::new(),
    }
}

impl fmt::Display for Failure {
    fn fmt(&self, f: &mut fmt::Formatter<'_>) -> fmt::Result {
        match self {
            Failure::Usage(what) => write!(f, "{}\nTry 'puzhenim --help'.", what),
            Failure::Stopped(what) => f.write_str(what),
        }
    }
}
