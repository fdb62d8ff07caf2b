//! The commands: each reads its files, calls the library and writes its outputs.

use crate::areas;
use crate::args::Args;
use crate::failure::Failure;
use crate::files;
use crate::help;
use crate::job::Job;
use crate::picture;
use crate::plot;
use crate::progress::Progress;
use puzhenim::{Counts, Item, Kind, Layer, List, Refusal, Vertex};
use std::ffi::OsStr;

/// An option of a command.
pub struct Opt {
    pub name: &'static str,
    pub has_value: bool,
}

/// A command; an operand in brackets may be left out.
pub struct Command {
    pub name: &'static str,
    pub operands: &'static [&'static str],
    pub options: &'static [Opt],
    pub help: &'static str,
    pub run: fn(&Args) -> Result<(), Failure>,
}

const OUTPUT: Opt = Opt { name: "-o", has_value: true };
const PASSES: Opt = Opt { name: "--passes", has_value: true };
const TOLERANCE: Opt = Opt { name: "--tolerance", has_value: true };
const BINARY: Opt = Opt { name: "--binary", has_value: true };
const SUMS: Opt = Opt { name: "--sums", has_value: true };
const PLOT: Opt = Opt { name: "--plot", has_value: true };
const PAD: Opt = Opt { name: "--pad", has_value: false };

const DEFAULT_PASSES: u16 = 100;
const DEFAULT_TOLERANCE: u8 = 64;

static COMMANDS: [Command; 6] = [
    Command { name: "slice", operands: &["IN"], options: &[OUTPUT, PASSES, TOLERANCE, PAD], help: help::SLICE, run: slice },
    Command { name: "roll", operands: &["IN", "SHEET", "ROLL"], options: &[OUTPUT, TOLERANCE, PAD], help: help::ROLL, run: roll },
    Command { name: "plan", operands: &["IN", "SHEET"], options: &[OUTPUT, BINARY, PAD], help: help::PLAN, run: plan },
    Command { name: "check", operands: &["IN", "SHEET"], options: &[PAD], help: help::CHECK, run: check },
    Command { name: "areas", operands: &["IN", "SHEET"], options: &[SUMS, PLOT, PAD], help: help::AREAS, run: areas },
    Command { name: "draw", operands: &["IN", "[SHEET]"], options: &[OUTPUT, PAD], help: help::DRAW, run: draw },
];

pub fn named(name: &str) -> Result<&'static Command, Failure> {
    COMMANDS.iter().find(|command| command.name == name).ok_or_else(|| Failure::Usage(format!("there is no command {}", name)))
}

fn slice(args: &Args) -> Result<(), Failure> {
    let output = args.required("-o")?;
    let passes = args.number("--passes", u16::MAX, DEFAULT_PASSES)?;
    let tolerance = args.number("--tolerance", u8::MAX, DEFAULT_TOLERANCE)?;
    let (progress, job) = (Progress::start(), Job::open(args)?);
    let mut table = job.layer().new_table();
    let refused = |refusal| job.refused(refusal);
    progress.step("tracing");
    job.layer().trace(&mut table).map_err(refused)?;
    progress.step("smoothing");
    let smoothed = job.layer().smooth(&mut table, passes).map_err(refused)?;
    progress.step("simplifying");
    let simplified = job.layer().simplify(&mut table, tolerance).map_err(refused)?;
    progress.step("writing");
    let sheet = job.layer().sheet(&table).map_err(refused)?;
    files::write(&[(output, &sheet)])?;
    drop(progress);
    let settled = if smoothed.settled { "settled" } else { "not settled" };
    report(&[output], &format!("passes: {} ({}), vertices removed: {}\n", smoothed.passes, settled, simplified.removed))
}

fn roll(args: &Args) -> Result<(), Failure> {
    let output = args.required("-o")?;
    let tolerance = args.number("--tolerance", u8::MAX, DEFAULT_TOLERANCE)?;
    let (progress, job) = (Progress::start(), Job::open(args)?);
    let mut table = job.read_sheet(&progress)?;
    let path = job.operand(2);
    let roll = files::read(path)?;
    progress.step("running the roll");
    let done = job.layer().roll(&mut table, &roll, tolerance).map_err(|refusal| roll_refused(path, refusal))?;
    progress.step("writing");
    let sheet = job.layer().sheet(&table).map_err(|refusal| job.refused(refusal))?;
    files::write(&[(output, &sheet)])?;
    drop(progress);
    report(&[output], &format!("commands done: {}\n", done))
}

fn roll_refused(path: &OsStr, refusal: Refusal) -> Failure {
    match refusal.done() {
        Some(done) => Failure::of(path, format_args!("{}\nCommands done before it: {}. Nothing is written.", refusal, done)),
        None => Failure::of(path, refusal),
    }
}

fn plan(args: &Args) -> Result<(), Failure> {
    let output = args.required("-o")?;
    let points = args.option("--binary");
    args.apart("-o", "--binary")?;
    let (progress, job) = (Progress::start(), Job::open(args)?);
    let table = job.read_sheet(&progress)?;
    progress.step("planning");
    let list = job.layer().list(&table).map_err(|refusal| job.refused(refusal))?;
    let text = plan_figures(job.layer(), &table).map_err(|refusal| job.refused(refusal))?;
    progress.step("writing");
    match points {
        None => files::write(&[(output, as_text(&list).as_bytes())])?,
        Some(points) => {
            let floats: Vec<u8> = list.points.iter().flat_map(|float| float.to_le_bytes()).collect();
            files::write(&[(output, &list.items), (points, &floats)])?;
        }
    }
    drop(progress);
    report(&[output, points.unwrap_or(output)], &text)
}

/// How many outlines and bores the list has, and their areas in its order.
fn plan_figures(layer: Layer, table: &[u16]) -> Result<String, Refusal> {
    let kinds = layer.kinds()?;
    let outlines = kinds.iter().filter(|kind| **kind == Kind::Outline).count();
    let counted = format!("outlines: {}, bores: {}, each after those around it\n", outlines, kinds.len() - outlines);
    Ok(counted + &areas::lines(layer, &layer.areas(table)?, layer.list_order()?)?)
}

/// A line an item. A coordinate is a whole number of 1/256ths of at most 12 digits, so its shortest decimal is exact.
fn as_text(list: &List) -> String {
    let line = |item| match item {
        Item::Move { x, y } => format!("M {} {}\n", x, y),
        Item::Line { x, y } => format!("l {} {}\n", x, y),
        Item::Close => "Z\n".into(),
    };
    list.iter().map(line).collect()
}

fn check(args: &Args) -> Result<(), Failure> {
    let (progress, job) = (Progress::start(), Job::open(args)?);
    let table = job.read_sheet(&progress)?;
    progress.step("counting");
    let refused = |refusal| job.refused(refusal);
    let counts = job.layer().counts(&table).map_err(refused)?;
    let areas = job.layer().areas(&table).map_err(refused)?;
    let area_lines = areas::sheet_lines(job.layer(), &areas).map_err(refused)?;
    drop(progress);
    let mut text = format!("The sheet is good for this layer of {} × {} samples.\n", job.layer().width, job.layer().height);
    for (name, figure) in figures(counts, &table) {
        text += &format!("{:<17}{:>8}\n", name, figure);
    }
    files::say(&(text + "\n" + &area_lines))
}

/// The figures of a sheet. Pinned vertices are among the kept ones, and have a line where there are any.
fn figures(counts: Counts, table: &[u16]) -> Vec<(&'static str, u64)> {
    let vertices = || table.iter().filter_map(|entry| Vertex::of(*entry));
    let kept = vertices().filter(Vertex::is_kept).count();
    let pinned = vertices().filter(Vertex::is_pinned).count();
    let removed = vertices().count() - kept;
    let mut figures = vec![("inside samples", counts.inside), ("sticks", counts.sticks), ("contours", counts.contours)];
    figures.push(("kept vertices", kept as u64));
    if pinned > 0 {
        figures.push(("of these pinned", pinned as u64));
    }
    figures.push(("removed vertices", removed as u64));
    figures
}

fn areas(args: &Args) -> Result<(), Failure> {
    args.apart("--sums", "--plot")?;
    let (progress, job) = (Progress::start(), Job::open(args)?);
    let table = job.read_sheet(&progress)?;
    progress.step("measuring");
    let refused = |refusal| job.refused(refusal);
    let areas = job.layer().areas(&table).map_err(refused)?;
    let counted = format!("contours: {}, drawn edges: {}\n", areas.contours.len(), areas.sums.len());
    let text = counted + &areas::sheet_lines(job.layer(), &areas).map_err(refused)?;
    progress.step("writing");
    let sums = args.option("--sums").map(|path| (path, areas::sum_lines(job.layer(), &areas)));
    let plot = args.option("--plot").map(|path| (path, plot::draw(&job.name(), job.layer(), &areas)));
    let written: Vec<(&OsStr, String)> = sums.into_iter().chain(plot).collect();
    let outputs: Vec<(&OsStr, &[u8])> = written.iter().map(|(path, text)| (*path, text.as_bytes())).collect();
    files::write(&outputs)?;
    drop(progress);
    let paths: Vec<&OsStr> = outputs.iter().map(|(path, _)| *path).collect();
    report(&paths, &text)
}

fn draw(args: &Args) -> Result<(), Failure> {
    let output = args.required("-o")?;
    let (progress, job) = (Progress::start(), Job::open(args)?);
    let table = match args.operand(1) {
        Some(_) => job.read_sheet(&progress)?,
        None => {
            let mut table = job.layer().new_table();
            job.layer().trace(&mut table).map_err(|refusal| job.refused(refusal))?;
            table
        }
    };
    progress.step("drawing");
    let picture = picture::draw(&job.name(), job.layer(), &table).map_err(|refusal| job.refused(refusal))?;
    files::write(&[(output, picture.as_bytes())])
}

/// Figures of a run, unless standard output is where an output goes.
fn report(outputs: &[&OsStr], text: &str) -> Result<(), Failure> {
    if outputs.contains(&OsStr::new("-")) {
        return Ok(());
    }
    files::say(text)
}
