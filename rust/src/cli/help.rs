//! What `--help` says.

use crate::commands;
use crate::failure::Failure;
use crate::files;
use std::ffi::OsString;

const ALL: &str = "\
puzhenim: contours of a sampled layer, by a library that is proved correct

  puzhenim slice IN -o SHEET              trace, smooth and simplify a layer
  puzhenim roll IN SHEET ROLL -o SHEET2   run an edit roll on a sheet
  puzhenim plan IN SHEET -o LIST          the planner's list of a sheet
  puzhenim check IN SHEET                 is the sheet good? figures and areas
  puzhenim areas IN SHEET                 areas, and their growth by sticks
  puzhenim draw IN [SHEET] -o PICTURE     the layer and its contours as SVG
  puzhenim COMMAND --help                 more on a command
  puzhenim --version

IN is the layer: a portable bitmap (PBM, P1 or P4), black inside, its top row
the layer's highest, or a layer file (the letter L, width and height in 16 bits
each, low byte first, the bitmap). Sides are 2 to 1024 samples, and every border
sample is outside; --pad, with every command, adds an outside sample all round
to a PBM. The file name - is standard input or output.

A refusal says which question was answered no (1 to 16) and where, and exits
with status 1, a wrong command line with 2. Then no output file is touched.
";

pub const SLICE: &str = "\
puzhenim slice IN -o SHEET [--passes N] [--tolerance T] [--pad]

Traces the layer, smooths its contours, removes spare vertices and writes the
sheet. Each contour is smoothed by itself until it is settled. Says how many
passes a contour took at most, and whether all are settled.

  -o SHEET        where the sheet goes
  --passes N      at most N smoothing passes of each contour, 0 to 65535
                  (default 100)
  --tolerance T   a removed vertex lies within T/256 of a sample's pitch of the
                  contour, T 0 to 255 (default 64)
  --pad           add an outside sample all round to a PBM
";

pub const ROLL: &str = "\
puzhenim roll IN SHEET ROLL -o SHEET2 [--tolerance T] [--pad]

Reads the sheet against the layer, runs the edit roll and writes the new sheet.
If an edit is refused nothing is written, and the message says which.

A roll is bytes: S, a stick and an offset slide a vertex; X and a stick remove
one; P and a stick pin one, which is then neither slid nor removed; E ends the
roll. A stick is its kind (0 horizontal, 1 vertical), column and row, 16 bits
each, low byte first.

A pinned vertex has N in the sheet, where another kept one has K. No command
takes a pin away; a sheet that slice writes has none.

  -o SHEET2       where the new sheet goes
  --tolerance T   as for slice (default 64)
  --pad           add an outside sample all round to a PBM
";

pub const PLAN: &str = "\
puzhenim plan IN SHEET -o LIST [--binary POINTS] [--pad]

Writes the planner's list, a line each item: M x y begins a contour, l x y draws
a line, Z closes the contour. x and y are in samples and exact, y upward.

Contours come by depth, the number of others around them, and among equal depth
by their first stick: an outline comes before the bores within it, a bore before
the outlines within it. Says how many outlines and bores were written, and the
area of each as check does, but in the order of the list; nothing if an output
is -.

  -o LIST           where the list goes
  --binary POINTS   LIST gets a byte an item (M, l, Z) and POINTS x and y of each
                    point, as 64-bit floats, low byte first
  --pad             add an outside sample all round to a PBM
";

pub const CHECK: &str = "\
puzhenim check IN SHEET [--pad]

Says whether the sheet is good for the layer, with its figures: inside samples,
sticks, contours, kept vertices, how many of these are pinned if any are, and
removed vertices.

Then the area that each contour encloses, a line each, in the order of the
sheet: outline or bore, column and row from below of its first stick, the area
in square samples, rounded, and exactly, in 1/131072 of a square sample. A square
sample is one pitch by one pitch. Outlines have areas above 0, bores below 0.
The last line is the total, the sum over all contours.

  --pad   add an outside sample all round to a PBM
";

pub const AREAS: &str = "\
puzhenim areas IN SHEET [--sums FILE] [--plot PICTURE] [--pad]

Says how many contours and drawn edges the sheet has, then the area of each
contour and the total as check has them. Says nothing if an output is -.

The total is also the sum over all drawn edges in the order of the number of the
stick that each starts from. In 1/256 of the pitch, an edge adds its start's x
times its end's y, less its end's x times its start's y; so on the way the sum
may be below 0 or above the total.

  --sums FILE      where the sum after each edge goes, a line each: the stick's
                   number, kind (0 horizontal, 1 vertical), column and row, and
                   the sum in 1/131072 of a square sample
  --plot PICTURE   where a plot of these sums goes, as SVG
  --pad            add an outside sample all round to a PBM
";

pub const DRAW: &str = "\
puzhenim draw IN [SHEET] -o PICTURE [--pad]

Draws the layer and the contours of the sheet, without one the traced contours,
as SVG. Samples and vertices are marked unless the grid is too fine for it,
pinned vertices by a square. The legend has the areas of the outlines and of the
bores, each summed up, and the total, in square samples with the exact number in
1/131072 of a square sample beside it.

  -o PICTURE   where the picture goes
  --pad        add an outside sample all round to a PBM
";

/// The help of a command, or of all.
pub fn show(command: Option<OsString>) -> Result<(), Failure> {
    match command {
        Some(name) => files::say(commands::named(&name.to_string_lossy())?.help),
        None => files::say(ALL),
    }
}
