// Answers a script through the exported library, as the reference answers it, so that the two can be compared on any script. Besides, it
// checks of each call that a slice of figures that is too short is refused by 14 and touches nothing, that figures past the fourth stay, and
// that nothing outside the buffers it is lent is written.
// Build: rustc -O --edition 2021 -L crates/puzhenim/out -l static=puzhenim -o library tests/library/main.rs

#[allow(dead_code)]
#[path = "../reference/script.rs"]
mod script;

use script::Command;
use std::io::Read;

/// A layer as every function takes it, and a slice.
macro_rules! declare {
    ($($name:ident ( $($argument:ident : $type:ty),* );)*) => {
        extern "C" {
            $(fn $name(w: u16, h: u16, bitmap: *const u8, bytes: usize, $($argument: $type,)* figures: *mut u64, count: usize) -> u32;)*
        }
    };
}

declare! {
    pz_counts(table: *const u16, entries: usize);
    pz_trace(table: *mut u16, entries: usize);
    pz_smooth(table: *mut u16, entries: usize, limit: u16);
    pz_simplify(table: *mut u16, entries: usize, t: u8);
    pz_roll(table: *mut u16, entries: usize, roll: *const u8, length: usize, t: u8);
    pz_write_sheet(table: *const u16, entries: usize, sheet: *mut u8, length: usize);
    pz_read_sheet(table: *mut u16, entries: usize, sheet: *const u8, length: usize);
    pz_plan(table: *const u16, entries: usize, items: *mut u8, item_count: usize, points: *mut f64, float_count: usize);
    pz_areas(table: *const u16, entries: usize, areas: *mut i64, area_count: usize, sums: *mut i64, sum_count: usize);
}

extern "C" {
    fn pz_sample(w: u16, h: u16, bitmap: *const u8, bytes: usize, column: u16, row: u16, figures: *mut u64, count: usize) -> u32;
}

/// What figures and outputs hold before a call, and how many elements stand guard on each side of a buffer.
const FIGURE_BEFORE: u64 = 0xA5A5_A5A5_A5A5_A5A5;
const BYTE_BEFORE: u8 = 0xAA;
const FLOAT_BEFORE: f64 = -1.0;
const SIGNED_BEFORE: i64 = -1;
const GUARD: usize = 8;

/// A buffer between two guards.
#[derive(Clone, PartialEq, Debug)]
struct Lent<T> {
    all: Vec<T>,
    guard: T,
}

impl<T: Copy + PartialEq> Lent<T> {
    fn new(contents: &[T], guard: T) -> Lent<T> {
        let fence = vec![guard; GUARD];
        Lent { all: [&fence, contents, &fence].concat(), guard }
    }

    fn slice(&self) -> &[T] {
        &self.all[GUARD..self.all.len() - GUARD]
    }

    fn pointer(&mut self) -> *mut T {
        self.all[GUARD..].as_mut_ptr()
    }

    fn len(&self) -> usize {
        self.all.len() - 2 * GUARD
    }

    fn stands(&self) -> bool {
        let n = self.all.len();
        self.all[..GUARD].iter().chain(&self.all[n - GUARD..]).all(|element| *element == self.guard)
    }
}

/// What a call is lent besides the bitmap and the figures.
#[derive(Clone, PartialEq, Debug)]
struct Buffers {
    table: Lent<u16>,
    bytes: Lent<u8>,
    floats: Lent<f64>,
    areas: Lent<i64>,
    sums: Lent<i64>,
}

impl Buffers {
    fn stand(&self) -> bool {
        self.table.stands() && self.bytes.stands() && self.floats.stands() && self.areas.stands() && self.sums.stands()
    }
}

/// How long the outputs of a call are.
#[derive(Default)]
struct Lengths {
    bytes: usize,
    floats: usize,
    areas: usize,
    sums: usize,
}

struct State {
    w: u16,
    h: u16,
    bitmap: Vec<u8>,
    table: Vec<u16>,
}

/// A call: the layer, what is lent, and the figures.
type Call<'a> = &'a dyn Fn(&State, &mut Buffers, &mut [u64]) -> u32;

/// Makes an exported function's call; pointers and lengths are those of live slices.
macro_rules! call {
    ($name:ident, $($argument:expr),*) => {
        |state: &State, b: &mut Buffers, figures: &mut [u64]| unsafe {
            $name(state.w, state.h, state.bitmap.as_ptr(), state.bitmap.len(), b.table.pointer(), b.table.len(), $($argument(&mut *b)),* , figures.as_mut_ptr(), figures.len())
        }
    };
    ($name:ident) => {
        |state: &State, b: &mut Buffers, figures: &mut [u64]| unsafe {
            $name(state.w, state.h, state.bitmap.as_ptr(), state.bitmap.len(), b.table.pointer(), b.table.len(), figures.as_mut_ptr(), figures.len())
        }
    };
}

fn digest(numbers: impl Iterator<Item = u16>) -> u64 {
    numbers.fold(1, |digest, number| (digest * 65599 + u64::from(number) + 1) % 2_147_483_647)
}

fn pieces(bits: u64) -> [u16; 4] {
    [bits as u16, (bits >> 16) as u16, (bits >> 32) as u16, (bits >> 48) as u16]
}

impl State {
    /// The number, place and figures of a call with so many figures of its own, and what it leaves.
    fn made(&mut self, own: usize, outputs: Lengths, call: Call) -> (String, Buffers) {
        let before = Buffers {
            table: Lent::new(&self.table, 0x5A5A),
            bytes: Lent::new(&vec![BYTE_BEFORE; outputs.bytes], 0x5A),
            floats: Lent::new(&vec![FLOAT_BEFORE; outputs.floats], -2.0),
            areas: Lent::new(&vec![SIGNED_BEFORE; outputs.areas], -2),
            sums: Lent::new(&vec![SIGNED_BEFORE; outputs.sums], -3),
        };
        let mut after = before.clone();
        let mut short = [FIGURE_BEFORE; 3];
        assert_eq!(call(self, &mut after, &mut short), 14, "three figures are refused");
        assert!(short == [FIGURE_BEFORE; 3] && after == before, "nothing is touched");
        let mut figures = [FIGURE_BEFORE; 6];
        let number = call(self, &mut after, &mut figures);
        assert_eq!(figures[4..], [FIGURE_BEFORE; 2], "figures past the fourth stay");
        assert!(figures[1 + own..4].iter().all(|figure| *figure == 0), "the rest are 0");
        assert!(after.stand(), "the guards stand");
        self.table = after.table.slice().to_vec();
        let words: Vec<String> = figures[..1 + own].iter().map(|figure| figure.to_string()).collect();
        (format!("{} {}", number, words.join(" ")), after)
    }

    fn line(&self, letter: char, words: String) -> String {
        format!("{} {} {}\n", letter, words, digest(self.table.iter().copied()))
    }

    /// The line of a call that has no output but its figures and the table.
    fn plain(&mut self, letter: char, own: usize, call: Call) -> String {
        let words = self.made(own, Lengths::default(), call).0;
        self.line(letter, words)
    }

    fn write_sheet(&mut self, n: usize) -> String {
        let call = call!(pz_write_sheet, |b: &mut Buffers| b.bytes.pointer(), |b: &mut Buffers| b.bytes.len());
        let (words, after) = self.made(1, Lengths { bytes: n, ..Lengths::default() }, &call);
        self.line('W', format!("{} {}", words, digest(after.bytes.slice().iter().map(|byte| u16::from(*byte)))))
    }

    fn plan(&mut self, items: usize, floats: usize) -> String {
        let call = call!(
            pz_plan,
            |b: &mut Buffers| b.bytes.pointer(),
            |b: &mut Buffers| b.bytes.len(),
            |b: &mut Buffers| b.floats.pointer(),
            |b: &mut Buffers| b.floats.len()
        );
        let (words, after) = self.made(2, Lengths { bytes: items, floats, ..Lengths::default() }, &call);
        let bytes = digest(after.bytes.slice().iter().map(|byte| u16::from(*byte)));
        let points = digest(after.floats.slice().iter().flat_map(|float| pieces(float.to_bits())));
        self.line('L', format!("{} {} {}", words, bytes, points))
    }

    fn areas(&mut self, areas: usize, sums: usize) -> String {
        let call = call!(
            pz_areas,
            |b: &mut Buffers| b.areas.pointer(),
            |b: &mut Buffers| b.areas.len(),
            |b: &mut Buffers| b.sums.pointer(),
            |b: &mut Buffers| b.sums.len()
        );
        let (words, after) = self.made(3, Lengths { areas, sums, ..Lengths::default() }, &call);
        let [areas, sums] = [after.areas, after.sums].map(|lent| digest(lent.slice().iter().flat_map(|number| pieces(*number as u64))));
        self.line('A', format!("{} {} {}", words, areas, sums))
    }

    /// The view is lent no table.
    fn sample(&mut self, column: u16, row: u16) -> String {
        let call = |state: &State, _: &mut Buffers, figures: &mut [u64]| unsafe {
            let (bitmap, bytes) = (state.bitmap.as_ptr(), state.bitmap.len());
            pz_sample(state.w, state.h, bitmap, bytes, column, row, figures.as_mut_ptr(), figures.len())
        };
        self.plain('V', 1, &call)
    }

    /// Carries a command out, and answers the line of a call.
    fn turn(&mut self, command: &Command) -> String {
        match command {
            Command::Bitmap { w, h, bytes } => {
                self.w = *w;
                self.h = *h;
                self.bitmap = bytes.clone();
            }
            Command::Table { n, seed } => {
                self.table = (0..*n).map(|i| seed.wrapping_add((i as u16).wrapping_mul(40503))).collect();
            }
            Command::Poke { index, value } => {
                if let Some(entry) = self.table.get_mut(*index as usize) {
                    *entry = *value;
                }
            }
            call => return self.answer(call),
        }
        String::new()
    }

    fn answer(&mut self, command: &Command) -> String {
        match command {
            Command::Trace => self.plain('T', 0, &call!(pz_trace)),
            Command::Counts => self.plain('N', 3, &call!(pz_counts)),
            Command::Smooth { limit } => self.plain('S', 3, &call!(pz_smooth, |_: &mut Buffers| *limit)),
            Command::Simplify { t } => self.plain('Y', 2, &call!(pz_simplify, |_: &mut Buffers| *t)),
            Command::Roll { t, bytes } => {
                let roll = |_: &mut Buffers| bytes.as_ptr();
                self.plain('R', 1, &call!(pz_roll, roll, |_: &mut Buffers| bytes.len(), |_: &mut Buffers| *t))
            }
            Command::WriteSheet { n } => self.write_sheet(*n as usize),
            Command::ReadSheet { bytes } => {
                let sheet = |_: &mut Buffers| bytes.as_ptr();
                self.plain('D', 0, &call!(pz_read_sheet, sheet, |_: &mut Buffers| bytes.len()))
            }
            Command::Planner { items, floats } => self.plan(*items as usize, *floats as usize),
            Command::Areas { areas, sums } => self.areas(*areas as usize, *sums as usize),
            Command::View { column, row } => self.sample(*column, *row),
            other => panic!("the library has no call {}", other.letter() as char),
        }
    }
}

fn main() {
    let mut bytes = Vec::new();
    std::io::stdin().read_to_end(&mut bytes).expect("standard input is read");
    let commands = script::parse(&bytes).expect("the script is good");
    let mut state = State { w: 0, h: 0, bitmap: Vec::new(), table: Vec::new() };
    for command in &commands {
        print!("{}", state.turn(command));
    }
}
