// What runs a script: W, H, a bitmap and a table, the calls on them, and the
// line that answers each call.

use crate::areas::areas;
use crate::hold::ask_1_to_7;
use crate::layer::Refusal;
use crate::planner::planner;
use crate::program::program;
use crate::roll::roll;
use crate::script::Command;
use crate::sheet::{read_sheet, write_sheet};
use crate::simplify::simplify;
use crate::smooth::smooth;
use crate::trace::{counts, trace, View};

/// What fills a lent output before the call.
const BYTE_BEFORE: u8 = 0xAA;
const FLOAT_BEFORE: f64 = -1.0;
pub const SIGNED_BEFORE: i64 = -1;

/// "At first 0, 0 and empty."
#[derive(Default, Clone)]
pub struct Machine {
    pub w: u16,
    pub h: u16,
    pub bitmap: Vec<u8>,
    pub table: Vec<u16>,
}

/// The answer to a call: 0 and 0 if done, else the refusal; then its figures.
pub struct Answer {
    pub number: u64,
    pub place: usize,
    pub figures: Vec<u64>,
}

impl Answer {
    /// Done with these figures, or refused with so many figures of 0: "All other
    /// figures of a refused call are 0."
    fn new(outcome: Result<Vec<u64>, Refusal>, figures: usize) -> Answer {
        match outcome {
            Ok(figures) => Answer {
                number: 0,
                place: 0,
                figures,
            },
            Err(refusal) => Answer {
                number: refusal.number,
                place: refusal.place,
                figures: vec![0; figures],
            },
        }
    }

    /// The figures of the call, then these.
    fn and(mut self, figures: &[u64]) -> Answer {
        self.figures.extend(figures);
        self
    }
}

/// h = 1; for each x: h = (h*65599 + x + 1) mod 2147483647.
pub fn digest(numbers: impl Iterator<Item = u16>) -> u64 {
    numbers.fold(1, |h, x| (h * 65599 + x as u64 + 1) % 2147483647)
}

fn digest_bytes(bytes: &[u8]) -> u64 {
    digest(bytes.iter().map(|&byte| byte as u16))
}

/// Of each number of 64 bits its four 16-bit pieces, the lowest first.
fn digest_bits(numbers: impl Iterator<Item = u64>) -> u64 {
    let pieces = |bits: u64| [0, 16, 32, 48].map(|shift| (bits >> shift) as u16);
    digest(numbers.flat_map(pieces))
}

fn digest_floats(floats: &[f64]) -> u64 {
    digest_bits(floats.iter().map(|float| float.to_bits()))
}

/// Signed numbers as two's complement has them.
fn digest_signed(numbers: &[i64]) -> u64 {
    digest_bits(numbers.iter().map(|&number| number as u64))
}

impl Machine {
    /// Runs a command; a call gives an answer.
    pub fn run(&mut self, command: &Command) -> Option<Answer> {
        match command {
            Command::Bitmap { w, h, bytes } => {
                self.w = *w;
                self.h = *h;
                self.bitmap = bytes.clone();
                None
            }
            Command::Table { n, seed } => {
                let entry = |i: u64| ((*seed as u64 + i * 40503) % 65536) as u16;
                self.table = (0..*n as u64).map(entry).collect();
                None
            }
            Command::Poke { index, value } => {
                if let Some(entry) = self.table.get_mut(*index as usize) {
                    *entry = *value;
                }
                None
            }
            call => Some(self.call(call)),
        }
    }

    fn call(&mut self, command: &Command) -> Answer {
        match command {
            Command::Trace => self.trace(),
            Command::Counts => self.counts(),
            Command::Held => self.held(),
            Command::Smooth { limit } => self.smooth(*limit),
            Command::Simplify { t } => self.simplify(*t),
            Command::Roll { t, bytes } => self.roll(*t, bytes),
            Command::WriteSheet { n } => self.write_sheet(*n as usize),
            Command::ReadSheet { bytes } => self.read_sheet(bytes),
            Command::Planner { items, floats } => self.planner(*items as usize, *floats as usize),
            Command::Areas { areas, sums } => self.areas(*areas as usize, *sums as usize),
            Command::View { column, row } => self.view(*column, *row),
            Command::Program { bytes } => {
                let written = program(bytes);
                let figures = vec![written.len() as u64, digest_bytes(&written)];
                Answer {
                    number: 0,
                    place: 0,
                    figures,
                }
            }
            _ => unreachable!("the other commands are no calls"),
        }
    }

    fn trace(&mut self) -> Answer {
        let outcome = trace(self.w, self.h, &self.bitmap, &mut self.table);
        Answer::new(outcome.map(|()| Vec::new()), 0)
    }

    fn counts(&self) -> Answer {
        let outcome = counts(self.w, self.h, &self.bitmap, &self.table);
        let figures = outcome.map(|found| {
            vec![
                found.inside as u64,
                found.sticks as u64,
                found.contours as u64,
            ]
        });
        Answer::new(figures, 3)
    }

    /// Questions 1 to 7, which are no call of their own: they come first in most.
    fn held(&self) -> Answer {
        let outcome = ask_1_to_7(self.w, self.h, &self.bitmap, &self.table);
        Answer::new(outcome.map(|_| Vec::new()), 0)
    }

    fn smooth(&mut self, limit: u16) -> Answer {
        let outcome = smooth(self.w, self.h, &self.bitmap, &mut self.table, limit);
        let figures = outcome.map(|done| vec![done.passes, done.total, done.settled as u64]);
        Answer::new(figures, 3)
    }

    fn simplify(&mut self, t: u8) -> Answer {
        let outcome = simplify(self.w, self.h, &self.bitmap, &mut self.table, t);
        Answer::new(outcome.map(|done| vec![done.removed as u64, done.tried]), 2)
    }

    fn roll(&mut self, t: u8, bytes: &[u8]) -> Answer {
        let rolled = roll(self.w, self.h, &self.bitmap, &mut self.table, t, bytes);
        let outcome = rolled.refusal.map_or(Ok(Vec::new()), Err);
        Answer::new(outcome, 0).and(&[rolled.done])
    }

    /// The digest is that of the whole output, also if the call is refused.
    fn write_sheet(&self, n: usize) -> Answer {
        let mut output = vec![BYTE_BEFORE; n];
        let outcome = write_sheet(self.w, self.h, &self.bitmap, &self.table, &mut output);
        let answer = Answer::new(outcome.map(|length| vec![length as u64]), 1);
        answer.and(&[digest_bytes(&output)])
    }

    fn read_sheet(&mut self, sheet: &[u8]) -> Answer {
        let outcome = read_sheet(self.w, self.h, &self.bitmap, &mut self.table, sheet);
        Answer::new(outcome.map(|()| Vec::new()), 0)
    }

    /// The digests are those of the whole outputs, also if the call is refused.
    fn planner(&self, items: usize, floats: usize) -> Answer {
        let mut items = vec![BYTE_BEFORE; items];
        let mut floats = vec![FLOAT_BEFORE; floats];
        let (bitmap, table) = (&self.bitmap, &self.table);
        let outcome = planner(self.w, self.h, bitmap, table, &mut items, &mut floats);
        let figures = outcome.map(|done| vec![done.items as u64, done.floats as u64]);
        Answer::new(figures, 2).and(&[digest_bytes(&items), digest_floats(&floats)])
    }

    /// The total stands in two's complement. The digests are those of the whole outputs,
    /// also if the call is refused.
    fn areas(&self, contours: usize, edges: usize) -> Answer {
        let mut of_contours = vec![SIGNED_BEFORE; contours];
        let mut sums = vec![SIGNED_BEFORE; edges];
        let (bitmap, table) = (&self.bitmap, &self.table);
        let outcome = areas(self.w, self.h, bitmap, table, &mut of_contours, &mut sums);
        let figures =
            outcome.map(|done| vec![done.contours as u64, done.edges as u64, done.total as u64]);
        Answer::new(figures, 3).and(&[digest_signed(&of_contours), digest_signed(&sums)])
    }

    fn view(&self, column: u16, row: u16) -> Answer {
        let (refusal, view) = View::make(self.w, self.h, &self.bitmap);
        let outcome = refusal.map_or(Ok(Vec::new()), Err);
        Answer::new(outcome, 0).and(&[view.sample(column, row) as u64])
    }

    /// The line of an answer: letter, number, place, figures, the table's digest.
    pub fn line(&self, letter: u8, answer: &Answer) -> String {
        let mut words = vec![(letter as char).to_string()];
        words.push(answer.number.to_string());
        words.push(answer.place.to_string());
        words.extend(answer.figures.iter().map(|figure| figure.to_string()));
        words.push(digest(self.table.iter().copied()).to_string());
        words.join(" ") + "\n"
    }
}

/// The answers to all calls of a script, a line for each.
pub fn answers(commands: &[Command]) -> String {
    let mut machine = Machine::default();
    let mut lines = String::new();
    for command in commands {
        if let Some(answer) = machine.run(command) {
            lines += &machine.line(command.letter(), &answer);
        }
    }
    lines
}
