// What a set of vectors is built with: a script that grows, the machine that
// runs it alongside (so that a set can go by the table as it then is), and a
// generator.

use crate::contour::contours;
use crate::hold::{contour_is_held, is_free, is_kept, offset, removed, State};
use crate::layer::{ask_1_to_4, row_bytes, Layer};
use crate::machine::Machine;
use crate::picture;
use crate::prng::Rng;
use crate::roll::{roll, Action};
use crate::script::{Command, END};
use crate::sheet::write_sheet;
use crate::trace::counts;

pub struct Builder {
    script: Vec<u8>,
    pub machine: Machine,
    pub rng: Rng,
}

impl Builder {
    pub fn new(seed: u64) -> Builder {
        Builder {
            script: Vec::new(),
            machine: Machine::default(),
            rng: Rng(seed),
        }
    }

    /// The whole script.
    pub fn finish(mut self) -> Vec<u8> {
        self.script.push(END);
        self.script
    }

    /// Appends a command and runs it; the refusal number if it is a call.
    pub fn add(&mut self, command: Command) -> u64 {
        self.script.extend(command.bytes());
        self.machine.run(&command).map_or(0, |answer| answer.number)
    }

    pub fn bitmap(&mut self, w: usize, h: usize, bytes: Vec<u8>) {
        self.add(Command::Bitmap {
            w: w as u16,
            h: h as u16,
            bytes,
        });
    }

    /// A table of so many scrambled entries.
    pub fn table(&mut self, n: usize) {
        let seed = self.rng.next() as u16;
        self.add(Command::Table { n: n as u32, seed });
    }

    pub fn poke(&mut self, index: usize, value: u16) {
        self.add(Command::Poke {
            index: index as u32,
            value,
        });
    }

    /// A layer and a scrambled table of the right length.
    pub fn layer(&mut self, layer: &Layer) {
        self.bitmap(layer.w, layer.h, layer.bitmap());
        self.table(layer.edge_count());
    }

    /// A layer with its table as Trace leaves it.
    pub fn traced(&mut self, layer: &Layer) {
        self.layer(layer);
        self.add(Command::Trace);
    }

    /// The layer that is set; only after a good bitmap.
    pub fn current(&self) -> Layer {
        let machine = &self.machine;
        ask_1_to_4(machine.w, machine.h, &machine.bitmap).expect("a good bitmap is set")
    }

    /// The sticks of the layer that is set.
    pub fn sticks(&self) -> Vec<usize> {
        let layer = self.current();
        (0..layer.edge_count())
            .filter(|&number| layer.is_stick(number))
            .collect()
    }

    /// Gives some of the free vertices a random offset.
    pub fn jitter(&mut self, sixteenths: usize) {
        for stick in self.sticks() {
            if is_free(self.machine.table[stick]) && self.rng.chance(sixteenths, 16) {
                let value = match self.rng.below(4) {
                    0 => self.rng.pick(&[1, 2, 127, 129, 254, 255]),
                    _ => self.rng.between(1, 255) as u16,
                };
                self.poke(stick, value);
            }
        }
    }

    /// Pins so many of sixteen kept vertices.
    pub fn pin(&mut self, sixteenths: usize) {
        for stick in self.sticks() {
            let entry = self.machine.table[stick];
            if is_kept(entry) && self.rng.chance(sixteenths, 16) {
                self.poke(stick, State::Pinned.at(offset(entry)));
            }
        }
    }

    /// Tries to remove so many random vertices, each only if it is free and its contour
    /// is still held after that.
    pub fn thin(&mut self, times: usize) {
        let layer = self.current();
        let contours = contours(&layer);
        for _ in 0..times {
            if contours.is_empty() {
                return;
            }
            let contour = &contours[self.rng.below(contours.len())];
            let stick = contour[self.rng.below(contour.len())];
            let mut table = self.machine.table.clone();
            if is_free(table[stick]) {
                table[stick] = removed(table[stick]);
                if contour_is_held(&layer, contour, &table) {
                    self.poke(stick, table[stick]);
                }
            }
        }
    }

    /// Removes up to so many free vertices of each contour, the first ones of its walk,
    /// as far as it is still held after that.
    pub fn remove_firsts(&mut self, most: usize) {
        let layer = self.current();
        let mut table = self.machine.table.clone();
        for contour in contours(&layer) {
            for &stick in &contour[..self.rng.between(1, most)] {
                let before = table[stick];
                if !is_free(before) {
                    continue;
                }
                table[stick] = removed(before);
                if !contour_is_held(&layer, &contour, &table) {
                    table[stick] = before;
                    break;
                }
                self.poke(stick, table[stick]);
            }
        }
    }

    /// The sheet of the layer as it is, which is held.
    pub fn sheet(&self) -> Vec<u8> {
        let machine = &self.machine;
        let (w, h, bitmap, table) = (machine.w, machine.h, &machine.bitmap, &machine.table);
        let counted = counts(w, h, bitmap, table).expect("a good bitmap is set");
        let mut sheet = vec![0; 6 + 6 * counted.contours + 2 * counted.sticks];
        write_sheet(w, h, bitmap, table, &mut sheet).expect("the layer is held");
        sheet
    }

    /// The bytes of an edit of a stick.
    pub fn edit(&self, stick: usize, action: Action) -> Vec<u8> {
        let edge = self.current().edge(stick);
        edit_bytes(edge.kind, edge.c as u16, edge.r as u16, action)
    }

    /// What a roll of this edit alone gets on this table, 0 if it is done.
    pub fn answer_to(&self, table: &mut [u16], edit: &[u8], t: u8) -> u64 {
        let one = [edit, &[0x45]].concat();
        let machine = &self.machine;
        let rolled = roll(machine.w, machine.h, &machine.bitmap, table, t, &one);
        rolled.refusal.map_or(0, |refusal| refusal.number)
    }

    /// Would this edit be done on this table?
    pub fn is_done(&self, table: &mut [u16], edit: &[u8], t: u8) -> bool {
        self.answer_to(table, edit, t) == 0
    }

    /// A random layer on which a good many vertices can be removed, or any one.
    pub fn any_layer(&mut self, most: usize) -> Layer {
        match self.rng.below(3) {
            0 => picture::any(&mut self.rng, most),
            1 => {
                let (w, h) = (
                    self.rng.between(8, most.max(9)),
                    self.rng.between(8, most.max(9)),
                );
                let count = self.rng.between(1, 6);
                picture::discs(&mut self.rng, w, h, count)
            }
            _ => picture::blocks(&mut self.rng, most),
        }
    }

    /// A layer with one inside sample at least.
    pub fn some_layer(&mut self, most: usize) -> Layer {
        loop {
            let layer = self.any_layer(most);
            if layer.bitmap().iter().any(|&byte| byte != 0) {
                return layer;
            }
        }
    }
}

/// "S and a stick and an offset byte", "X and a stick" or "P and a stick".
pub fn edit_bytes(kind: u8, c: u16, r: u16, action: Action) -> Vec<u8> {
    let (letter, offset) = match action {
        Action::Slide(offset) => (0x53, Some(offset)),
        Action::Remove => (0x58, None),
        Action::Pin => (0x50, None),
    };
    let mut bytes = vec![letter, kind];
    bytes.extend(c.to_le_bytes());
    bytes.extend(r.to_le_bytes());
    bytes.extend(offset);
    bytes
}

/// The length that a bitmap of these sides should have.
pub fn exact_length(w: usize, h: usize) -> usize {
    row_bytes(w) * h
}
