// Scripts: the commands of a script, their bytes (numbers are little-endian), and
// how a script is taken apart.

/// The longest bitmap and table that a script may set, and the longest output
/// (in bytes, items, floats, areas or sums) that it may lend.
const BITMAP_LIMIT: usize = 131_200;
const TABLE_LIMIT: usize = 2_095_200;
const OUTPUT_LIMIT: usize = 8_388_608;

#[derive(Clone, PartialEq, Eq, Debug)]
pub enum Command {
    Bitmap { w: u16, h: u16, bytes: Vec<u8> },
    Table { n: u32, seed: u16 },
    Poke { index: u32, value: u16 },
    Trace,
    Counts,
    Held,
    Smooth { limit: u16 },
    Simplify { t: u8 },
    Roll { t: u8, bytes: Vec<u8> },
    WriteSheet { n: u32 },
    ReadSheet { bytes: Vec<u8> },
    Planner { items: u32, floats: u32 },
    Areas { areas: u32, sums: u32 },
    View { column: u16, row: u16 },
    Program { bytes: Vec<u8> },
}

/// The byte that ends a script.
pub const END: u8 = b'E';

fn counted(bytes: &[u8]) -> Vec<u8> {
    let mut field = (bytes.len() as u32).to_le_bytes().to_vec();
    field.extend(bytes);
    field
}

impl Command {
    /// The letter of the command.
    pub fn letter(&self) -> u8 {
        match self {
            Command::Bitmap { .. } => b'B',
            Command::Table { .. } => b'M',
            Command::Poke { .. } => b'P',
            Command::Trace => b'T',
            Command::Counts => b'N',
            Command::Held => b'H',
            Command::Smooth { .. } => b'S',
            Command::Simplify { .. } => b'Y',
            Command::Roll { .. } => b'R',
            Command::WriteSheet { .. } => b'W',
            Command::ReadSheet { .. } => b'D',
            Command::Planner { .. } => b'L',
            Command::Areas { .. } => b'A',
            Command::View { .. } => b'V',
            Command::Program { .. } => b'G',
        }
    }

    /// The letter and the fields, as they stand in a script.
    pub fn bytes(&self) -> Vec<u8> {
        let fields = match self {
            Command::Bitmap { w, h, bytes } => [
                w.to_le_bytes().to_vec(),
                h.to_le_bytes().to_vec(),
                counted(bytes),
            ]
            .concat(),
            Command::Table { n, seed } => {
                [n.to_le_bytes().to_vec(), seed.to_le_bytes().to_vec()].concat()
            }
            Command::Poke { index, value } => {
                [index.to_le_bytes().to_vec(), value.to_le_bytes().to_vec()].concat()
            }
            Command::Trace | Command::Counts | Command::Held => Vec::new(),
            Command::Smooth { limit } => limit.to_le_bytes().to_vec(),
            Command::Simplify { t } => vec![*t],
            Command::Roll { t, bytes } => [vec![*t], counted(bytes)].concat(),
            Command::WriteSheet { n } => n.to_le_bytes().to_vec(),
            Command::ReadSheet { bytes } | Command::Program { bytes } => counted(bytes),
            Command::Planner { items, floats } => {
                [items.to_le_bytes(), floats.to_le_bytes()].concat()
            }
            Command::Areas { areas, sums } => [areas.to_le_bytes(), sums.to_le_bytes()].concat(),
            Command::View { column, row } => [column.to_le_bytes(), row.to_le_bytes()].concat(),
        };
        [vec![self.letter()], fields].concat()
    }
}

/// The bytes of a script as they are taken apart, from the first on.
struct Source<'a> {
    bytes: &'a [u8],
    at: usize,
}

impl<'a> Source<'a> {
    fn take(&mut self, n: usize) -> Result<&'a [u8], String> {
        if self.bytes.len() - self.at < n {
            return Err(format!(
                "the script is cut short at byte {}",
                self.bytes.len()
            ));
        }
        self.at += n;
        Ok(&self.bytes[self.at - n..self.at])
    }

    fn u8(&mut self) -> Result<u8, String> {
        Ok(self.take(1)?[0])
    }

    fn u16(&mut self) -> Result<u16, String> {
        Ok(u16::from_le_bytes([self.u8()?, self.u8()?]))
    }

    fn u32(&mut self) -> Result<u32, String> {
        Ok(self.u16()? as u32 + 65536 * self.u16()? as u32)
    }

    /// A number that is a length, at most so high.
    fn length(&mut self, limit: usize) -> Result<u32, String> {
        let n = self.u32()?;
        if n as usize > limit {
            return Err(format!(
                "a length of {} above {} before byte {}",
                n, limit, self.at
            ));
        }
        Ok(n)
    }

    /// A length and so many bytes.
    fn counted(&mut self, limit: usize) -> Result<Vec<u8>, String> {
        let n = self.length(limit)?;
        Ok(self.take(n as usize)?.to_vec())
    }

    /// The fields of the command with this letter: what sets the state first, then
    /// the calls.
    fn command(&mut self, letter: u8) -> Result<Command, String> {
        match letter {
            b'B' => {
                let (w, h) = (self.u16()?, self.u16()?);
                let bytes = self.counted(BITMAP_LIMIT)?;
                Ok(Command::Bitmap { w, h, bytes })
            }
            b'M' => {
                let (n, seed) = (self.length(TABLE_LIMIT)?, self.u16()?);
                Ok(Command::Table { n, seed })
            }
            b'P' => {
                let (index, value) = (self.u32()?, self.u16()?);
                Ok(Command::Poke { index, value })
            }
            _ => self.call(letter),
        }
    }

    fn call(&mut self, letter: u8) -> Result<Command, String> {
        match letter {
            b'T' => Ok(Command::Trace),
            b'N' => Ok(Command::Counts),
            b'H' => Ok(Command::Held),
            b'S' => self.u16().map(|limit| Command::Smooth { limit }),
            b'Y' => self.u8().map(|t| Command::Simplify { t }),
            b'R' => {
                let (t, bytes) = (self.u8()?, self.counted(self.bytes.len())?);
                Ok(Command::Roll { t, bytes })
            }
            b'W' => self.length(OUTPUT_LIMIT).map(|n| Command::WriteSheet { n }),
            b'D' => self
                .counted(self.bytes.len())
                .map(|bytes| Command::ReadSheet { bytes }),
            b'L' => {
                let (items, floats) = (self.length(OUTPUT_LIMIT)?, self.length(OUTPUT_LIMIT)?);
                Ok(Command::Planner { items, floats })
            }
            b'A' => {
                let (areas, sums) = (self.length(OUTPUT_LIMIT)?, self.length(OUTPUT_LIMIT)?);
                Ok(Command::Areas { areas, sums })
            }
            b'V' => {
                let (column, row) = (self.u16()?, self.u16()?);
                Ok(Command::View { column, row })
            }
            b'G' => self
                .counted(self.bytes.len())
                .map(|bytes| Command::Program { bytes }),
            _ => Err(format!(
                "unknown command {:#04x} before byte {}",
                letter, self.at
            )),
        }
    }
}

/// The commands of a whole script, or what is wrong with it.
pub fn parse(script: &[u8]) -> Result<Vec<Command>, String> {
    let mut source = Source {
        bytes: script,
        at: 0,
    };
    let mut commands = Vec::new();
    loop {
        let letter = source.u8()?;
        if letter == END {
            break;
        }
        commands.push(source.command(letter)?);
    }
    if source.at < script.len() {
        return Err(format!(
            "the script goes on after its end at byte {}",
            source.at
        ));
    }
    Ok(commands)
}
