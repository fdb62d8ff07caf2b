//! Portable bitmaps, P1 (plain) and P4 (raw).

/// A picture, top row first, a row in whole bytes, the leftmost sample in the highest bit; 1 is black.
pub struct Picture {
    pub width: usize,
    pub height: usize,
    rows: Vec<u8>,
}

impl Picture {
    pub fn is_black(&self, column: usize, row: usize) -> bool {
        let byte = self.rows.get(row * stride(self.width) + column / 8);
        byte.map_or(false, |byte| byte >> (7 - column % 8) & 1 == 1)
    }
}

fn stride(width: usize) -> usize {
    width / 8 + usize::from(width % 8 > 0)
}

pub fn is_pbm(bytes: &[u8]) -> bool {
    bytes.starts_with(b"P1") || bytes.starts_with(b"P4")
}

/// The one picture of a file, or what is wrong with it. Blanks and comments may follow a plain raster, nothing a raw one.
pub fn read(bytes: &[u8]) -> Result<Picture, String> {
    let mut source = Source { bytes, at: 2 };
    let (width, height) = (source.side("width")?, source.side("height")?);
    let is_plain = bytes.starts_with(b"P1");
    let rows = if is_plain { source.plain(width, height)? } else { source.raw(width, height)? };
    let next = if is_plain { source.token() } else { source.byte() };
    match next {
        Some(_) => Err(format!("more follows the picture, at byte {}", source.at - 1)),
        None => Ok(Picture { width, height, rows }),
    }
}

fn cut_short(width: usize, height: usize) -> String {
    format!("the picture is cut short: it should have {} rows of {} samples", height, width)
}

struct Source<'a> {
    bytes: &'a [u8],
    at: usize,
}

impl Source<'_> {
    fn byte(&mut self) -> Option<u8> {
        let byte = self.bytes.get(self.at).copied()?;
        self.at += 1;
        Some(byte)
    }

    /// The next byte, a comment read as the end of its line.
    fn next(&mut self) -> Option<u8> {
        let mut byte = self.byte()?;
        if byte == b'#' {
            while !matches!(byte, b'\n' | b'\r') {
                byte = self.byte().unwrap_or(b'\n');
            }
        }
        Some(byte)
    }

    /// The next byte that is no blank.
    fn token(&mut self) -> Option<u8> {
        loop {
            match self.next() {
                Some(byte) if byte.is_ascii_whitespace() => {}
                other => return other,
            }
        }
    }

    /// A number of the head and the one blank after it.
    fn side(&mut self, name: &str) -> Result<usize, String> {
        let wrong = || format!("the picture's {} is no number of at least 1", name);
        let mut side: usize = 0;
        let mut byte = self.token();
        while let Some(digit @ b'0'..=b'9') = byte {
            side = side.checked_mul(10).and_then(|tens| tens.checked_add(usize::from(digit - b'0'))).ok_or_else(wrong)?;
            byte = self.next();
        }
        match byte {
            Some(blank) if blank.is_ascii_whitespace() && side > 0 => Ok(side),
            _ => Err(wrong()),
        }
    }

    /// How many bytes the packed rows take, if the file has as many bytes left as its rows take. A width is 1 or more, so a packed row takes
    /// at least one byte, and no more than in the file.
    fn room(&self, width: usize, height: usize, bytes_a_row: usize) -> Result<usize, String> {
        match height.checked_mul(bytes_a_row) {
            Some(wanted) if wanted <= self.bytes.len() - self.at => Ok(height * stride(width)),
            _ => Err(cut_short(width, height)),
        }
    }

    fn plain(&mut self, width: usize, height: usize) -> Result<Vec<u8>, String> {
        let mut rows = vec![0; self.room(width, height, width)?];
        for row in rows.chunks_exact_mut(stride(width)) {
            for column in 0..width {
                match self.token() {
                    Some(b'0') => {}
                    Some(b'1') => row.get_mut(column / 8).into_iter().for_each(|byte| *byte |= 128 >> (column % 8)),
                    Some(_) => return Err(format!("a sample is neither 0 nor 1, at byte {}", self.at - 1)),
                    None => return Err(cut_short(width, height)),
                }
            }
        }
        Ok(rows)
    }

    fn raw(&mut self, width: usize, height: usize) -> Result<Vec<u8>, String> {
        let length = self.room(width, height, stride(width))?;
        let rows: Vec<u8> = self.bytes.iter().skip(self.at).take(length).copied().collect();
        self.at += length;
        Ok(rows)
    }
}
