// A layer of samples: the bitmap as it is lent, the grid edges with their
// numbers, the sticks, and the questions 1 to 5.

/// "The first no gives the number, and with it a place."
#[derive(Clone, Copy, PartialEq, Eq, Debug)]
pub struct Refusal {
    pub number: u64,
    pub place: usize,
}

pub fn refuse<T>(number: u64, place: usize) -> Result<T, Refusal> {
    Err(Refusal { number, place })
}

/// A grid edge: "a horizontal grid edge (kind 0) at (c,r) runs from (c,r) to
/// (c+1,r)", "a vertical one (kind 1) at (c,r) runs to (c,r+1)".
#[derive(Clone, Copy, PartialEq, Eq, Debug)]
pub struct Edge {
    pub kind: u8,
    pub c: usize,
    pub r: usize,
}

impl Edge {
    /// The two samples that the edge joins, (c,r) first.
    pub fn ends(self) -> [(usize, usize); 2] {
        let far = if self.kind == 0 {
            (self.c + 1, self.r)
        } else {
            (self.c, self.r + 1)
        };
        [(self.c, self.r), far]
    }
}

/// "A layer has W columns and H rows": its samples, row by row, true if inside.
#[derive(Clone, PartialEq, Eq, Debug)]
pub struct Layer {
    pub w: usize,
    pub h: usize,
    inside: Vec<bool>,
}

impl Layer {
    /// A layer without an inside sample.
    pub fn blank(w: usize, h: usize) -> Layer {
        Layer {
            w,
            h,
            inside: vec![false; w * h],
        }
    }

    pub fn sample(&self, c: usize, r: usize) -> bool {
        self.inside[r * self.w + c]
    }

    pub fn set(&mut self, c: usize, r: usize, inside: bool) {
        self.inside[r * self.w + c] = inside;
    }

    pub fn on_border(&self, c: usize, r: usize) -> bool {
        c == 0 || r == 0 || c == self.w - 1 || r == self.h - 1
    }

    /// The samples next to this one, all by r×W+c: over the four sides, or over the corners too.
    pub fn neighbours(&self, at: usize, corners: bool) -> impl Iterator<Item = usize> + '_ {
        let (c, r) = (at % self.w, at / self.w);
        let (columns, rows) = (c.saturating_sub(1)..=c + 1, r.saturating_sub(1)..=r + 1);
        let square = rows.flat_map(move |y| columns.clone().map(move |x| (x, y)));
        let near = square.filter(move |&(x, y)| match (x == c, y == r) {
            (true, true) => false,
            (false, false) => corners,
            _ => true,
        });
        near.filter(move |&(x, y)| x < self.w && y < self.h)
            .map(move |(x, y)| y * self.w + x)
    }

    /// Question 5: "(W-1)×H + W×(H-1)".
    pub fn edge_count(&self) -> usize {
        (self.w - 1) * self.h + self.w * (self.h - 1)
    }

    /// Question 9: "Does the named stick lie in the grid (a kind above 1 does not)".
    pub fn has_edge(&self, edge: Edge) -> bool {
        edge.kind <= 1 && edge.ends().iter().all(|&(c, r)| c < self.w && r < self.h)
    }

    /// "Number r×(W-1)+c" if horizontal, "number H×(W-1)+r×W+c" if vertical.
    pub fn number(&self, edge: Edge) -> usize {
        match edge.kind {
            0 => edge.r * (self.w - 1) + edge.c,
            _ => self.h * (self.w - 1) + edge.r * self.w + edge.c,
        }
    }

    /// The edge that has this number.
    pub fn edge(&self, number: usize) -> Edge {
        let horizontal = self.h * (self.w - 1);
        if number < horizontal {
            return Edge {
                kind: 0,
                c: number % (self.w - 1),
                r: number / (self.w - 1),
            };
        }
        let rest = number - horizontal;
        Edge {
            kind: 1,
            c: rest % self.w,
            r: rest / self.w,
        }
    }

    /// "An edge whose samples differ is a stick."
    pub fn is_stick(&self, number: usize) -> bool {
        let [(c, r), (c2, r2)] = self.edge(number).ends();
        self.sample(c, r) != self.sample(c2, r2)
    }

    /// The bitmap: "sample (c,r) is bit c mod 8, least significant first, of
    /// byte c div 8 of row r; 1 is inside. Spare bits are 0."
    pub fn bitmap(&self) -> Vec<u8> {
        let mut bytes = vec![0; row_bytes(self.w) * self.h];
        for r in 0..self.h {
            for c in 0..self.w {
                if self.sample(c, r) {
                    bytes[r * row_bytes(self.w) + c / 8] |= 1 << (c % 8);
                }
            }
        }
        bytes
    }
}

/// "The bitmap has ceil(W/8) bytes a row."
pub fn row_bytes(w: usize) -> usize {
    (w + 7) / 8
}

/// The sample (c,r) of a bitmap of width w.
pub fn bitmap_sample(bitmap: &[u8], w: usize, c: usize, r: usize) -> bool {
    bitmap[r * row_bytes(w) + c / 8] >> (c % 8) & 1 == 1
}

/// Question 1: "Are W and H in 2 to 1,024? (place 0)"
fn ask_sides(w: usize, h: usize) -> Result<(), Refusal> {
    let allowed = 2..=1024;
    if allowed.contains(&w) && allowed.contains(&h) {
        return Ok(());
    }
    refuse(1, 0)
}

/// Question 2: "Is the bitmap's length exact? (0)"
fn ask_length(w: usize, h: usize, bitmap: &[u8]) -> Result<(), Refusal> {
    if bitmap.len() == row_bytes(w) * h {
        return Ok(());
    }
    refuse(2, 0)
}

/// Question 3: "Are spare bits 0? (lowest byte index)"
fn ask_spare_bits(w: usize, bitmap: &[u8]) -> Result<(), Refusal> {
    for (index, byte) in bitmap.iter().enumerate() {
        let first_column = index % row_bytes(w) * 8;
        for bit in 0..8 {
            if first_column + bit >= w && byte >> bit & 1 == 1 {
                return refuse(3, index);
            }
        }
    }
    Ok(())
}

/// Question 4: "Are border samples outside? (lowest r×W+c)"
fn ask_border(layer: &Layer) -> Result<(), Refusal> {
    for r in 0..layer.h {
        for c in 0..layer.w {
            if layer.on_border(c, r) && layer.sample(c, r) {
                return refuse(4, r * layer.w + c);
            }
        }
    }
    Ok(())
}

/// Questions 1 to 4, in this order; the layer that a good bitmap describes.
pub fn ask_1_to_4(w: u16, h: u16, bitmap: &[u8]) -> Result<Layer, Refusal> {
    let (w, h) = (w as usize, h as usize);
    ask_sides(w, h)?;
    ask_length(w, h, bitmap)?;
    ask_spare_bits(w, bitmap)?;
    let mut layer = Layer::blank(w, h);
    for r in 0..h {
        for c in 0..w {
            layer.set(c, r, bitmap_sample(bitmap, w, c, r));
        }
    }
    ask_border(&layer)?;
    Ok(layer)
}

/// Questions 1 to 5. Question 5: "Is the table's length (W-1)×H + W×(H-1)? (0)"
pub fn ask_1_to_5(w: u16, h: u16, bitmap: &[u8], table: &[u16]) -> Result<Layer, Refusal> {
    let layer = ask_1_to_4(w, h, bitmap)?;
    if table.len() == layer.edge_count() {
        return Ok(layer);
    }
    refuse(5, 0)
}
