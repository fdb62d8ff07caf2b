//! The layer in a file.

use crate::failure::Failure;
use crate::files;
use crate::pbm::{self, Picture};
use puzhenim::{Layer, Refusal};
use std::ffi::OsStr;

pub struct Input {
    width: u16,
    height: u16,
    bitmap: Vec<u8>,
}

impl Input {
    /// Reads a picture or a layer file; `pad` adds an outside sample all round to a picture. The library is asked whether the layer is
    /// good, so that a later refusal is not because of this file.
    pub fn read(path: &OsStr, pad: bool) -> Result<Input, Failure> {
        let bytes = files::read(path)?;
        let input = if pbm::is_pbm(&bytes) {
            let picture = pbm::read(&bytes).map_err(|wrong| Failure::of(path, wrong))?;
            Input::of_picture(&picture, usize::from(pad)).map_err(|refusal| Failure::of(path, refusal))?
        } else if pad {
            return Err(Failure::Usage("--pad is for pictures: a layer file has its border".into()));
        } else {
            Input::of_layer_file(&bytes).ok_or_else(|| Failure::of(path, "neither a portable bitmap (P1 or P4) nor a layer file"))?
        };
        match input.layer().view() {
            Ok(_) => Ok(input),
            Err(refusal) => Err(Failure::refused(path, input.layer(), refusal)),
        }
    }

    /// The picture with so many outside samples on each side. The library takes sides of 16 bits, so a longer one is refused here.
    fn of_picture(picture: &Picture, border: usize) -> Result<Input, Refusal> {
        let side = |samples: usize| samples.checked_add(2 * border).and_then(|side| u16::try_from(side).ok()).ok_or(Refusal::BadSides);
        let (width, height) = (side(picture.width)?, side(picture.height)?);
        let stride = (usize::from(width) + 7) / 8;
        let mut bitmap = vec![0; usize::from(height) * stride];
        // The picture's top row is the layer's highest below the border. A picture has a row and a column at least, so a row has a byte.
        let rows = bitmap.chunks_exact_mut(stride).rev().skip(border);
        for (row, bytes) in (0..picture.height).zip(rows) {
            for column in (0..picture.width).filter(|column| picture.is_black(*column, row)) {
                let column = column + border;
                bytes.get_mut(column / 8).into_iter().for_each(|byte| *byte |= 1 << (column % 8));
            }
        }
        Ok(Input { width, height, bitmap })
    }

    /// L, width and height of 16 bits each, low byte first, and the bitmap.
    fn of_layer_file(bytes: &[u8]) -> Option<Input> {
        match bytes {
            [b'L', w, w_high, h, h_high, bitmap @ ..] => {
                Some(Input { width: u16::from_le_bytes([*w, *w_high]), height: u16::from_le_bytes([*h, *h_high]), bitmap: bitmap.to_vec() })
            }
            _ => None,
        }
    }

    pub fn layer(&self) -> Layer<'_> {
        Layer { width: self.width, height: self.height, bitmap: &self.bitmap }
    }
}
