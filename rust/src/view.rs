//! Reading many samples of one layer.

use crate::{Layer, Refusal};

/// A layer of which questions 1 to 4 were answered yes when the view was made, for reading many samples. [`Layer::sample`] puts the
/// questions each time; a view puts them once, through the proved library, and then reads the borrowed bitmap by the rule itself. That
/// reading is Rust code of this crate and not proved.
///
/// ```
/// # use puzhenim::Layer;
/// let view = Layer { width: 3, height: 3, bitmap: &[0, 2, 0] }.view()?;
/// assert!(view.sample(1, 1) && !view.sample(0, 1) && !view.sample(1, 9));
/// # Ok::<(), puzhenim::Refusal>(())
/// ```
#[derive(Clone, Copy, Debug, PartialEq, Eq)]
pub struct View<'a> {
    layer: Layer<'a>,
}

impl<'a> View<'a> {
    pub(crate) fn new(layer: Layer<'a>) -> Result<View<'a>, Refusal> {
        layer.sample(0, 0)?;
        Ok(View { layer })
    }

    /// The layer.
    pub fn layer(&self) -> Layer<'a> {
        self.layer
    }

    /// Whether the sample is inside; off the grid it is not.
    pub fn sample(&self, column: u16, row: u16) -> bool {
        let Layer { width, height, bitmap } = self.layer;
        if column >= width || row >= height {
            return false;
        }
        let stride = usize::from(width / 8) + usize::from(width % 8 > 0);
        let byte = bitmap.get(usize::from(row) * stride + usize::from(column / 8));
        byte.map_or(false, |byte| byte >> (column % 8) & 1 == 1)
    }
}
