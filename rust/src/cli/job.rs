//! A run's layer and operands.

use crate::args::Args;
use crate::failure::Failure;
use crate::files;
use crate::input::Input;
use crate::progress::Progress;
use puzhenim::{Layer, Refusal};
use std::ffi::OsStr;
use std::path::Path;

/// A command's operands, with the layer read.
pub struct Job<'a> {
    args: &'a Args,
    input: Input,
}

impl<'a> Job<'a> {
    pub fn open(args: &'a Args) -> Result<Job<'a>, Failure> {
        let path = args.operand(0).unwrap_or_default();
        Ok(Job { args, input: Input::read(path, args.option("--pad").is_some())? })
    }

    /// An operand that the command always has.
    pub fn operand(&self, index: usize) -> &'a OsStr {
        self.args.operand(index).unwrap_or_default()
    }

    /// The layer's name, for pictures of it.
    pub fn name(&self) -> String {
        Path::new(self.operand(0)).file_name().unwrap_or_default().to_string_lossy().into()
    }

    pub fn layer(&self) -> Layer<'_> {
        self.input.layer()
    }

    pub fn refused(&self, refusal: Refusal) -> Failure {
        Failure::refused(self.operand(0), self.layer(), refusal)
    }

    /// The table of the sheet that is the second operand.
    pub fn read_sheet(&self, progress: &Progress) -> Result<Vec<u16>, Failure> {
        let path = self.operand(1);
        let sheet = files::read(path)?;
        progress.step("reading the sheet");
        let mut table = self.layer().new_table();
        match self.layer().read_sheet(&mut table, &sheet) {
            Ok(()) => Ok(table),
            Err(refusal) => Err(Failure::refused(path, self.layer(), refusal)),
        }
    }
}
