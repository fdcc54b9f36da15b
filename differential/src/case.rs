//! A case: an input that the library and the other implementation both answer.

use crate::library::Library;
use crate::shrink::smallest;
use reference::cases::generator::Generator;

/// Two answers that should be one, in words.
#[derive(Clone, Debug, PartialEq, Eq)]
pub struct Difference {
    pub library: String,
    pub reference: String,
}

pub trait Case: Sized {
    /// Both answers, where they differ.
    fn difference(&self, library: &dyn Library) -> Option<Difference>;

    /// Cases a little simpler than this one, the boldest first. Each is smaller
    /// in length or in a word's rank, so that going on and on comes to an end.
    fn smaller(&self) -> impl Iterator<Item = Self>;

    fn describe(&self) -> String;
}

/// The smallest case found whose two answers differ.
#[derive(Clone, Debug)]
pub struct Mismatch {
    pub input: String,
    pub difference: Difference,
}

/// A part on its way: what it asks, what it draws with, how much it compared.
pub struct Run<'a> {
    pub library: &'a dyn Library,
    pub generator: Generator,
    pub cases: u64,
    /// What else there is to be told of a run without a mismatch, line by line.
    pub notes: Vec<String>,
}

impl<'a> Run<'a> {
    pub fn new(library: &'a dyn Library, generator: Generator) -> Run<'a> {
        Run {
            library,
            generator,
            cases: 0,
            notes: Vec::new(),
        }
    }

    pub fn check(&mut self, case: impl Case) -> Result<(), Mismatch> {
        self.cases += 1;
        match case.difference(self.library) {
            None => Ok(()),
            Some(difference) => Err(self.shrunk(case, difference)),
        }
    }

    fn shrunk(&self, case: impl Case, difference: Difference) -> Mismatch {
        let (case, difference) = smallest(case, difference, |case| case.difference(self.library));
        Mismatch {
            input: case.describe(),
            difference,
        }
    }
}
