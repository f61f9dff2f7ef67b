//! A case with its answer, and what makes one.

use crate::line::Line;
use crate::random::Random;
use crate::refusals::Refusal;
use crate::rust::deblock::Counts;

/// A case with its answer; what a part has nothing to say of is left at its default.
#[derive(Default)]
pub struct Made {
    pub line: Line,
    pub refusal: Option<Refusal>,
    pub width: Option<usize>,
    /// Whether some lent sample or grid entry ends otherwise than it was.
    pub changed: bool,
    /// What an accepted case of a filter stores.
    pub counts: Option<Counts>,
    /// Of a case with tile starts: whether its planes would end otherwise without them.
    pub starts: Option<bool>,
    /// Of a case with a kept cell: whether its planes would end otherwise without.
    pub keep: Option<bool>,
    /// The step table that the case is asked with, where its part has one.
    pub steps: Option<Vec<u32>>,
}

/// Makes a case, one to be refused if asked so; it is given the step table of the case before.
pub type Make = fn(&Random, bool, Option<&[u32]>) -> Made;
