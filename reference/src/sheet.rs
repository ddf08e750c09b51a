//! A sheet and its calls: load, draw, line, text, mark and clear.
//!
//! A refused call changes neither sheet nor buffer. The tests before a line or mark come in the order 11, 12, 13, 7, 14,
//! those before a line of the text (E2) in the order 11, 15, 13, 7, 14; of a sheet's drawing nothing is asked before 13 has
//! looked at plan, remembered numbers and drawing.
//!
//! There are two ways of loading: the first refuses crossed inner segments with 6, the second (E1) takes such plans and
//! rearranges them. After either, lines use the numbers of the text, which are the sheet's own unless vias were rearranged;
//! marks go by the sheet's own numbers.

use std::fmt::{self, Display};

use crate::marks::{self, Mark};
use crate::passes::{self, Drawing};
use crate::stored::{StoredDrawing, StoredLoading, StoredPlan};
use crate::tangled::{self, Loaded};
use crate::{refusal, report, text, Refusal};

/// The longest report line: 64 boxes of 22 bytes, and 13 more.
pub const MAX_LINE: usize = 1_421;

/// How far a sheet is, with the counts that say which of its entries are in use.
#[derive(Clone, Copy, Debug, PartialEq, Eq)]
pub enum Stage {
    /// Nothing is loaded.
    Empty,
    /// A plan is loaded.
    Loaded {
        /// How many vertices it has.
        vertices: u64,
        /// How many segments it has.
        segments: u64,
    },
    /// A plan is loaded and drawn.
    Drawn {
        /// How many vertices it has.
        vertices: u64,
        /// How many segments it has.
        segments: u64,
        /// How many placings the drawing lists.
        placings: u64,
    },
}

impl Stage {
    /// The counts of vertices and segments, unless the sheet is empty.
    fn counts(self) -> Option<(u64, u64)> {
        match self {
            Stage::Empty => None,
            Stage::Loaded { vertices, segments } | Stage::Drawn { vertices, segments, .. } => {
                Some((vertices, segments))
            }
        }
    }
}

/// As scripts write it.
impl Display for Stage {
    fn fmt(&self, f: &mut fmt::Formatter<'_>) -> fmt::Result {
        match self {
            Stage::Empty => write!(f, "empty"),
            Stage::Loaded { vertices, segments } => write!(f, "loaded {vertices} {segments}"),
            Stage::Drawn { vertices, segments, placings } => write!(f, "drawn {vertices} {segments} {placings}"),
        }
    }
}

/// A sheet's record. One that is handed in may hold anything.
#[derive(Clone, Debug, PartialEq, Eq)]
pub struct Sheet {
    /// Its stage.
    pub stage: Stage,
    /// Its plan, if it is not empty.
    pub plan: StoredPlan,
    /// What it remembers of its loading, if it is not empty.
    pub loading: StoredLoading,
    /// Its drawing, if it is drawn.
    pub drawing: StoredDrawing,
}

impl Sheet {
    /// An empty sheet.
    pub fn empty() -> Self {
        Sheet {
            stage: Stage::Empty,
            plan: StoredPlan::empty(),
            loading: StoredLoading::empty(),
            drawing: StoredDrawing::empty(),
        }
    }

    /// A sheet just loaded, by the second way or not.
    fn of(Loaded { plan, numbers }: &Loaded, tangled: bool) -> Self {
        let (vertices, segments) = (plan.vertices() as u64, plan.segments().len() as u64);
        Sheet {
            stage: Stage::Loaded { vertices, segments },
            plan: StoredPlan::of(plan),
            loading: StoredLoading::of(tangled, numbers),
            drawing: StoredDrawing::empty(),
        }
    }

    /// Reads a plan text by the first way and replaces whatever was there. Refused with 1 to 6.
    pub fn load(&mut self, text: &[u8]) -> Result<(), Refusal> {
        *self = Sheet::of(&Loaded::in_own_numbers(text::read(text)?), false);
        Ok(())
    }

    /// The same by the second way, which takes tangled plans. Refused with 1 to 5.
    pub fn load_tangled(&mut self, text: &[u8]) -> Result<(), Refusal> {
        *self = Sheet::of(&tangled::read(text)?, true);
        Ok(())
    }

    /// Draws the plan, drawn already or not. Refused with 11, 13.
    pub fn draw(&mut self) -> Result<(), Refusal> {
        let Loaded { plan, .. } = self.loaded()?;
        let drawing = passes::draw(&plan);
        self.stage = Stage::Drawn {
            vertices: plan.vertices() as u64,
            segments: plan.segments().len() as u64,
            placings: drawing.placings.len() as u64,
        };
        self.drawing = StoredDrawing::of(&drawing);
        Ok(())
    }

    /// Writes the n-th report line to the start of the buffer and gives its length. Refused with 11, 12, 13, 7, 14.
    pub fn line(&self, n: usize, buffer: &mut [u8]) -> Result<usize, Refusal> {
        lend(&nth(&self.lines()?, n)?, buffer)
    }

    /// Writes the n-th line of the plan text as it was read to the start of the buffer and gives its length. Refused with
    /// 11, 15, 13, 7, 14.
    pub fn text_line(&self, n: usize, buffer: &mut [u8]) -> Result<usize, Refusal> {
        lend(&nth(&self.text_lines()?, n)?, buffer)
    }

    /// The n-th mark. Refused with 11, 12, 13, 7.
    pub fn mark(&self, n: usize) -> Result<Mark, Refusal> {
        nth(&self.marks()?, n)
    }

    /// Empties the sheet. Never refused.
    pub fn clear(&mut self) {
        *self = Sheet::empty();
    }

    /// All report lines, each with its LF. Refused with 11, 12, 13.
    pub fn lines(&self) -> Result<Vec<Vec<u8>>, Refusal> {
        let (loaded, drawing) = self.drawn()?;
        Ok(lines_of(&report::remembered_lines(&loaded, &drawing)))
    }

    /// All lines of the plan text as it was read, each with its LF: the plan in its remembered numbers (E2), drawn or not.
    /// Refused with 11, 15, 13.
    pub fn text_lines(&self) -> Result<Vec<Vec<u8>>, Refusal> {
        if self.stage != Stage::Empty && !self.loading.tangled {
            return Err(refusal::OTHER_WAY);
        }
        let Loaded { plan, numbers } = self.loaded()?;
        let as_read = tangled::renumbered(plan.draft(), &tangled::inverse(&numbers));
        Ok(lines_of(&text::write_form(&as_read)))
    }

    /// All marks. Refused with 11, 12, 13.
    pub fn marks(&self) -> Result<Vec<Mark>, Refusal> {
        let (Loaded { plan, .. }, drawing) = self.drawn()?;
        Ok(marks::marks(&plan, &drawing))
    }

    /// The plan with its remembered numbers, after tests 11 and 13 as far as they go.
    fn loaded(&self) -> Result<Loaded, Refusal> {
        let (vertices, segments) = self.stage.counts().ok_or(refusal::EMPTY)?;
        let plan = self.plan.plan(vertices, segments).ok_or(refusal::NO_PLAN)?;
        let numbers = self.loading.numbers(&plan).ok_or(refusal::NO_PLAN)?;
        Ok(Loaded { plan, numbers })
    }

    /// Plan, remembered numbers and drawing, after tests 11, 12 and 13.
    fn drawn(&self) -> Result<(Loaded, Drawing), Refusal> {
        match self.stage {
            Stage::Empty => Err(refusal::EMPTY),
            Stage::Loaded { .. } => Err(refusal::NOT_DRAWN),
            Stage::Drawn { placings, .. } => {
                let loaded = self.loaded()?;
                let drawing = self.drawing.drawing(&loaded.plan, placings).ok_or(refusal::NO_PLAN)?;
                Ok((loaded, drawing))
            }
        }
    }
}

/// The lines of a text, each with its LF.
fn lines_of(text: &[u8]) -> Vec<Vec<u8>> {
    text.split_inclusive(|&byte| byte == b'\n').map(<[u8]>::to_vec).collect()
}

/// The n-th of all, or refusal 7.
fn nth<T: Clone>(all: &[T], n: usize) -> Result<T, Refusal> {
    all.get(n).cloned().ok_or(refusal::NO_SUCH)
}

/// Writes a line to the start of the buffer and gives its length, or refusal 14. Later bytes stay.
fn lend(line: &[u8], buffer: &mut [u8]) -> Result<usize, Refusal> {
    buffer.get_mut(..line.len()).ok_or(refusal::SHORT_BUFFER)?.copy_from_slice(line);
    Ok(line.len())
}
