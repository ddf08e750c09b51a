//! Level diagrams for boat supply plans: a second reading of document 01, and of the first requests of document 02, E1 to E5.
//!
//! From text to picture, one module for each part of the paper:
//! - [`text`] reads a plan text (check 1) and writes it again; [`plan`] holds the plan and makes checks 2 to 6;
//! - [`walk`] is check 6 between two levels, with its count (E3);
//! - [`tangled`] reads a plan text whose inner segments may cross, and rearranges the plan (E1);
//! - [`preliminary`] gives every vertex its preliminary position;
//! - [`place_run`] places one run, with E4's start for a lone box and E5's ratings: [`half_steps`] is the definition, [`jumps`]
//!   the fast way to the same outcome;
//! - [`passes`] goes over the levels three times, places their runs and lists the placings;
//! - [`report`] prints the drawing, and reads a printed one; [`marks`] gives it as points for a screen;
//! - [`picture`] gives it as an SVG document: [`names`] reads what boxes are called, [`label`] fits it into them;
//! - [`sheet`] has the calls on a sheet with their refusals, [`stored`] what its record holds; [`script`] answers scripts of
//!   such calls.
//!
//! Beside them: [`generate`] makes random plan texts, [`cables`] those for the walk, [`edges`] those at the edge of each check,
//! [`readings`] lists texts with what reading them gives, [`requests`] makes requests for place-run, [`scripts`] random
//! scripts, and [`check`] judges a finished drawing by what was promised of it, without following the method.
//!
//! Positions are whole half steps throughout, except inside [`preliminary`], where the two placements are in steps.
//! Vertices, levels and lines count from 0; printed levels and passes count from 1.

#![forbid(unsafe_code)]
#![warn(missing_docs)]

pub mod cables;
pub mod check;
mod cursor;
mod damage;
pub mod edges;
pub mod generate;
pub mod half_steps;
pub mod jumps;
pub mod label;
pub mod marks;
pub mod names;
pub mod passes;
pub mod picture;
pub mod place_run;
pub mod plan;
mod poke;
mod pokes;
pub mod preliminary;
pub mod random;
mod ratings;
pub mod readings;
pub mod report;
pub mod requests;
mod run_line;
pub mod script;
pub mod scripts;
pub mod sheet;
pub mod stored;
pub mod tangled;
pub mod text;
pub mod walk;
mod walk_lines;
mod words;

/// The number of a refusal, as document 01 counts them.
pub type Refusal = u32;

/// The refusals of this library, by document 01's numbers.
pub mod refusal {
    use super::Refusal;

    /// The text is not in its form, or too long.
    pub const FORM: Refusal = 1;
    /// A number or count is outside its limit.
    pub const LIMIT: Refusal = 2;
    /// A segment's end is no vertex, or its ends are not one level apart.
    pub const ENDS: Refusal = 3;
    /// The segments do not rise strictly.
    pub const RISING: Refusal = 4;
    /// A via lacks its one segment up and one down.
    pub const VIA: Refusal = 5;
    /// Two inner segments cross.
    pub const CROSSING: Refusal = 6;
    /// There is no such line or mark, or there are no such two levels.
    pub const NO_SUCH: Refusal = 7;
    /// What was handed to place-run is not a run.
    pub const RUN: Refusal = 8;
    /// The sheet is empty.
    pub const EMPTY: Refusal = 11;
    /// The sheet is not drawn.
    pub const NOT_DRAWN: Refusal = 12;
    /// The sheet's plan is that of no text, or its drawing none of that plan.
    pub const NO_PLAN: Refusal = 13;
    /// The buffer is shorter than the line.
    pub const SHORT_BUFFER: Refusal = 14;
    /// The sheet was not loaded by the second way.
    pub const OTHER_WAY: Refusal = 15;
}
