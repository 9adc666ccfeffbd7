//! Holds the proved library against the second program, over inputs of every kind, and
//! the built programs `rise` and `rating` against both, and the built programs and the
//! library against the commands and tables that documents show. The built program
//! `rise_by_reader` gets all that `rise` gets, and must answer alike.

mod check;
mod distance;
mod emergency;
mod history;
mod input;
pub mod judge;
mod numbers;
pub mod pages;
pub mod program;
mod random;
mod rules;
mod run;
mod sheets;
pub mod shown;
mod trench;
mod trenches;
pub mod twins;

pub use check::check;
pub use history::History;
pub use input::Input;
pub use numbers::cable_a;
pub use random::Random;
pub use run::{Check, Run, Tally};
pub use trench::Trench;
