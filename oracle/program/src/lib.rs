//! The judge: answers the question language from the unchanged Rust and, where the Rust
//! knows nothing, from a second reading of documents 01 and 02.

pub mod answer;
pub mod compare_rolls;
pub mod confirm_rolls;
pub mod contracted;
pub mod cursors;
pub mod diff;
pub mod floats;
pub mod form2_rolls;
pub mod form2_runs;
pub mod last_bits;
pub mod lines;
pub mod matrices;
pub mod nuclei;
pub mod odd_lines;
pub mod parse;
pub mod questions;
pub mod random;
pub mod requests;
pub mod rolls;
pub mod roots;
pub mod runs;
pub mod rust_side;
pub mod salvage_rolls;
pub mod second;
pub mod small_rolls;
pub mod texts;
