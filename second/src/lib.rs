//! The second program: document 01 once more, in ordinary Rust.
//!
//! `model` holds the twelve calls, `script` and `player` the bench script over them. `history` and `shore` follow what
//! the calls mean from outside, and `check` asks the `rules` of each step. `generate` writes random histories; `compare` plays
//! them against another program.

pub mod check;
pub mod compare;
pub mod count;
pub mod coverage;
pub mod crc;
pub mod expect;
pub mod fit;
pub mod generate;
pub mod history;
pub mod model;
pub mod picture;
pub mod player;
pub mod random;
pub mod refusal;
pub mod ring;
pub mod rules;
pub mod script;
pub mod sheet;
pub mod shore;
pub mod shrink;
pub mod state;
pub mod words;
