//! An independent model of the crank bench, with comparison tests and a
//! benchmark against the proved static libraries.
//!
//! The modules stand in layers: each uses those of the groups above it alone.

pub mod instruction;
pub mod rng;

pub mod machine;
pub mod positions;
pub mod words;

pub mod image;
pub mod nodes;
pub mod state;

pub mod cover;
pub mod damage;
pub mod forks;
pub mod idle;
pub mod multiplexor;
pub mod preview;
pub mod program;
pub mod structured;
pub mod wheel;

pub mod coins;
pub mod compare;
pub mod generate;
pub mod maker;
pub mod walks;

pub mod asides;

pub mod lists;
