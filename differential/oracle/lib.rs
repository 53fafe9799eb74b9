//! The oracle: the original Rust files, unchanged but for the constant of the air's density, with
//! document 01's stand-ins, and over them a second reading of 01's blocks, refusals, tick, run and fly,
//! and of 02's density.

// The originals offer more than the tick calls.
#![allow(dead_code)]

// The originals.
mod aero;
mod body;
mod fixed_wing;
mod lag;
mod motors;
mod surfaces;
mod tailsitter_model;
mod wing;

// What they name from files that are not here; `air` is for one line of `aero`.
mod air;
mod delay;
mod ground;
mod lockstep;
mod model;
mod perturbations;
mod quadplane_model;

// Document 01, read a second time.
pub mod blocks;
pub mod density;
pub mod drive;
pub mod fly;
pub mod hand;
pub mod limits;
pub mod tick;

// Inputs, lists and the comparison.
pub mod arguments;
pub mod inputs;
pub mod lists;
pub mod mirror;
pub mod rng;
pub mod rows;
pub mod words;
