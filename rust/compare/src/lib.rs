//! The proved code against the reference, on generated inputs.

pub mod counts;
pub mod evidence;
pub mod lines;
pub mod lockstep;
pub mod records;
pub mod rows;
pub mod schedules;
pub mod screens;
pub mod signers;
pub mod statements;
