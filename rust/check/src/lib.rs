//! Checks demand 3 on runs of the reference, by definitions of its own.

pub mod definition;
pub mod judge;
pub mod run;
pub mod soak;

pub use definition::{Definition, Store};
pub use judge::{judge, Breach, Depth, Verdict};
pub use run::{Deed, Event, Run};
pub use soak::{soak, soak_with, Totals};
