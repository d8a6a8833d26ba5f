//! The ring notices engine for one controller, and the bench that runs sixteen from a schedule.
//!
//! Data flows one way: a schedule line, a statement, a record, what the record shows, a turn, a row.

pub mod bench;
pub mod controller;
pub mod count;
pub mod evidence;
mod index;
pub mod record;
pub mod rules;
pub mod screen;
pub mod statement;
pub mod text;
pub mod view;
pub mod window;

pub use bench::{Bench, Outcome, Row};
pub use controller::{Answer, Controller, Notice, Refusal};
pub use count::{count_reports, who, who_reported, Count, Question};
pub use evidence::{Evidence, Known, Quorum};
pub use record::Record;
pub use rules::{Document, Rules};
pub use statement::{Binding, Body, Fields, Group, Report, Statement, Told, NOTICES};
pub use view::{History, Set, View};
pub use window::{Window, WEEK, WINDOWS};
