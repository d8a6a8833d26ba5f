//! The proved engine, called from Rust.
//!
//! A [`Controller`] is one engine with its record, and a [`Pool`] holds the statements that records name by number. The functions are those of
//! `crates/pekdrav`, whose contracts stand there. None asks anything of its caller but memory of the right size, which the types here give.
//!
//! The host checks signatures before it adds a statement, sends what a turn signed to the others, gives each turn the minute of the week from its clock,
//! and keeps each controller from call to call.
//!
//! ```
//! use pekdrav::{Answer, Controller, Pool, Refusal};
//!
//! let (mut controller, mut pool) = (Controller::new(), Pool::new());
//! // The minute of the week, here 8:00 of weekday 1.
//! let minute = 1440 + 480;
//! assert_eq!(controller.turn(&mut pool, minute), Answer::Refused(Refusal::OutOfPlace));
//! // A ring of one: controller 0 is the only member, and the sender of the only notice. It may leave at any time, since there are no windows.
//! assert_eq!(controller.setup(0, 0x0001, &[0], &[]), Answer::Taken);
//! assert_eq!(controller.send(0, 7), Answer::Taken);
//! assert_eq!(controller.turn(&mut pool, minute), Answer::Signed(0));
//! assert_eq!(pool.text(0), Some(b"6,0,00000000,00000000,0,0,7,0,0,0".to_vec()));
//! assert_eq!(controller.evidence(&pool).wished, controller.initial());
//! assert!(controller.screen(&pool).starts_with("controller 0\nstands in 00010000: 0\n"));
//! // Its ack, its store, and the delivery, with the set of those that stored it.
//! assert_eq!(controller.turn(&mut pool, minute), Answer::Signed(1));
//! assert_eq!(controller.turn(&mut pool, minute), Answer::Signed(2));
//! assert_eq!(controller.turn(&mut pool, minute), Answer::Delivered { notice: 0, payload: 7, signers: 0b1 });
//! ```

#![deny(missing_docs, unsafe_code)]

mod answer;
mod controller;
mod count;
mod evidence;
#[allow(unsafe_code)]
mod ffi;
mod pool;
mod record;
pub mod schedule;
mod screen;
pub mod statement;
mod view;
mod window;

pub use answer::{Answer, Refusal};
pub use controller::{Binding, Controller, Notice};
pub use count::{Count, Question};
pub use evidence::{Certificate, Evidence, EvidenceWords, Shown};
pub use pool::{AppendError, Pool, POOL_WORDS, STATEMENTS};
pub use record::Record;
pub use screen::SCREEN_BYTES;
pub use statement::Kind;
pub use view::{Ring, View, NOTICES, VIEWS};
pub use window::{Window, WINDOWS};
