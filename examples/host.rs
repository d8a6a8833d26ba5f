//! Two controllers in one program: what one signs, the other is given. Each sends one notice, and both deliver both. `host.c` is the same host in C.
//!
//!     (cd crates/pekdrav && rt lib)
//!     cargo run --release --offline --manifest-path rust/Cargo.toml -p pekdrav --example host

use pekdrav::{Answer, Controller, Pool, Question, Window};

/// A controller with a pool of its own.
#[derive(Default)]
struct Seat {
    controller: Controller,
    pool: Pool,
}

/// A host would sign this text and send it; here it goes straight to the other controller.
fn pass_on(ring: &mut [Seat; 2], from: usize, number: u16) {
    let text = ring[from].pool.text(number).unwrap_or_default();
    println!("{from} signed {}", String::from_utf8_lossy(&text));
    let to = &mut ring[1 - from];
    to.controller.add(&mut to.pool, &text);
}

/// What was delivered, who stored it, and after how many statements of its record the controller had the stores of a quorum.
fn tell(Seat { controller, pool }: &Seat, k: usize, notice: u8, payload: u64, signers: u32) {
    let stores = controller.count(pool, &Question::Store { at: controller.initial(), notice, payload });
    let signers: String = (0..16).filter(|signer| signers >> signer & 1 == 1).map(|signer| format!(" {signer}")).collect();
    println!("{k} delivered {payload}, notice {notice}, stored by{signers} after {} statements", stores.read);
}

/// The minute of the week, which a host has from its clock; here it is always 9:30 of weekday 2. Only leaves depend on it, and here nobody leaves.
fn minute_of_the_week() -> u16 {
    2 * 1440 + 9 * 60 + 30
}

/// One turn. Answers false where there was nothing to do.
fn turn(ring: &mut [Seat; 2], k: usize) -> bool {
    let Seat { controller, pool } = &mut ring[k];
    match controller.turn(pool, minute_of_the_week()) {
        Answer::Signed(number) => pass_on(ring, k, number),
        Answer::Entered(view) => println!("{k} entered {view}"),
        Answer::Delivered { notice, payload, signers } => tell(&ring[k], k, notice, payload, signers),
        Answer::Refused(refusal) => {
            println!("{k} refused {}", refusal.number());
            return false;
        }
        Answer::Taken | Answer::Left | Answer::Quiet => return false,
    }
    true
}

fn main() {
    let mut ring: [Seat; 2] = Default::default();
    for (number, seat) in (0..).zip(&mut ring) {
        // Notice 0 is sent by controller 0, notice 1 by controller 1. Who asks to leave may do so on weekday 2 from 8:00 to 12:00.
        seat.controller.setup(number, 0x0003, &[0, 1], &[Window::new(2, 480, 720)]);
    }
    ring[0].controller.send(0, 7);
    ring[1].controller.send(1, 8);
    while turn(&mut ring, 0) | turn(&mut ring, 1) {}
    // What the screen of a service engineer shows of controller 0.
    print!("{}", ring[0].controller.screen(&ring[0].pool));
}
