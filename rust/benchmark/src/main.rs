//! How fast the proved code is beside the reference: one run, the same inputs, both built for release.
//!
//! `ring-benchmark [PART ..]`, with parts `statements`, `scan`, `counts`, `signers`, `evidence`, `turns`, `screens` and `schedules`; all of them without
//! an argument. `ring-benchmark repeat PART CASE SIDE ROUNDS` does the work of one case of `statements`, `counts`, `screens` or `evidence` and times
//! nothing: `instructions` counts what it takes.

mod counts;
mod evidence;
mod measure;
mod scan;
mod schedules;
mod screens;
mod signers;
mod statements;
mod turns;

const PARTS: [(&str, fn()); 8] = [
    ("statements", statements::print),
    ("scan", scan::print),
    ("counts", counts::print),
    ("signers", signers::print),
    ("evidence", evidence::print),
    ("turns", turns::print),
    ("screens", screens::print),
    ("schedules", schedules::print),
];

fn main() {
    let asked: Vec<String> = std::env::args().skip(1).collect();
    if let [word, part, case, side, rounds] = asked.as_slice() {
        if word == "repeat" {
            let repeat = match part.as_str() {
                "statements" => statements::repeat,
                "counts" => counts::repeat,
                "screens" => screens::repeat,
                _ => evidence::repeat,
            };
            return repeat(case, side, rounds.parse().unwrap_or(0));
        }
    }
    let wanted = |name: &str| asked.is_empty() || asked.iter().any(|word| word == name);
    for (name, print) in PARTS {
        if wanted(name) {
            print();
            println!();
        }
    }
}
