//! A million statement lines, read and written by the proved code and by the reference.

use compare::lines::{Damage, DAMAGES};
use compare::statements::compare;

#[test]
fn reading_and_writing_agree() {
    let tally = compare(1, 1_000_000).unwrap_or_else(|difference| panic!("they differ: {difference}"));
    println!("statement lines: {tally}");
    assert!(tally.accepted() > 300_000 && tally.refused() > 300_000, "too few accepted or refused");
    assert!(tally.accepted[1..].iter().all(|&count| count > 10_000), "too few of a kind");
    assert!(tally.full > 5_000, "too few with 16 views");
    assert!(tally.grouped > 10_000, "too few with more than one group");
    assert!(tally.cramped > 5_000, "too few without room");
    for (damage, &count) in DAMAGES.iter().zip(&tally.refused) {
        let least = match damage {
            Damage::Proper => 0,
            Damage::Long => 200,
            _ => 5_000,
        };
        assert!(count >= least, "too few refused for {damage:?}");
    }
}
