//! The checker must be able to fail: each engine here drops one rule, and a run within the premises shows it.

use check::{judge, soak_with, Run};
use generate::schedule_for;
use reference::{Document, Rules};

macro_rules! broken {
    ($name:ident drops $rule:ident) => {
        struct $name;
        impl Rules for $name {
            const $rule: bool = false;
        }
    };
}

broken!(AnySigner drops MEMBERS_ONLY);
broken!(OneIsAQuorum drops FULL_QUORUM);
broken!(NoPrepare drops PREPARED_ONLY);
broken!(NewestOnly drops EVERY_OLDER_VIEW);
broken!(NeverSkips drops VIEWS_SKIPPED);
broken!(SkipsByVotes drops SKIPPED_BY_SEALED);
broken!(SkipsWhateverTop drops SKIPPED_BY_GREATER);
broken!(SkipsWhatWasPassed drops SKIPPED_BY_LACK);
broken!(ShortRoadUnbound drops SHORT_ROAD_BINDS);
broken!(BindingLost drops BINDING_CARRIED);
broken!(AcksAnything drops BINDING_KEPT);
broken!(CertificateLost drops CERTIFICATE_REPORTED);
broken!(DeliversAgain drops DELIVERED_ONCE);
broken!(NoticesMixed drops NOTICES_APART);
broken!(LeavesAnyTime drops LEAVE_IN_WINDOW);
broken!(TellsGreatestTop drops LEAST_TOP);
broken!(TellsStrangers drops MEMBERS_TOLD);

/// Whether an attack within the premises fails in the given way.
fn fails<R: Rules>(kind: &str, lines: usize) -> bool {
    fails_in::<R>("attack", kind, lines)
}

/// Whether a run of the style within the premises does.
fn fails_in<R: Rules>(style: &str, kind: &str, lines: usize) -> bool {
    (1..1_200).any(|seed| {
        let run = Run::of::<R>(&schedule_for::<R>(style, seed, lines).unwrap());
        let verdict = judge(&run);
        let found = verdict.breaches.iter().any(|breach| breach.kind() == kind);
        verdict.within_premises && (found || (kind == "contradiction" && verdict.contradiction))
    })
}

#[test]
fn signatures_of_strangers_give_two_payloads() {
    assert!(fails::<AnySigner>("two payloads", 800));
}

#[test]
fn too_small_a_quorum_gives_two_payloads() {
    assert!(fails::<OneIsAQuorum>("two payloads", 800));
}

#[test]
fn too_small_a_quorum_gives_incomparable_views() {
    assert!(fails::<OneIsAQuorum>("incomparable", 800));
}

#[test]
fn a_certificate_without_prepare_breaks_integrity() {
    assert!(fails::<NoPrepare>("not prepared", 800));
}

#[test]
fn reports_without_the_certificate_lose_what_was_stored() {
    assert!(fails::<CertificateLost>("not kept", 800));
}

#[test]
fn reading_only_the_newest_older_view_loses_what_was_stored() {
    assert!(fails::<NewestOnly>("not kept", 1_200));
}

#[test]
fn skipping_by_votes_that_seal_nothing_loses_what_was_stored() {
    assert!(fails_in::<SkipsByVotes>("skips", "not kept", 1_200));
}

#[test]
fn skipping_by_a_history_whose_top_is_not_greater_loses_what_was_stored() {
    assert!(fails_in::<SkipsWhateverTop>("skips", "not kept", 1_200));
}

#[test]
fn skipping_a_view_that_a_history_passed_but_has_gives_two_payloads() {
    assert!(fails_in::<SkipsWhatWasPassed>("skips", "not kept", 800));
    assert!(fails_in::<SkipsWhatWasPassed>("skips", "two payloads", 800));
}

#[test]
fn a_binding_that_is_not_carried_past_a_skipped_view_gives_two_certificates() {
    assert!(fails_in::<ShortRoadUnbound>("skips", "contradiction", 1_200));
}

#[test]
fn who_skips_nothing_keeps_the_promises_but_never_enters_past_a_skipped_view() {
    let totals = soak_with::<NeverSkips>("skips", 1, 60, 400).unwrap();
    assert!(totals.failed.is_empty() && totals.short_roads == 0);
}

#[test]
fn a_binding_that_is_not_carried_over_gives_two_certificates() {
    assert!(fails::<BindingLost>("contradiction", 1_200));
}

#[test]
fn a_binding_that_is_not_kept_gives_two_certificates() {
    assert!(fails::<AcksAnything>("contradiction", 1_200));
}

#[test]
fn prepares_of_another_notice_break_integrity() {
    assert!(fails::<NoticesMixed>("not prepared", 800));
}

#[test]
fn delivering_again_is_noticed() {
    assert!(fails::<DeliversAgain>("delivered twice", 800));
}

#[test]
fn a_leave_outside_its_window_is_noticed() {
    assert!(fails_in::<LeavesAnyTime>("leavers", "outside window", 300));
}

#[test]
fn the_signers_at_the_greatest_top_are_noticed() {
    for style in ["honest", "attack", "skips"] {
        assert!(fails_in::<TellsGreatestTop>(style, "other signers", 600), "{style}");
    }
}

/// Only in these styles are there liars that never join.
#[test]
fn signers_that_are_no_members_are_noticed() {
    for style in ["attack", "skips"] {
        assert!(fails_in::<TellsStrangers>(style, "other signers", 600), "{style}");
    }
}

#[test]
fn too_many_liars_break_the_promises_outside_the_premises() {
    let broken = (1..50).any(|seed| {
        let verdict = judge(&Run::of::<Document>(&schedule_for::<Document>("overrun", seed, 300).unwrap()));
        !verdict.within_premises && verdict.breaches.iter().any(|breach| breach.kind() == "two payloads")
    });
    assert!(broken);
}
