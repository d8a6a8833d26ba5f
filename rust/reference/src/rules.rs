//! Which rules an engine follows.

/// The rules that a deliberately broken engine may drop, so that a checker can be shown to notice.
///
/// Every constant is `true` for the engine of the scope document; being constants they cost nothing.
pub trait Rules {
    /// Only signatures of members of the top count.
    const MEMBERS_ONLY: bool = true;
    /// A quorum is n - floor((n - 1) / 3) members, not one member.
    const FULL_QUORUM: bool = true;
    /// A certificate and a report's binding need the sender's prepare.
    const PREPARED_ONLY: bool = true;
    /// Entering needs reports on each older view, not on the newest alone.
    const EVERY_OLDER_VIEW: bool = true;
    /// Entering needs no reports on a skipped view.
    const VIEWS_SKIPPED: bool = true;
    /// Only a sealed history makes a view skipped, not every one that somebody agrees to.
    const SKIPPED_BY_SEALED: bool = true;
    /// A history makes a view skipped only if its top is greater than the view.
    const SKIPPED_BY_GREATER: bool = true;
    /// A history makes a view skipped only if it lacks the view.
    const SKIPPED_BY_LACK: bool = true;
    /// Reports on a skipped view do not bind.
    const SKIPPED_UNHEARD: bool = true;
    /// Entering takes over the bindings of the counted reports.
    const BINDING_CARRIED: bool = true;
    /// Entering past a skipped view takes over the bindings of the reports on the others.
    const SHORT_ROAD_BINDS: bool = true;
    /// A report names the payload of the certificate.
    const CERTIFICATE_REPORTED: bool = true;
    /// A controller that is bound acknowledges nothing else, and one that is barred nothing.
    const BINDING_KEPT: bool = true;
    /// What is said of one notice counts for no other.
    const NOTICES_APART: bool = true;
    /// A notice is delivered once.
    const DELIVERED_ONCE: bool = true;
    /// A leave is signed only inside a window.
    const LEAVE_IN_WINDOW: bool = true;
    /// A join waits for no window.
    const LEAVE_ALONE_IN_WINDOW: bool = true;
    /// Of several sealed tops with a quorum the least one's signers are told.
    const LEAST_TOP: bool = true;
    /// The signers that a delivery tells are members of that top.
    const MEMBERS_TOLD: bool = true;
}

/// The rules as the scope document states them.
#[derive(Clone, Copy, Debug)]
pub struct Document;

impl Rules for Document {}
