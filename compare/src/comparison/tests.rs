//! What the tests share that wrong implementations are found out.

use super::{run, Peer};
use crate::fast;

/// An implementation that is right in all things.
pub const RIGHT: Peer = Peer {
    name: "right",
    file: fast::file,
    show: fast::show,
    settings: fast::settings,
};

pub const ANOTHER_ANSWER: &str = "another answer";
pub const ANOTHER_REGISTER: &str = "another register";

/// What the comparison of a thousand books with this implementation fails with.
fn failure(peer: Peer) -> String {
    run(peer, 1_000, 1).unwrap_err()
}

#[track_caller]
pub fn assert_found_out(wrong: Peer, what: &str) {
    let failed = failure(wrong);
    let expected = format!("model against {}: {what}", wrong.name);
    assert_eq!(failed.lines().last(), Some(expected.as_str()));
}

/// So few books do not have all that is on the list, and nothing else is told.
#[track_caller]
pub fn assert_not_found_out(right: Peer) {
    let failed = failure(right);
    assert!(failed.starts_with("never came: "), "{failed}");
}

#[test]
fn nothing_is_found_where_all_is_right() {
    assert_not_found_out(RIGHT);
}
