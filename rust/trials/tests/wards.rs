//! What another ward can change in a session that is placed: nothing.

use trials::{compare_wards, files, seed};

#[test]
fn random_pairs() {
    compare_wards(seed(), files() / 10).demand();
}
