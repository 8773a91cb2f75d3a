//! Which way a stand-in for the library is wrong, for the tests that show that a wrong one is seen.

use std::sync::OnceLock;

/// Whether the stand-in is wrong in this way, one of `ways`: the environment's `variable` names the one that it is wrong in.
pub fn wrong(variable: &str, ways: &[&str], way: &str) -> bool {
    static WRONG: OnceLock<String> = OnceLock::new();
    assert!(ways.contains(&way));
    WRONG.get_or_init(|| {
        let named = std::env::var(variable).expect(variable);
        assert!(ways.contains(&named.as_str()), "there is no {named}");
        named
    }) == way
}
