//! The version of the programs.

use simplex_view_state::build_info;
use std::sync::LazyLock;

/// Returns this release's version, and what the library in it is: whether it is proved, of which commit, and by which kit.
pub fn version() -> &'static str {
    static TEXT: LazyLock<String> = LazyLock::new(|| format!("{} (library: {})", env!("CARGO_PKG_VERSION"), build_info()));
    &TEXT
}
