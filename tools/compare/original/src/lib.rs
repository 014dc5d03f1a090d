//! RustyLR's core, unchanged, from the build folder (see `build.rs`).
#![allow(dead_code, clippy::all)]

include!(concat!(env!("OUT_DIR"), "/rusty_lr_core/root.rs"));

pub use location::Location;
pub use symbol::TerminalSymbol;

/// Supplied: version numbers; the driver emits the same.
pub mod versions {
    pub const EXPECTED_RUSTY_LR_PARSER_VERSION: (usize, usize, usize) = (1, 0, 0);
    pub const COMPATIBLE_RUSTY_LR_VERSION: (usize, usize, usize) = (1, 0, 0);
    pub const COMPATIBLE_RUSTYLR_VERSION: (usize, usize, usize) = (1, 0, 0);
}
