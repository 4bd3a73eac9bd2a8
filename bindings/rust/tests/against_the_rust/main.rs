//! The wrapper beside the published Rust: the same calls on both, and every figure, state, pixel, zoom and shutter
//! compared.
//!
//!     against_the_rust [--seed N] [--calls N]
//!
//! A fresh seed each run, printed, unless one is given. The published files are found through the links that
//! oracle/tree makes, with the stand-ins of oracle/src around them (docs/ORACLE.md).

#![forbid(unsafe_code)]

#[cfg(not(unlinked))]
include!("comparison.rs");

/// Nothing of it compiles without the links, so that build.rs looks for them first.
#[cfg(unlinked)]
fn main() -> std::process::ExitCode {
    eprintln!(
        "against_the_rust: the links to the published Rust are not there; run oracle/tree in the repository first"
    );
    std::process::ExitCode::FAILURE
}
