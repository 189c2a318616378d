//! The crate on the fixed lists of geop's answers, which crates/run_replay and crates/interval_replay replay.

mod calls;
mod minimize;
mod runs;
mod scalars;

/// A file of the repository.
fn file(path: &str) -> String {
    let path = format!("{}/../{path}", env!("CARGO_MANIFEST_DIR"));
    std::fs::read_to_string(&path).unwrap_or_else(|e| panic!("{path}: {e}"))
}

/// A hexadecimal number.
fn number(token: &str) -> usize {
    usize::from_str_radix(token, 16).unwrap_or_else(|e| panic!("{token}: {e}"))
}
