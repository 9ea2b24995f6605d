pub mod chance;
pub mod flat;
#[cfg(library)]
pub mod library;
pub mod numbers;
pub mod plain;
