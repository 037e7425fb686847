//! Stand-in: os86.rs names this crate and uses nothing of it.
