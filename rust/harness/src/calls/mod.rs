//! The proved functions, what they return, and how often each was called in which way.

pub(crate) mod afresh;
pub mod exports;
pub(crate) mod kinds;
pub mod numbers;
pub(crate) mod returned;
