//! A second implementation of document 01 (the owner's scope document) and requests 2026-01 to 2026-07
//! of document 02 (the owner's change requests), written from those alone, and the checks by which the
//! proved library, which is linked here, is compared with it. Where they differ, document 02 holds.
#![deny(unsafe_code)]

/// The proved library through its C interface. No other module has unsafe code.
#[allow(unsafe_code)]
#[path = "../../include/bordavina.rs"]
pub mod bordavina;
pub mod calls;
pub mod clauses;
pub mod comparison;
pub mod flow;
pub mod generator;
pub mod job;
pub mod lent;
pub mod outcome;
pub mod place_call;
pub mod random;
pub mod reader;
pub mod refusal;
pub mod roof;
pub mod rules;
pub mod shortage;
pub mod tables;
pub mod tally;
pub mod text;
pub mod tried;
