//! The library's rivals in plain Rust. "plain" has all calls, planner and model in the forms that
//! document 01 names. "tuned" has planner and model with the channel as a struct of arrays, for vector
//! instructions; the tests use it too.

#![allow(dead_code)] // each bench uses a part
#![allow(clippy::incompatible_msrv)] // built with today's compiler; rust-version is what the crate asks of its users

pub mod meter;
pub mod plain;
#[path = "../../tests/compare/tuned_model.rs"]
pub mod tuned_model;
#[path = "../../tests/compare/tuned_plan.rs"]
pub mod tuned_plan;
#[path = "../../tests/compare/tuned_records.rs"]
pub mod tuned_records;
#[path = "../../tests/compare/tuned_requests.rs"]
pub mod tuned_requests;
#[path = "../../tests/compare/tuned_rules.rs"]
pub mod tuned_rules;
#[path = "../../tests/compare/tuned_state.rs"]
pub mod tuned_state;
