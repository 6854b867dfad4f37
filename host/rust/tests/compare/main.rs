//! The library against an independent implementation (`reference`), on fixed-seed inputs. Each
//! test prints how many cases it ran and how many had each answer number: see them with
//! `cargo test -- --show-output`.

#![allow(clippy::incompatible_msrv)] // built with today's compiler; rust-version is what the crate asks of its users

mod buffers;
mod calls;
mod closing;
mod constants;
mod core_forms;
mod flat_memory;
mod hand_lists;
mod index;
mod iterators;
mod listing;
mod lists;
mod logs;
mod meter;
mod model;
mod model_calls;
mod model_runs;
mod model_states;
mod page;
mod plan;
mod plan_all;
mod plan_calls;
mod plan_runs;
mod plan_states;
mod plan_streams;
mod random;
mod record;
mod reference;
mod reference_model;
mod reference_plan;
mod reference_rules;
mod reference_state;
mod reference_steps;
mod refusals;
mod rule_calls;
mod rule_settings;
mod rules;
mod settings;
mod shortest;
mod stamped;
mod state_bytes;
mod tuned_model;
mod tuned_plan;
mod tuned_records;
mod tuned_requests;
mod tuned_rules;
mod tuned_state;
mod two_writes;
mod version;
mod whole_runs;
mod whole_seen;
mod words;
