//! The tests of every call: inputs whose answers are written by hand or given by a rule, one file for each thing tested, and random ones (`compare`).
//! They are compared with a second implementation (`model`), too, and days of up to 64 badges with the one that there was when a set of badges was
//! one word (`model64`). Every lent buffer, also one that a call only reads, is compared whole, before and after, with guards around it.
//! The tool at a prompt is run as a program (`prompt`).

mod model;
mod model64;
mod support;

mod as_before;
mod chains;
mod circles;
mod compare;
mod join_refusals;
mod joined;
mod joining;
mod largest;
mod listing;
mod logs;
mod numbers;
mod pieces;
mod plans;
mod prompt;
mod refusals;
mod reports;
mod reviews;
mod rows;
mod thresholds;
mod tidying;
mod traces;
mod wide;
mod words;
