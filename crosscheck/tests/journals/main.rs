//! Journals with their lines worked out by hand from documents 01 and 02, whose sentences the
//! comments quote.

mod bad_journals;
mod edges;
mod examples;
mod faults;
mod kept_off;
mod numbers;
mod probe;
mod refused_start;
mod regions;
mod requests;
mod support;
mod worked_run;
