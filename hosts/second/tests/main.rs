//! Tests of the second program: the listing, the paper's edges, every refusal on both
//! sides of its edge, and everything that the generator makes against plain maps.

#[path = "../generate/bench_calls.rs"]
mod bench_calls;
#[path = "../generate/images.rs"]
mod images;
#[path = "../generate/script.rs"]
mod script;
#[path = "../generate/suites.rs"]
mod suites;

mod against_plain;
mod build;
mod directory;
mod edges;
mod image_faults;
mod line_forms;
mod listing;
mod plain;
mod refusals;
mod rounds;
mod soundness;
