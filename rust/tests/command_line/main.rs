//! The command line: each command by what it prints, what it writes and its
//! status.

mod any_files;
mod calls;
mod commands;
mod ends;
mod explore;
mod field_faults;
mod files;
mod promela;
mod random;
mod refusals;
mod refused_starts;
mod round_trips;
mod start_test;
mod start_values;
mod stops;
mod timeline;
mod tools;
mod vectors;
mod xml;
