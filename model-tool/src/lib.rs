//! The console over the proved library: models as text, runs to watch, interrupt and go on with, and
//! findings to read. Every verdict that it prints is the library's.

mod commands;
mod confirm;
mod fault;
mod files;
mod finding;
mod help;
mod html;
mod image;
mod json;
pub mod library;
mod model;
mod numbers;
mod options;
mod report;
#[cfg(test)]
mod round_trip;
mod run;
mod save;
mod table;
mod terminal;
mod text;
mod watched;
mod words;

pub use commands::command;
