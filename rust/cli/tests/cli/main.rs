//! Runs the program: on worked examples, on generated inputs beside the independent decoder, and in wrong ways.

mod compared;
mod json_reader;
mod output;
mod payloads;
mod recordings;
mod support;
mod tables;
mod usage;
