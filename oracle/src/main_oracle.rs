//! `oracle [IN [OUT]]`: answers line form by LLFree's own modules.

#![allow(dead_code)]

mod domain;
mod engine;
mod line;
mod rust;
mod state;

fn main() {
    let args: Vec<String> = std::env::args().skip(1).collect();
    line::program(&args, &mut rust::Oracle::new());
}
