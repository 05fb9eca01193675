//! `model [--misreading N | --coverage] [IN [OUT]]`: answers line form by the second model.
//!
//! `--coverage` prints afterwards, on standard error, what the calls reached.

#![allow(dead_code)]

mod coverage;
mod engine;
mod line;
mod model;
mod state;

fn main() {
    let mut args: Vec<String> = std::env::args().skip(1).collect();
    let mut model = model::Model::new(0);
    let mut coverage = false;
    match args.first().map(|a| a.as_str()) {
        Some("--misreading") => {
            model.misreading = args.get(1).and_then(|n| n.parse().ok()).unwrap_or_else(|| {
                eprintln!("--misreading takes a number");
                std::process::exit(1)
            });
            args.drain(..2);
        }
        Some("--coverage") => {
            coverage = true;
            args.remove(0);
        }
        _ => {}
    }
    line::program(&args, &mut model);
    if coverage {
        eprint!("{}", model.coverage.table());
    }
}
