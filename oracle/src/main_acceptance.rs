//! `acceptance`: the two acceptance tests on every table of kinds over one, two and three classes.
//!
//! Prints how many (kinds, default) are accepted; the status is not 0 where the tests differ or a figure is not the known one.

#![allow(dead_code)]

mod coverage;
mod domain;
mod engine;
mod line;
mod model;
mod state;

use state::{Pair, State};

fn main() {
    let model = model::Model::new(0);
    let mut wrong = false;
    for (classes, known) in [(1usize, 2u64), (2, 96), (3, 31_872)] {
        let mut s = State::new();
        s.frames = 1;
        for c in 0..classes {
            s.classes[c] = Some(0);
        }
        let pairs = classes * classes;
        let (mut all, mut accepted) = (0u64, 0u64);
        for kinds in 0u64..1 << (2 * pairs) {
            for p in 0..pairs {
                s.table[p / classes][p % classes] = Pair { kind: (kinds >> (2 * p) & 3) as u8, ..Pair::default() };
            }
            for d in 0..classes {
                s.default = d as u8;
                all += 1;
                let by_model = model.accepts(&s);
                if by_model != domain::accepted(&s) {
                    println!("the tests differ: {classes} classes, kinds {kinds:#x}, default {d}");
                    wrong = true;
                }
                accepted += by_model as u64;
            }
        }
        println!("{classes} classes: {accepted} of {all} accepted");
        wrong |= accepted != known;
    }
    std::process::exit(wrong as i32)
}
