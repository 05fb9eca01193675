//! The port against the Rust: `bench FACTS TEMPLATE OUT.md OUT.svg` measures all and writes the document and the plot.
//! FACTS has lines `NAME=TEXT` that fill in the template's `{NAME}` beside what is measured here.

mod calls;
mod measure;
mod parts;
mod plot;
mod port;
mod report;
mod rust;
mod side;
mod stack;
mod worst;

use std::fs::{read_to_string, write};

use report::{Cases, Kind, Report};

/// All cases are timed so often, far apart, that a disturbance of some seconds does not count.
const PASSES: usize = 3;
/// So often at most the cases that are above a goal are timed again.
const MORE: usize = 8;

fn pass(r: &mut Report, cases: &Cases) {
    parts::run(r);
    cases.0.iter().for_each(|row| r.calls(row));
}

fn main() {
    let args: Vec<String> = std::env::args().skip(1).collect();
    let [facts, template, page, picture] = args.as_slice() else { panic!("bench FACTS TEMPLATE OUT.md OUT.svg") };
    let mut r = Report::default();
    let mut cases = Cases::default();
    calls::cases(&mut cases);
    worst::cases(&mut cases);
    (0..PASSES).for_each(|_| pass(&mut r, &cases));
    r.above_alone = true;
    for _ in 0..MORE {
        if r.misses() {
            pass(&mut r, &cases);
        }
    }
    let stack = stack::run();
    let mut text = read_to_string(template).expect("the template");
    for line in read_to_string(facts).expect("the facts").lines() {
        let (name, fact) = line.split_once('=').expect("NAME=TEXT");
        text = text.replace(&format!("{{{name}}}"), fact);
    }
    for (name, made) in [
        ("{goals}", r.goals(&stack) + &r.reasons()),
        ("{calls}", r.table(Kind::Call)),
        ("{worst}", r.table(Kind::Worst)),
        ("{parts}", r.parts()),
        ("{stack}", r.stack(&stack)),
    ] {
        text = text.replace(name, made.trim_end());
    }
    write(page, text).expect("the page");
    write(picture, plot::svg(&r)).expect("the plot");
}
