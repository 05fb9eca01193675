//! `misreadings EXAMPLES CALLS..`: which line of which list first tells each planted misreading apart.
//!
//! Prints a table row a misreading; the status is not 0 where one is told apart by none of the lists.

#![allow(dead_code)]

mod coverage;
mod engine;
mod line;
mod misread;
mod model;
mod state;

use line::{lines, parse, perform};
use misread::MISREADINGS;
use model::Model;
use state::State;

/// The first line of a text that a misread model answers otherwise. A panic of it is told apart too.
fn first_line(text: &[u8], misreading: u32) -> Option<usize> {
    let at = std::sync::atomic::AtomicUsize::new(0);
    let told = std::panic::catch_unwind(|| {
        let (mut a, mut b) = (State::new(), State::new());
        let (mut right, mut wrong) = (Model::new(0), Model::new(misreading));
        for (i, l) in lines(text).enumerate() {
            at.store(i + 1, std::sync::atomic::Ordering::Relaxed);
            if let Ok(Some(c)) = parse(l)
                && perform(&c, &mut a, &mut right) != perform(&c, &mut b, &mut wrong)
            {
                return true;
            }
        }
        false
    });
    told.unwrap_or(true).then(|| at.load(std::sync::atomic::Ordering::Relaxed))
}

fn main() {
    let names: Vec<String> = std::env::args().skip(1).collect();
    if names.len() < 2 {
        eprintln!("misreadings EXAMPLES CALLS..");
        std::process::exit(1)
    }
    std::panic::set_hook(Box::new(|_| {}));
    let texts: Vec<Vec<u8>> = names.iter().map(|n| line::read_file(n)).collect();
    let short: Vec<&str> = names.iter().map(|n| n.rsplit('/').next().unwrap_or(n)).collect();
    println!("| No. | misreading | first line that tells it apart | E1 to E12 |");
    println!("|---|---|---|---|");
    let (mut missed, mut by_examples) = (0, 0);
    for (number, what) in MISREADINGS {
        let list = (1..texts.len()).find_map(|i| first_line(&texts[i], *number).map(|l| (short[i], l)));
        let example = first_line(&texts[0], *number);
        let list = match list {
            Some((name, line)) => format!("{name} {line}"),
            None => {
                missed += 1;
                "none".to_string()
            }
        };
        let example = match example {
            Some(line) => {
                by_examples += 1;
                format!("line {line}")
            }
            None => "-".to_string(),
        };
        println!("| {number} | {what} | {list} | {example} |");
    }
    println!();
    println!("{} misreadings, {missed} told apart by no list, {by_examples} by E1 to E12", MISREADINGS.len());
    std::process::exit((missed > 0) as i32)
}
