//! Wrong answers, planted in the port's for the driver of damaged stores, which has to report each.

use crate::engine::Said;
use crate::guarded::{GUARDS, mark};
use crate::line::Answer;
use crate::raw::Lending;
use crate::state::State;

/// Wrong answers that a run has to report. The last two are planted in the second model's answers too, so that only the
/// tests beside it can see them.
pub const PLANTED: [&str; 15] = [
    "Broken answered as Done", "Config answered as Done", "Order answered as Bounds", "a refused get names a frame", "one look too many",
    "one try too many", "a tree word changed at a refusal", "a bitmap word changed by statistics", "the word before the tree words written",
    "the word after the local words written", "a tally row left by Done", "a tally row written at a refusal", "the row after the tally rows written",
    "Broken answered as Done by both", "a tree word changed at a refusal by both",
];

/// Changes the port's answer or words by the planted wrong answer of this number; 0 is none.
pub fn plant(number: usize, answer: &mut Answer, lending: &mut Lending) {
    let said = answer.number();
    match (number, &mut *answer) {
        (1, Answer::Drain(Said::Is(n @ 1))) | (2, Answer::Start(Said::Is(n @ 10))) => *n = 0,
        (3, Answer::Put(Said::Is(n @ 2))) => *n = 3,
        (4, Answer::Get(Said::Is(g))) if g.number == 1 => g.frame = 1,
        (5, Answer::Get(Said::Is(g))) if g.number == 0 => g.looks += 1,
        (6, Answer::Get(Said::Is(g))) if g.number == 7 => g.tries += 1,
        (7, Answer::Put(_)) if said != Some(0) => {
            if let Some(w) = lending.trees.lent().last_mut() {
                *w ^= 1 << 31;
            }
        }
        (8, Answer::Stats(_)) if said == Some(0) => lending.bitmap.lent()[0] ^= 1,
        (9, Answer::Drain(_)) if said == Some(0) => lending.trees.words[GUARDS - 1] ^= 1,
        (10, Answer::Get(_)) if said == Some(0) => {
            let after = GUARDS + lending.locals.lent().len();
            lending.locals.words[after] = 0;
        }
        (11, Answer::Stats(Said::Is(c))) if c.number == 0 => c.rows[7] = mark(7),
        (12, Answer::Stats(_)) if said != Some(0) => {
            if let Some(row) = lending.rows.rows.lent().last_mut() {
                row.used = 0;
            }
        }
        (13, Answer::Stats(_)) if said == Some(0) => {
            let after = GUARDS + lending.rows.rows.lent().len();
            lending.rows.rows.words[after].free = 0;
        }
        _ => {}
    }
}

/// As `plant`, in both answers.
pub fn plant_both(number: usize, by_model: &mut Answer, state: &mut State, by_port: &mut Answer, lending: &mut Lending) {
    match (number, &mut *by_model, &mut *by_port) {
        (14, Answer::Drain(Said::Is(m @ 1)), Answer::Drain(Said::Is(p @ 1))) => (*m, *p) = (0, 0),
        (15, Answer::Put(Said::Is(8)), Answer::Put(_)) => {
            state.trees[0] ^= 1 << 31;
            lending.trees.lent()[0] ^= 1 << 31;
        }
        _ => {}
    }
}
