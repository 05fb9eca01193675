//! The oracle's own tests beside the Rust: what a start accepts, and which states are in its domain.

use crate::engine::Ask;
use crate::state::{Pair, State};

fn configured(s: &State) -> impl Iterator<Item = usize> + '_ {
    (0..8).filter(|&c| s.classes[c].is_some())
}

fn good(s: &State, o: usize, e: usize) -> bool {
    matches!(s.table[o][e].kind, 2 | 3)
}

/// Header and table as a start accepts them, and lengths exact.
pub fn accepted(s: &State) -> bool {
    let (t, l, b) = s.lent();
    let locals: usize = configured(s).map(|c| s.classes[c].unwrap() as usize).sum();
    let d = s.default as usize;
    if s.frames == 0 || s.frames > 2_097_152 || d > 7 || s.classes[d].is_none() {
        return false;
    }
    let n = s.frames.div_ceil(2048) as usize;
    if configured(s).any(|c| s.classes[c].unwrap() > 32) || (t, l, b) != (n, locals, 32 * n) {
        return false;
    }
    for o in 0..8 {
        for e in 0..8 {
            let p = s.table[o][e];
            let both = s.classes[o].is_some() && s.classes[e].is_some();
            let zeros = Pair { kind: p.kind, ..Pair::default() };
            match p.kind {
                3 if both && p.cut <= 2048 => {}
                1 | 2 if both && p == zeros => {}
                0 if p == zeros => {}
                _ => return false,
            }
        }
    }
    let rule1 = configured(s).all(|c| good(s, c, c));
    let rule2 = configured(s).all(|o| {
        configured(s).all(|e| !(good(s, o, e) && s.table[e][d].kind != 0) || good(s, o, d))
    });
    let rule3 = configured(s).all(|c| {
        configured(s).all(|o| {
            configured(s).all(|e| !(good(s, o, e) && s.table[c][o].kind == 2) || good(s, c, e))
        })
    });
    rule1 && rule2 && rule3
}

/// The standing rules.
pub fn sound(s: &State) -> bool {
    if !accepted(s) {
        return false;
    }
    let n = s.tree_words().len();
    // Holder's class and free, by tree.
    let mut holder = vec![None; n];
    let mut at = 0;
    for c in configured(s) {
        for _ in 0..s.classes[c].unwrap() {
            let w = s.locals[at];
            at += 1;
            if w >> 63 == 0 {
                if w != 0 {
                    return false;
                }
                continue;
            }
            let tree = (w & 0xfff_ffff_ffff) / 32;
            if tree >= n as u64 || holder[tree as usize].is_some() {
                return false;
            }
            holder[tree as usize] = Some((c, w << 1 >> 45));
        }
    }
    for (i, &w) in s.tree_words().iter().enumerate() {
        let (free, reserved, class) = ((w & 0xfff_ffff) as u64, w >> 28 & 1 == 1, (w >> 29) as usize);
        if free > 2048 || s.classes[class].is_none() || reserved != holder[i].is_some() {
            return false;
        }
        let mut claimed = free;
        if let Some((c, held)) = holder[i] {
            if !good(s, c, class) {
                return false;
            }
            claimed += held;
        }
        let words = &s.bitmap[32 * i..32 * i + 32];
        if claimed != words.iter().map(|w| w.count_zeros() as u64).sum::<u64>() {
            return false;
        }
    }
    (s.frames as usize..2048 * n).all(|f| s.bitmap[f / 64] >> (f % 64) & 1 == 1)
}

/// The number that document 01 gives an Argument, by its order of tests.
pub fn argument(s: &State, ask: &Ask) -> Option<u8> {
    let frame = ask.frame.unwrap_or(0);
    if ask.order > 11 {
        Some(2)
    } else if frame as u128 + (1 << ask.order) > s.frames as u128 {
        Some(3)
    } else if frame % (1 << ask.order) != 0 {
        Some(4)
    } else if ask.class > 7 || s.classes[ask.class as usize].is_none() {
        Some(5)
    } else {
        None
    }
}
