//! The worst cases: memory full but for one frame, and 256 locals.

use crate::calls::{after, header, started};
use crate::measure::Case;
use crate::report::{Cases, Kind};
use crate::side::{Ask, Call, Header, Words, table, table_of_eight};

/// All held but the last frame of the tree that a walk from tree 0 comes to last.
pub fn one_frame(n: usize) -> (Header, Words) {
    let h = header(n);
    let frame = 2048 * (n / 2) + 2047;
    let words = after(h, table(), &started(h, table(), false), &[Call::Put(frame, Ask { order: 0, class: 1, local: None })]).0;
    (h, words)
}

fn full(to: &mut Cases, n: usize) {
    let (h, words) = one_frame(n);
    for (order, want, ends) in [(0, 0, "Done"), (3, 7, "Memory")] {
        // Class 1 matches the tree's class, class 0 demotes it, and so tries it from the list.
        for class in [1, 0] {
            for local in [None, Some(0)] {
                let name = format!("one frame free: get, order {order}, class {class}, {}, ends in {ends}", if local.is_some() { "local" } else { "no local" });
                let get = Call::Get(None, Ask { order, class, local });
                to.add(Kind::Worst, &name, n, Case { h, table: table(), words: words.clone(), calls: vec![get], want, cold: false });
            }
        }
    }
}

/// Eight classes with 32 locals each, of which so many as there are trees, 256 at most, hold a tree of their own class.
/// `free` is what each tree and each local has.
pub fn many_locals(n: usize, free: usize) -> (Header, Words) {
    let h = Header { frames: 2048 * n, default: 7, places: [33; 8] };
    let mut words = started(h, table_of_eight(), free > 0);
    let present = n.min(256);
    for i in 0..present {
        // Every class has holders: the local i % 8 * 32 + i / 8 of all.
        let (tree, class, local) = (i * n / present, i % 8, i % 8 * 32 + i / 8);
        words.trees[tree] = 1 << 28 | (class as u32) << 29;
        words.locals[local] = 1 << 63 | (free as u64) << 44 | 32 * tree as u64;
    }
    (h, words)
}

fn locals(to: &mut Cases, n: usize) {
    let (h, words) = many_locals(n, 2048);
    let ask = |class, local| Ask { order: 0, class, local };
    // Tree 0 is held by the first local of class 0: a named get of class 1 steals from it.
    let (own, any, other) = (Call::Get(None, ask(0, Some(0))), Call::Get(None, ask(0, None)), Call::Get(Some(0), ask(1, Some(31))));
    let (held, frames) = after(h, table_of_eight(), &words, &[own]);
    let (_, none_free) = many_locals(n, 0);
    for (name, words, call, want) in [
        ("state test", &words, Call::Stands, 0),
        ("statistics", &words, Call::Statistics, 0),
        ("drain", &words, Call::Drain, 0),
        ("get, order 0, unnamed, local", &words, own, 0),
        ("get, order 0, unnamed, no local", &words, any, 0),
        ("get, order 0, named, of another class's local", &words, other, 0),
        ("put, order 0, local", &held, Call::Put(frames[0], ask(0, Some(0))), 0),
        ("get, order 0, unnamed, local, ends in Memory", &none_free, own, 7),
        ("get, order 0, unnamed, no local, ends in Memory", &none_free, any, 7),
    ] {
        let case = Case { h, table: table_of_eight(), words: words.clone(), calls: vec![call], want, cold: false };
        to.add(Kind::Worst, &format!("256 locals: {name}"), n, case);
    }
}

pub fn cases(to: &mut Cases) {
    for n in [8, 64, 200, 1024] {
        full(to, n);
    }
    for n in [64, 200, 1024] {
        locals(to, n);
    }
}
