//! The exported calls by number of trees: state test, statistics, drain, start, get and put.

use crate::measure::Case;
use crate::port::Port;
use crate::report::{COLD, Cases, Kind};
use crate::side::{Ask, Call, Header, Side, Table, Words, table};

pub const TREES: [usize; 5] = [1, 8, 64, 200, 1024];

/// Two classes with two locals each, one each at one tree: fewer locals than trees, so that a get with a local reserves.
pub fn header(n: usize) -> Header {
    let place = if n > 2 { 3 } else { 2 };
    Header { frames: 2048 * n, default: 1, places: [place, place, 0, 0, 0, 0, 0, 0] }
}

/// The words of a start, all free or all held.
pub fn started(h: Header, table: Table, free: bool) -> Words {
    let mut p = Port::new(h, table);
    assert_eq!(p.start(free), 0);
    p.words()
}

/// The words after these calls, each of which has to be Done, and the frames that they answered.
pub fn after(h: Header, table: Table, words: &Words, calls: &[Call]) -> (Words, Vec<usize>) {
    let mut p = Port::new(h, table);
    p.set(words);
    let mut done = |&c: &Call| {
        let a = p.call(c);
        assert_eq!(a.number, 0, "{c:?}");
        a.frame
    };
    let frames = calls.iter().map(&mut done).collect();
    (p.words(), frames)
}

/// Every local holds a tree. One tree can have one holder, and no get reserves it.
pub fn reserved(n: usize) -> Words {
    let h = header(n);
    let locals = h.places[0] as usize - 1;
    let ask = |class, l| Call::Get(None, Ask { order: 0, class, local: Some(l) });
    let asks: Vec<Call> = (0..2).flat_map(|c| (0..locals).map(move |l| ask(c, l))).collect();
    let mut words = started(h, table(), true);
    if n > 2 {
        words = after(h, table(), &words, &asks).0;
        assert!(words.locals.iter().all(|w| w >> 63 == 1));
    } else {
        words.trees[0] = 1 << 28;
        words.locals[0] = 1 << 63 | 2048 << 44;
    }
    words
}

/// Calls with table T that are all Done, on words as setting them left them in the caches.
fn warm(h: Header, words: &Words, calls: Vec<Call>) -> Case {
    Case { h, table: table(), words: words.clone(), calls, want: 0, cold: false }
}

fn whole_state(to: &mut Cases, n: usize) {
    let (h, words) = (header(n), reserved(n));
    for (name, call) in [("state test", Call::Stands), ("statistics", Call::Statistics), ("drain", Call::Drain)] {
        to.add(Kind::Call, name, n, warm(h, &words, vec![call]));
    }
    let part = Header { frames: h.frames - 700, ..h };
    for (name, h, call) in [
        ("start, all free", h, Call::Start(true)),
        ("start, all free, last tree in part", part, Call::Start(true)),
        ("start, all held", h, Call::Start(false)),
        ("start, all free, against `LLFree::new`", h, Call::New(true)),
    ] {
        to.add(Kind::Call, name, n, warm(h, &words, vec![call]));
        to.add(Kind::Call, &format!("{name}{COLD}"), n, Case { cold: true, ..warm(h, &words, vec![call]) });
    }
}

/// A batch of gets, and the puts that give the same frames back, on the words that such a round leaves.
fn gets_and_puts(to: &mut Cases, n: usize, named: bool, q: Ask) {
    let h = header(n);
    let batch = (h.frames >> q.order).min(16);
    let gets: Vec<Call> = (0..batch).map(|i| Call::Get(named.then_some(i << q.order), q)).collect();
    let puts = |frames: &[usize]| -> Vec<Call> { frames.iter().map(|&f| Call::Put(f, q)).collect() };
    let (words, frames) = after(h, table(), &started(h, table(), true), &gets);
    let (free, _) = after(h, table(), &words, &puts(&frames));
    let (held, frames) = after(h, table(), &free, &gets);
    let name = format!("order {}, {}, {}", q.order, if named { "named" } else { "unnamed" }, if q.local.is_some() { "local" } else { "no local" });
    to.add(Kind::Call, &format!("get, {name}"), n, warm(h, &free, gets));
    to.add(Kind::Call, &format!("put, {name}"), n, warm(h, &held, puts(&frames)));
}

pub fn cases(to: &mut Cases) {
    for n in TREES {
        whole_state(to, n);
        for named in [false, true] {
            for local in [None, Some(0)] {
                for order in [0, 3, 9] {
                    gets_and_puts(to, n, named, Ask { order, class: 0, local });
                }
            }
        }
    }
}
