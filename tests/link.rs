//! E1 to E12 of document 01 through the Rust binding, and the statistics. Prints `ok NAME` or `FAILED NAME` for each.
use llfree::{Frames, Got, Header, Pair, Refusal, Request, Table, Tally, Totals};

struct Lent {
    header: Header,
    table: Table,
    trees: Vec<u32>,
    locals: Vec<u64>,
    bits: Vec<u64>,
}

impl Lent {
    /// Table T, with so many frames, locals each and default, and dirty buffers.
    fn new(frames: u64, each: u8, default: u64) -> Self {
        let rated = Pair::Match { cut: 0, low: 0, high: 255 };
        let header = Header::new(frames, default, [Some(each), Some(each), None, None, None, None, None, None]);
        Self {
            header,
            table: Table::new().with(0, 0, rated).with(1, 1, rated).with(0, 1, Pair::Demote).with(1, 0, Pair::Steal),
            trees: vec![0xa5a5_a5a5; header.trees()],
            locals: vec![0xa5a5_a5a5_a5a5_a5a5; header.locals()],
            bits: vec![0xa5a5_a5a5_a5a5_a5a5; header.words()],
        }
    }
    /// The same, started all free.
    fn started(frames: u64, each: u8) -> Self {
        let mut s = Self::new(frames, each, 1);
        s.frames().start(true).expect("start");
        s
    }
    fn frames(&mut self) -> Frames<'_> {
        Frames { header: self.header, table: &self.table, trees: &mut self.trees, locals: &mut self.locals, bits: &mut self.bits }
    }
    fn get(&mut self, frame: Option<u64>, order: u64, class: u64, local: Option<u64>) -> Got {
        self.frames().get(frame, Request { order, class, local })
    }
    /// Statistics with so many rows, and the rows as they are left. Before, each field holds a number of its own, which no
    /// statistics give.
    fn statistics(&mut self, lent: usize) -> (Result<Totals, Refusal>, Vec<Tally>) {
        let mut rows = marked(lent);
        (self.frames().statistics(&mut rows), rows)
    }
    /// The state of E7: after E1, local free 0, entry 7's free `free`, of tree 7 only the last `free` frames clear.
    fn seventh(free: u32) -> Self {
        let mut s = Self::started(16384, 2);
        s.get(None, 0, 0, Some(0));
        s.locals[0] = 0x8000_0000_0000_00E0;
        s.trees[7] = 0x1000_0000 + free;
        s.bits[224..].fill(!0);
        s.bits[255] = !0 >> free;
        s
    }
}

fn done(frame: u64, class: u64, looks: u64, tries: u64) -> Got {
    Got { answer: Ok((frame, class)), looks, tries }
}

/// So many rows, each field with a number of its own.
fn marked(count: usize) -> Vec<Tally> {
    let own = |i| 0xa5a5_a5a5_0000_0000 + 3 * i as u64;
    (0..count).map(|i| Tally { free: own(i), alloc: own(i) + 1, used: own(i) + 2 }).collect()
}

/// Refused statistics, with so many rows that are as they were.
fn unwritten(refusal: Refusal, lent: usize) -> (Result<Totals, Refusal>, Vec<Tally>) {
    (Err(refusal), marked(lent))
}

/// Statistics that are Done: these sums, these rows for classes 0 and 1, zeros for the others.
fn tallied(free: u64, trees: u64, zero: Tally, one: Tally) -> (Result<Totals, Refusal>, Vec<Tally>) {
    let mut rows = vec![Tally::default(); 8];
    (rows[0], rows[1]) = (zero, one);
    (Ok(Totals { free, trees }), rows)
}

fn early(refusal: Refusal) -> Got {
    Got { answer: Err(refusal), looks: 0, tries: 0 }
}

fn main() {
    let mut bad = 0;
    let mut check = |name: &str, right: bool| {
        println!("{} rust {name}", if right { "ok" } else { "FAILED" });
        bad |= !right as i32;
    };
    let mut s = Lent::started(16384, 2);
    let right = s.get(None, 0, 0, Some(0)) == done(14336, 0, 3, 1);
    check("E1", right && s.trees[7] == 0x1000_0000 && s.locals[0] == 0x807F_F000_0000_00E0);
    check("E2", s.get(None, 0, 0, Some(0)) == done(14337, 0, 0, 1));
    check("E3", Lent::started(16384, 2).get(None, 9, 1, Some(1)) == done(0, 1, 1, 1));
    let mut s = Lent::started(16384, 2);
    check("E4", s.get(None, 9, 0, None) == done(0, 0, 8, 1) && s.trees[0] == 0x600);
    check("E5", s.get(None, 0, 1, None) == done(14336, 1, 2, 1));
    let mut s = Lent::started(16384, 2);
    s.get(None, 0, 0, Some(0));
    check("E6", s.get(Some(0), 0, 0, Some(0)) == done(0, 0, 0, 1) && s.locals[0] == 0x807F_F000_0000_00E0);
    check("E7", matches!(Lent::seventh(1).get(None, 0, 0, Some(0)).answer, Ok((2048, _))));
    let mut s = Lent::seventh(2);
    let right = matches!(s.get(None, 0, 0, Some(0)).answer, Ok((16382, _)));
    check("E7 with two", right && s.locals[0] == 0x8000_1000_0000_00FF);
    let mut s = Lent::started(2048, 1);
    let mut right = true;
    for f in [0, 512, 1024, 1536] {
        right &= s.get(Some(f), 0, 1, None) == done(f, 1, 0, 1);
    }
    right &= s.trees[0] == 0x2000_07FC;
    check("E8", right && s.get(None, 9, 0, None).answer == Err(Refusal::Memory) && s.trees[0] == 0x7FC);
    let mut s = Lent::started(2048, 1);
    let right = s.get(None, 12, 0, None) == early(Refusal::Order);
    check("E9", right && s.get(None, 11, 0, None).answer.is_ok());
    let mut s = Lent::started(2049, 1);
    let right = s.get(Some(2049), 1, 0, None) == early(Refusal::Bounds);
    check("E10", right && s.get(Some(1), 1, 0, None) == early(Refusal::Misaligned));
    check("E11", s.get(Some(u64::MAX), 0, 0, None) == early(Refusal::Bounds));
    let mut s = Lent::new(16384, 2, 0);
    let right = s.frames().start(true) == Err(Refusal::Config);
    check("E12", right && s.trees[0] == 0xa5a5_a5a5 && s.locals[3] == 0xa5a5_a5a5_a5a5_a5a5);
    let mut s = Lent::started(16384, 2);
    s.get(None, 0, 0, Some(0));
    let q = Request { order: 0, class: 0, local: Some(0) };
    let mut right = s.frames().put(14337, q) == Err(Refusal::NotHeld);
    right &= s.frames().put(14336, Request { local: Some(2), ..q }) == Err(Refusal::Local);
    right &= s.frames().put(14336, q) == Ok(());
    check("put", right && s.locals[0] == 0x8080_0000_0000_00E0 && s.bits[224] == 0);
    let right = s.get(None, 0, 0, Some(0)).answer.is_ok();
    let (zero, one) = (Tally { free: 2047, alloc: 2048, used: 1 }, Tally { free: 14336, alloc: 0, used: 0 });
    check("statistics", right && s.statistics(8) == tallied(16383, 7, zero, one));
    let right = s.frames().put(14336, q) == Ok(());
    check("drain", right && s.frames().drain() == Ok(()) && s.locals[0] == 0 && s.trees[7] == 0x2000_0800);
    let one = Tally { free: 16384, alloc: 0, used: 0 };
    check("statistics of a drained store", s.statistics(8) == tallied(16384, 8, Tally::default(), one));
    check("no rows", s.statistics(0) == unwritten(Refusal::Rows, 0));
    check("seven rows", s.statistics(7) == unwritten(Refusal::Rows, 7));
    check("nine rows", s.statistics(9) == unwritten(Refusal::Rows, 9));
    s.trees.pop();
    check("statistics of a broken state", s.statistics(8) == unwritten(Refusal::Broken, 8));
    check("Broken before Rows", s.statistics(7) == unwritten(Refusal::Broken, 7));
    check("a length", s.frames().drain() == Err(Refusal::Broken));
    std::process::exit(bad);
}
