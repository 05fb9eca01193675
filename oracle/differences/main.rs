//! Where the repository's own code differs from document 01.
//!
//! Every row is the smallest input found, run on the repository's core files.
//! The values of document 01 are written down here, not computed; `claim` is
//! what the row says the repository does, and the row is shown exactly if
//! every run of it answered so. Rows D1 to D16 are section 1 of
//! docs/DIFFERENCES.md, rows R1 to R6 section 2;
//! L1 runs the lower at random against what D4 to D8 say of it.

use std::fmt::Display;
use std::panic::{AssertUnwindSafe, catch_unwind};
use std::sync::Mutex;

use llfree::util::SortedBuffer;
use llfree::{
    Alloc, Class, Classing, FrameId, Init, LLFree, MetaData, MetaSize, Policy, PolicyFn, Request,
    TreeId,
};

/// Stand-in for eval/src/gfp.rs, which classes.rs names; no run uses it.
mod gfp {
    #[derive(Clone, Debug, PartialEq, Eq)]
    pub struct GFP(pub u32);
    impl PartialEq<u32> for GFP {
        fn eq(&self, other: &u32) -> bool {
            self.0 & other != 0
        }
    }
}

/// The repository's eval/src/classes.rs as it is, with a maker for its
/// private fields after it.
#[allow(dead_code)]
mod classes {
    include!(concat!(env!("LLFREE_SRC"), "/eval/src/classes.rs"));

    /// One class, number 0, of count One.
    pub fn single() -> ClassingConfig {
        ClassingConfig {
            classes: vec![ClassConfig {
                id: 0,
                count: Count::One,
                order: None,
                gfp: GfpMatch::default(),
            }],
            default: 0,
            perfect: (0, 2048),
            good: (0, 2048),
        }
    }
}

const CORE: [(&str, &str); 8] = [
    (
        "atomic.rs",
        include_str!(concat!(env!("LLFREE_SRC"), "/core/src/atomic.rs")),
    ),
    (
        "bitfield.rs",
        include_str!(concat!(env!("LLFREE_SRC"), "/core/src/bitfield.rs")),
    ),
    (
        "lib.rs",
        include_str!(concat!(env!("LLFREE_SRC"), "/core/src/lib.rs")),
    ),
    (
        "llfree.rs",
        include_str!(concat!(env!("LLFREE_SRC"), "/core/src/llfree.rs")),
    ),
    (
        "local.rs",
        include_str!(concat!(env!("LLFREE_SRC"), "/core/src/local.rs")),
    ),
    (
        "lower.rs",
        include_str!(concat!(env!("LLFREE_SRC"), "/core/src/lower.rs")),
    ),
    (
        "trees.rs",
        include_str!(concat!(env!("LLFREE_SRC"), "/core/src/trees.rs")),
    ),
    (
        "util.rs",
        include_str!(concat!(env!("LLFREE_SRC"), "/core/src/util.rs")),
    ),
];

// --- calls ---

static PANIC: Mutex<String> = Mutex::new(String::new());

/// Runs `f`; a panic becomes its message and place.
fn call(f: impl FnOnce() -> String) -> String {
    catch_unwind(AssertUnwindSafe(f)).unwrap_or_else(|_| PANIC.lock().unwrap().clone())
}

fn hook(info: &std::panic::PanicHookInfo) {
    let text = info.payload_as_str().unwrap_or("?").to_string();
    let place = info.location().map_or("?".into(), |l| {
        let file = l.file().rsplit('/').next().unwrap_or("?");
        format!("{file}:{}", l.line())
    });
    *PANIC.lock().unwrap() = format!("panic \"{text}\" at {place}");
}

fn buffer(len: usize, fill: u8) -> &'static mut [u8] {
    use std::alloc::{Layout, alloc};
    let layout = Layout::from_size_align(len.max(64), 64).unwrap();
    unsafe {
        let p = alloc(layout);
        p.write_bytes(fill, layout.size());
        std::slice::from_raw_parts_mut(p, len)
    }
}

fn buffers(m: &MetaSize, fill: u8) -> MetaData<'static> {
    MetaData {
        local: buffer(m.local, fill),
        trees: buffer(m.trees, fill),
        lower: buffer(m.lower, fill),
    }
}

fn classing(classes: &[(u8, usize)], default: u8, policy: PolicyFn) -> Classing {
    let list: Vec<_> = classes.iter().map(|&(c, n)| (Class(c), n)).collect();
    Classing::new(&list, Class(default), policy)
}

/// An allocator of the repository, with its words in reach.
struct Rig(LLFree<'static>);

impl Rig {
    fn start(frames: usize, init: Init, c: &Classing, fill: u8) -> Self {
        let m = LLFree::metadata_size(c, frames);
        Self(LLFree::new(frames, init, c, buffers(&m, fill)).unwrap())
    }
    fn free(frames: usize, c: &Classing) -> Self {
        Self::start(frames, Init::FreeAll, c, 0)
    }
    fn get(&self, frame: Option<usize>, order: usize, class: u8, local: Option<usize>) -> String {
        call(|| {
            match self
                .0
                .get(frame.map(FrameId), Request::new(order, Class(class), local))
            {
                Ok((f, c)) => format!("frame {} class {}", f.0, c.0),
                Err(e) => format!("{e:?}"),
            }
        })
    }
    fn put(&self, frame: usize, order: usize, class: u8, local: Option<usize>) -> String {
        call(|| {
            match self
                .0
                .put(FrameId(frame), Request::new(order, Class(class), local))
            {
                Ok(()) => "Done".into(),
                Err(e) => format!("{e:?}"),
            }
        })
    }
    fn drain(&self) -> String {
        call(|| {
            self.0.drain();
            "Done".into()
        })
    }
    /// The lower's get alone.
    fn lower(&self, row: usize, order: usize, frame: Option<usize>) -> String {
        let mut start = TreeId(0).as_row();
        start.0 = row;
        match self.0.lower.get(start, order, frame.map(FrameId)) {
            Ok(f) => format!("{}", f.0),
            Err(e) => format!("{e:?}"),
        }
    }
    fn entry_at(&mut self, i: usize) -> &mut [u8] {
        &mut unsafe { self.0.metadata() }.trees[4 * i..4 * i + 4]
    }
    fn local_at(&mut self, i: usize) -> &mut [u8] {
        &mut unsafe { self.0.metadata() }.local[64 * i..64 * i + 8]
    }
    fn entry(&mut self, i: usize) -> String {
        format!(
            "{:#x}",
            u32::from_ne_bytes(self.entry_at(i).try_into().unwrap())
        )
    }
    fn local(&mut self, i: usize) -> String {
        format!(
            "{:#x}",
            u64::from_ne_bytes(self.local_at(i).try_into().unwrap())
        )
    }
    fn set_entry(&mut self, i: usize, word: u32) {
        self.entry_at(i).copy_from_slice(&word.to_ne_bytes());
    }
    fn set_local(&mut self, i: usize, word: u64) {
        self.local_at(i).copy_from_slice(&word.to_ne_bytes());
    }
    /// Bitmap word w: frames 64w to 64w + 63.
    fn word(&mut self, w: usize) -> String {
        let lower = unsafe { self.0.metadata() }.lower;
        format!(
            "{:#x}",
            u64::from_ne_bytes(lower[8 * w..8 * w + 8].try_into().unwrap())
        )
    }
    /// Table entry of huge block h, behind the bitmap of `blocks` blocks.
    fn huge(&mut self, blocks: usize, h: usize) -> String {
        let lower = unsafe { self.0.metadata() }.lower;
        let at = 64 * blocks + 64 * (h / 4) + 2 * (h % 4);
        format!(
            "{:#x}",
            u16::from_ne_bytes(lower[at..at + 2].try_into().unwrap())
        )
    }
}

// --- policies ---

use Policy::{Demote, Invalid, Match, Steal};

/// Table T of document 01.
fn t(r: Class, t: Class, _: usize) -> Policy {
    match (r.0, t.0) {
        (0, 0) | (1, 1) => Match(255),
        (0, 1) => Demote,
        (1, 0) => Steal,
        _ => Invalid,
    }
}
/// T with the rating 1 in place of 255.
fn t_low(r: Class, c: Class, f: usize) -> Policy {
    match t(r, c, f) {
        Match(_) => Match(1),
        p => p,
    }
}
/// T and (0, 1) Match in place of Demote.
fn t_match(r: Class, c: Class, f: usize) -> Policy {
    if (r.0, c.0) == (0, 1) {
        Match(255)
    } else {
        t(r, c, f)
    }
}
/// The kind of (0, 0) hangs on the free argument.
fn by_free(_: Class, _: Class, free: usize) -> Policy {
    if free >= 2 { Match(255) } else { Invalid }
}
/// Row D13: class 1 has no locals.
fn no_locals(r: Class, t: Class, _: usize) -> Policy {
    match (r.0, t.0) {
        (0, 0) | (1, 1) => Match(255),
        (1, 0) => Demote,
        (0, 1) => Steal,
        _ => Invalid,
    }
}
/// Breaks the first rule of acceptance alone: (1, 1) is Invalid.
fn bad1(_: Class, t: Class, _: usize) -> Policy {
    if t.0 == 0 { Match(255) } else { Invalid }
}
/// Breaks the second alone: (2, 2) is good, (2, 1) is Steal, the default is 1.
fn bad2(r: Class, c: Class, f: usize) -> Policy {
    match (r.0, c.0) {
        (2, 2) | (2, 0) => Match(255),
        (2, 1) => Steal,
        _ => t(r, c, f),
    }
}
/// Breaks the third alone: (1, 0) is good, (2, 1) Demote, (2, 0) Invalid.
fn bad3(r: Class, t: Class, _: usize) -> Policy {
    match (r.0, t.0) {
        (0, 0) | (1, 1) | (2, 2) | (0, 2) | (1, 2) => Match(255),
        (1, 0) | (2, 1) => Demote,
        _ => Invalid,
    }
}

/// 01's three rules of acceptance, each kept or broken, over classes 0 to n - 1.
fn rules(n: u8, default: u8, policy: PolicyFn) -> String {
    let kind = |r: u8, t: u8| policy(Class(r), Class(t), 0);
    let good = |r: u8, t: u8| matches!(kind(r, t), Match(_) | Demote);
    let mut kept = [true; 3];
    for o in 0..n {
        kept[0] &= good(o, o);
        for e in (0..n).filter(|e| good(o, *e)) {
            kept[1] &= kind(e, default) == Invalid || good(o, default);
            for c in (0..n).filter(|c| kind(*c, o) == Demote) {
                kept[2] &= good(c, e);
            }
        }
    }
    let broken: Vec<_> = (1..4)
        .filter(|i| !kept[i - 1])
        .map(|i| i.to_string())
        .collect();
    format!("broken: {}", broken.join(","))
}

// --- rows ---

struct Row {
    name: &'static str,
    parts: Vec<String>,
    shown: bool,
}

impl Row {
    fn new(name: &'static str) -> Self {
        Self {
            name,
            parts: Vec::new(),
            shown: true,
        }
    }
    /// The repository is to answer `claim`, and 01 says otherwise.
    fn differs(&mut self, what: &str, seen: impl Display, claim: &str, paper: &str) {
        let seen = seen.to_string();
        let mut text = format!("{what}: repository {seen}, 01 {paper}");
        if seen != claim || claim == paper {
            self.shown = false;
            text += &format!(" (expected of the repository: {claim})");
        }
        self.parts.push(text);
    }
    /// The repository is to answer what 01 says.
    fn agrees(&mut self, what: &str, seen: impl Display, paper: &str) {
        let seen = seen.to_string();
        let mut text = format!("{what}: both {seen}");
        if seen != paper {
            self.shown = false;
            text = format!("{what}: repository {seen}, 01 {paper} (expected to agree)");
        }
        self.parts.push(text);
    }
    /// A step that must go as said for the row to mean anything.
    fn step(&mut self, what: &str, seen: impl Display, want: &str) {
        let seen = seen.to_string();
        if seen != want {
            self.shown = false;
            self.parts
                .push(format!("step {what}: {seen} (wanted {want})"));
        }
    }
    fn print(&self) -> bool {
        let mark = if self.shown { "shown" } else { "NOT shown" };
        println!("{} {mark}: {}", self.name, self.parts.join("; "));
        self.shown
    }
}

fn two(n: usize) -> Classing {
    classing(&[(0, n), (1, n)], 1, t)
}

fn d1() -> Row {
    let mut r = Row::new("D1");
    let sorted = |mut v: Vec<Policy>| {
        v.sort();
        v.iter()
            .map(|p| format!("{p:?}"))
            .collect::<Vec<_>>()
            .join(" < ")
    };
    r.differs(
        "order of Policy",
        sorted(vec![Steal, Match(254), Invalid, Demote, Match(0)]),
        "Match(0) < Match(254) < Demote < Steal < Invalid",
        "Steal < Demote < Match(0) < Match(254)",
    );
    let a = Rig::free(4096, &classing(&[(0, 1), (1, 1)], 1, t_low));
    r.step(
        "first get",
        a.get(Some(2048), 0, 0, None),
        "frame 2048 class 0",
    );
    r.differs(
        "F 4096, T rated 1: get frame 2048 class 0, then get order 0 class 1",
        a.get(None, 0, 1, None),
        "frame 2049 class 0",
        "frame 0 class 1",
    );
    r
}

fn sorted<const N: usize>(adds: &[u32]) -> String {
    let mut b = SortedBuffer::<N, u32>::new();
    adds.iter().for_each(|v| b.add(*v));
    let list: Vec<_> = b.iter().rev().map(|v| v.to_string()).collect();
    list.join(",")
}

fn d2() -> Row {
    let mut r = Row::new("D2");
    r.differs(
        "N 3, adds 5,3, best first",
        sorted::<3>(&[5, 3]),
        "3",
        "5,3",
    );
    r.differs(
        "N 3, adds 4,3,2,1",
        sorted::<3>(&[4, 3, 2, 1]),
        "1",
        "4,3,2",
    );
    r.differs(
        "N 3, adds 1,2,3,4",
        sorted::<3>(&[1, 2, 3, 4]),
        "3,2,1",
        "4,3,2",
    );
    r.agrees("N 3, adds 1,2,3", sorted::<3>(&[1, 2, 3]), "3,2,1");
    r
}

/// E7's state; `clear` frames at the end of tree 7 are free.
fn e7(clear: usize) -> Rig {
    let mut a = Rig::free(16384, &two(2));
    let mut frame = 14336;
    for order in (if clear == 1 { 0 } else { 1 }..=10).rev() {
        a.lower(0, order, Some(frame));
        frame += 1 << order;
    }
    a.set_entry(7, 0x1000_0000 + clear as u32);
    a.set_local(0, 0x8000_0000_0000_00e0);
    a
}

fn d3() -> Row {
    let mut r = Row::new("D3");
    let mut a = Rig::free(16384, &two(2));
    r.differs(
        "E1",
        a.get(None, 0, 0, Some(0)),
        "frame 12288 class 0",
        "frame 14336 class 0",
    );
    r.differs("E1 entry 6", a.entry(6), "0x10000000", "0x20000800");
    r.differs("E1 entry 7", a.entry(7), "0x20000800", "0x10000000");
    r.differs(
        "E1 local",
        a.local(0),
        "0x807ff000000000c0",
        "0x807ff000000000e0",
    );
    r.agrees("E6", a.get(Some(0), 0, 0, Some(0)), "frame 0 class 0");
    r.step("E6 leaves the local", a.local(0), "0x807ff000000000c0");
    let a = Rig::free(16384, &two(2));
    a.get(None, 0, 0, Some(0));
    r.differs(
        "E2",
        a.get(None, 0, 0, Some(0)),
        "frame 12289 class 0",
        "frame 14337 class 0",
    );
    let a = Rig::free(16384, &two(2));
    r.agrees("E3", a.get(None, 9, 1, Some(1)), "frame 0 class 1");
    let mut a = Rig::free(16384, &two(2));
    r.differs(
        "E4",
        a.get(None, 9, 0, None),
        "frame 8192 class 0",
        "frame 0 class 0",
    );
    r.differs("E4 entry 0", a.entry(0), "0x20000800", "0x600");
    r.differs(
        "E5",
        a.get(None, 0, 1, None),
        "frame 0 class 1",
        "frame 14336 class 1",
    );
    r.differs(
        "E7, 1",
        e7(1).get(None, 0, 0, Some(0)),
        "frame 12288 class 0",
        "frame 2048 class 0",
    );
    let mut a = e7(2);
    r.agrees("E7, 2", a.get(None, 0, 0, Some(0)), "frame 16382 class 0");
    r.agrees("E7, 2 local", a.local(0), "0x80001000000000ff");
    let mut a = Rig::free(2048, &two(1));
    for f in [0, 512, 1024, 1536] {
        r.step(
            "E8",
            a.get(Some(f), 0, 1, None),
            &format!("frame {f} class 1"),
        );
    }
    r.step("E8 entry before", a.entry(0), "0x200007fc");
    r.agrees("E8", a.get(None, 9, 0, None), "Memory");
    r.agrees("E8 entry after", a.entry(0), "0x7fc");
    r
}

fn d4() -> Row {
    let mut r = Row::new("D4");
    let a = Rig::free(2048, &two(1));
    r.step("hold 512..1023", a.lower(0, 9, Some(512)), "512");
    r.differs(
        "lower, 512..1023 held, order 0, row 9",
        a.lower(9, 0, None),
        "1088",
        "1024",
    );
    let a = Rig::free(2048, &two(1));
    for row in 9..16 {
        r.step(
            "hold a row",
            a.lower(0, 6, Some(64 * row)),
            &(64 * row).to_string(),
        );
    }
    r.differs(
        "lower, rows 9..15 held, order 0, row 9",
        a.lower(9, 0, None),
        "512",
        "1024",
    );
    r
}

fn d5() -> Row {
    let mut r = Row::new("D5");
    let a = Rig::free(2048, &two(1));
    r.differs(
        "lower, all free, order 7, row 10",
        a.lower(10, 7, None),
        "512",
        "640",
    );
    let a = Rig::free(2048, &two(1));
    r.differs("order 8, row 12", a.lower(12, 8, None), "512", "768");
    let a = Rig::free(2048, &two(1));
    r.agrees("order 6, row 10", a.lower(10, 6, None), "640");
    r
}

fn d6() -> Row {
    let mut r = Row::new("D6");
    for order in 9..=11 {
        let mut a = Rig::free(2048, &two(1));
        r.step("get", a.get(Some(0), order, 1, None), "frame 0 class 1");
        r.differs(
            &format!("F 2048, frame 0 held at order {order}, bitmap word 0"),
            a.word(0),
            "0x0",
            "0xffffffffffffffff",
        );
        r.step("table entry 0", a.huge(4, 0), "0xffff");
    }
    r.parts.push("the table entry of block 0 is 0xffff".into());
    let mut a = Rig::free(2048, &two(1));
    a.get(Some(0), 8, 1, None);
    r.agrees("order 8", a.word(0), "0xffffffffffffffff");
    r
}

fn d7() -> Row {
    let mut r = Row::new("D7");
    let a = Rig::free(2048, &two(1));
    a.get(Some(0), 8, 1, None);
    a.get(Some(256), 8, 1, None);
    r.differs(
        "get 0 and 256 at order 8, put 0 at order 9",
        a.put(0, 9, 1, None),
        "Memory",
        "Done",
    );
    let a = Rig::free(2048, &two(1));
    for f in 0..512 {
        a.get(Some(f), 0, 1, None);
    }
    r.differs(
        "get 0..511 at order 0, put 0 at order 9",
        a.put(0, 9, 1, None),
        "Memory",
        "Done",
    );
    let a = Rig::free(2048, &two(1));
    a.get(Some(0), 9, 1, None);
    a.get(Some(512), 8, 1, None);
    a.get(Some(768), 8, 1, None);
    r.differs(
        "orders 9, 8, 8 got, put 0 at order 10",
        a.put(0, 10, 1, None),
        "Memory",
        "Done",
    );
    let a = Rig::free(2048, &two(1));
    a.get(Some(0), 9, 1, None);
    a.put(0, 0, 1, None);
    a.get(Some(0), 0, 1, None);
    r.differs(
        "get 0 at order 9, put 0 and get it again at order 0, put 0 at order 9",
        a.put(0, 9, 1, None),
        "Memory",
        "Done",
    );
    let a = Rig::free(2048, &two(1));
    a.get(Some(0), 9, 1, None);
    a.get(Some(512), 9, 1, None);
    r.agrees(
        "orders 9, 9 got, put 0 at order 10",
        a.put(0, 10, 1, None),
        "Done",
    );
    r
}

fn d8() -> Row {
    let mut r = Row::new("D8");
    let ones = "0xffffffffffffffff";
    let mut a = Rig::start(600, Init::AllocAll, &two(1), 0);
    r.differs("F 600 all held, word 0", a.word(0), "0x0", ones);
    r.agrees("word 8", a.word(8), ones);
    r.step("table entry 0", a.huge(2, 0), "0xffff");
    r.step("table entry 1", a.huge(2, 1), "0x0");
    let mut a = Rig::start(2048, Init::AllocAll, &two(1), 0);
    r.agrees(
        "F 2048 all held, put 0 at order 0",
        a.put(0, 0, 1, None),
        "Done",
    );
    r.agrees("then word 0", a.word(0), "0xfffffffffffffffe");
    r.agrees("word 1", a.word(1), ones);
    r.differs("word 8", a.word(8), "0x0", ones);
    r.agrees("entry", a.entry(0), "0x20000001");
    r
}

fn d9() -> Row {
    let mut r = Row::new("D9");
    let mut a = Rig::start(16384, Init::FreeAll, &two(2), 0xa5);
    r.differs(
        "E1's start on bytes 0xa5, local 0",
        a.local(0),
        "0xa5a5a5a5a5a5a5a5",
        "0x0",
    );
    r.differs(
        "E1's get",
        a.get(None, 0, 0, Some(0)),
        "panic \"index out of bounds: the len is 8 but the index is 194031463725\" at lower.rs:149",
        "frame 14336 class 0",
    );
    r
}

fn size(frames: usize, c: &Classing) -> String {
    let m = LLFree::metadata_size(c, frames);
    format!("{} + {} + {}", m.trees, m.local, m.lower)
}

fn start_with(frames: usize, c: &Classing, m: &MetaSize) -> String {
    call(
        || match LLFree::new(frames, Init::FreeAll, c, buffers(m, 0)) {
            Ok(_) => "Done".into(),
            Err(e) => format!("{e:?}"),
        },
    )
}

fn d10() -> Row {
    let mut r = Row::new("D10");
    r.differs(
        "bytes of trees + locals + lower, F 16384, 2 + 2 locals",
        size(16384, &two(2)),
        "256 + 256 + 2560",
        "32 + 32 + 2048",
    );
    r.differs(
        "F 1, 1 + 1 locals",
        size(1, &two(1)),
        "256 + 128 + 128",
        "4 + 16 + 256",
    );
    let m = |trees, local, lower| MetaSize {
        local,
        trees,
        lower,
    };
    r.differs(
        "F 1, one byte more each",
        start_with(1, &two(1), &m(257, 129, 129)),
        "Done",
        "Config",
    );
    for short in [m(255, 128, 128), m(256, 127, 128), m(256, 128, 127)] {
        r.step(
            "one byte less",
            start_with(1, &two(1), &short),
            "Initialization",
        );
    }
    r.parts
        .push("one byte less in any of the three: repository Initialization, 01 Config".into());
    r
}

fn d11() -> Row {
    let mut r = Row::new("D11");
    let a = Rig::free(2, &classing(&[(0, 1)], 0, by_free));
    r.differs(
        "F 2 all free, (0,0) Match from free 2 on, else Invalid: get order 0",
        a.get(None, 0, 0, None),
        "Memory",
        "frame 0 class 0 with any accepted table",
    );
    let c = classing(&[(0, 2), (1, 2)], 0, t);
    let m = LLFree::metadata_size(&c, 16384);
    r.differs("E12", start_with(16384, &c, &m), "Done", "Config");
    r
}

fn d12() -> Row {
    let mut r = Row::new("D12");
    let a = Rig::free(2049, &two(1));
    r.differs(
        "F 2049, T: order 12",
        a.get(None, 12, 0, None),
        "Argument",
        "Order",
    );
    r.differs(
        "frame 2049 order 1",
        a.get(Some(2049), 1, 0, None),
        "Argument",
        "Bounds",
    );
    r.differs(
        "frame 1 order 1",
        a.get(Some(1), 1, 0, None),
        "Argument",
        "Misaligned",
    );
    r.differs("class 2", a.get(None, 0, 2, None), "Argument", "Class");
    r.differs(
        "put of free frame 0",
        a.put(0, 0, 0, None),
        "Memory",
        "NotHeld",
    );
    a.get(Some(0), 0, 0, None);
    r.agrees("get of held frame 0", a.get(Some(0), 0, 0, None), "Memory");
    let a = Rig::free(2048, &two(1));
    r.agrees(
        "E9, order 11 at F 2048",
        a.get(None, 11, 0, None),
        "frame 0 class 0",
    );
    let a = Rig::free(16384, &two(2));
    r.differs(
        "E11",
        a.get(Some(usize::MAX), 0, 0, None),
        "panic \"index out of bounds: the len is 8 but the index is 9007199254740991\" at trees.rs:159",
        "Bounds",
    );
    r
}

fn d13() -> Row {
    let mut r = Row::new("D13");
    let panic = "panic \"No locals for class C1\" at llfree.rs:337";
    let mut a = Rig::free(2049, &classing(&[(0, 1), (1, 0)], 0, no_locals));
    r.step("first get", a.get(Some(0), 0, 1, None), "frame 0 class 1");
    r.step(
        "second get",
        a.get(Some(2048), 0, 0, None),
        "frame 2048 class 0",
    );
    r.step("entry 0 before", a.entry(0), "0x200007ff");
    r.differs(
        "F 2049, default 0, locals 1 and 0, (1,0) Demote, (0,1) Steal: get frame 0 class 1, frame 2048 class 0, then order 0 class 0 local 0",
        a.get(None, 0, 0, Some(0)),
        panic,
        "frame 1 class 1",
    );
    r.agrees("entry 0 after", a.entry(0), "0x200007fe");
    r.differs("bitmap word 0 after", a.word(0), "0x1", "0x3");
    let a = Rig::free(4096, &classing(&[(0, 1), (1, 0)], 0, no_locals));
    a.get(None, 0, 1, None);
    a.get(None, 11, 0, None);
    r.differs(
        "F 4096, nothing named: get order 0 class 1, order 11 class 0, order 0 class 0 local 0",
        a.get(None, 0, 0, Some(0)),
        panic,
        "frame 1 class 1",
    );
    r
}

fn d14() -> Row {
    let mut r = Row::new("D14");
    let lib = CORE[2].1;
    let line = lib
        .lines()
        .position(|l| l.contains("The allocated frame will have the `target` class (usually"));
    let place = line.map_or("no such comment".into(), |l| format!("lib.rs:{}", l + 1));
    r.step("comment", &place, "lib.rs:338");
    let mut a = Rig::free(2048, &classing(&[(0, 1), (1, 1)], 1, t_match));
    r.agrees(
        &format!("{place} says target class (1); T with (0,1) Match, F 2048: get order 0 class 0"),
        a.get(None, 0, 0, None),
        "frame 0 class 0",
    );
    r.agrees("entry", a.entry(0), "0x7ff");
    r
}

fn d15() -> Row {
    let mut r = Row::new("D15");
    r.shown = false;
    let count = |word: &str| -> usize { CORE.iter().map(|(_, s)| s.matches(word).count()).sum() };
    let logs: usize = ["error!(", "warn!(", "info!(", "debug!(", "trace!("]
        .iter()
        .map(|w| count(w))
        .sum();
    r.parts.push(format!(
        "cannot be run, only read: the port drops what the core files hold of atomics ({} try_update, {} compare_exchange), spin_wait ({}), debug_assert ({}), logging ({})",
        count("try_update("),
        count("compare_exchange"),
        count("spin_wait("),
        count("debug_assert"),
        logs,
    ));
    r
}

fn d16() -> Row {
    let mut r = Row::new("D16");
    let config = classes::single();
    let c = config.classing(1);
    let q = config.request(0, 0, 1, 0, 0);
    r.step("locals", c.classes()[0].1, "1");
    r.differs(
        "classes.rs, one class of count One: its request's local",
        format!("{:?}", q.local),
        "Some(1)",
        "local 0 only",
    );
    let a = Rig::free(2049, &c);
    r.differs(
        "get with it at F 2049",
        a.get(None, q.order, q.class.0, q.local),
        "panic \"index out of bounds: the len is 1 but the index is 1\" at local.rs:77",
        "Local",
    );
    r
}

fn r1() -> Row {
    let mut r = Row::new("R1");
    let a = Rig::free(1, &two(1));
    let p = "panic \"index out of bounds: the len is 8 but the index is 8\" at local.rs:61";
    r.differs("F 1: get class 8", a.get(None, 0, 8, None), p, "Class");
    r.differs("put class 8", a.put(0, 0, 8, None), p, "Class");
    r.differs(
        "order 12 class 8",
        a.get(None, 12, 8, None),
        "Argument",
        "Order",
    );
    r
}

fn r2() -> Row {
    let mut r = Row::new("R2");
    let p = "panic \"index out of bounds: the len is 1 but the index is 1\" at local.rs:77";
    let a = Rig::free(2049, &two(1));
    r.differs(
        "F 2049, one local: get local 1",
        a.get(None, 0, 0, Some(1)),
        p,
        "Local",
    );
    r.differs(
        "get frame 0 local 1",
        a.get(Some(0), 0, 0, Some(1)),
        p,
        "Local",
    );
    let mut a = Rig::free(2049, &two(1));
    a.get(Some(0), 0, 1, None);
    r.differs(
        "put frame 0 local 1",
        a.put(0, 0, 1, Some(1)),
        "panic \"index out of bounds: the len is 1 but the index is 1\" at local.rs:171",
        "Local",
    );
    r.differs("bitmap word 0 after it", a.word(0), "0x0", "0x1");
    r.agrees("entry 0 after it", a.entry(0), "0x200007ff");
    let a = Rig::free(1, &two(1));
    r.differs(
        "F 1, one local: get local 1",
        a.get(None, 0, 0, Some(1)),
        "frame 0 class 0",
        "Local",
    );
    let a = Rig::free(2, &classing(&[(0, 0), (1, 1)], 1, t));
    r.differs(
        "F 2, class 0 without locals: get local 0",
        a.get(None, 0, 0, Some(0)),
        "frame 0 class 0",
        "Local",
    );
    r.differs(
        "get frame 1 local 0",
        a.get(Some(1), 0, 0, Some(0)),
        "panic \"index out of bounds: the len is 0 but the index is 0\" at local.rs:77",
        "Local",
    );
    r
}

fn r3() -> Row {
    let mut r = Row::new("R3");
    let a = Rig::free(1, &two(1));
    let p = |at: &str| {
        format!(
            "panic \"index out of bounds: the len is 1 but the index is 9007199254740991\" at {at}"
        )
    };
    let top = usize::MAX;
    r.differs(
        "F 1: get frame 2^64-1",
        a.get(Some(top), 0, 0, None),
        &p("trees.rs:159"),
        "Bounds",
    );
    r.differs(
        "put frame 2^64-1",
        a.put(top, 0, 0, None),
        &p("lower.rs:149"),
        "Bounds",
    );
    r.differs(
        "get frame 2^64-2048 order 11",
        a.get(Some(top - 2047), 11, 0, None),
        &p("trees.rs:159"),
        "Bounds",
    );
    r.differs(
        "get frame 2^64-2 order 0 (no wrap)",
        a.get(Some(top - 1), 0, 0, None),
        "Argument",
        "Bounds",
    );
    r
}

fn r4() -> Row {
    let mut r = Row::new("R4");
    r.step("T", rules(2, 1, t), "broken: ");
    r.step("T, default 0", rules(2, 0, t), "broken: 2");
    r.step("table of D1", rules(2, 1, t_low), "broken: ");
    r.step("table of D13", rules(2, 0, no_locals), "broken: ");
    r.step("table of D14", rules(2, 1, t_match), "broken: ");
    r.step("first table", rules(2, 0, bad1), "broken: 1");
    r.step("second table", rules(3, 1, bad2), "broken: 2");
    r.step("third table", rules(3, 2, bad3), "broken: 3");
    let p = "panic \"unreserve invalid class\" at trees.rs:394";
    let a = Rig::free(2049, &classing(&[(0, 1), (1, 1)], 0, bad1));
    r.step("get", a.get(None, 0, 1, Some(0)), "frame 2048 class 1");
    r.differs(
        "rule 1 alone broken, F 2049: get class 1 local 0, drain",
        a.drain(),
        p,
        "Config at the start",
    );

    let a = Rig::free(2049, &classing(&[(0, 1), (1, 1), (2, 1)], 1, bad2));
    r.step("get", a.get(None, 11, 0, None), "frame 0 class 0");
    r.step("put", a.put(0, 10, 0, None), "Done");
    r.step("get", a.get(None, 10, 2, Some(0)), "frame 0 class 2");
    r.step("put", a.put(0, 10, 0, None), "Done");
    r.step("put", a.put(1024, 10, 0, None), "Done");
    r.differs(
        "rule 2 alone broken, F 2049: get order 11 class 0, put 0 order 10, get order 10 class 2 local 0, put 0 and 1024 order 10, drain",
        a.drain(),
        p,
        "Config at the start",
    );

    let a = Rig::free(2051, &classing(&[(0, 1), (1, 1), (2, 1)], 2, bad3));
    r.step("get", a.get(None, 0, 0, Some(0)), "frame 2048 class 0");
    r.step("get", a.get(None, 11, 2, None), "frame 0 class 2");
    r.step("get", a.get(None, 0, 1, Some(0)), "frame 2049 class 1");
    r.differs(
        "rule 3 alone broken, F 2051: get class 0 local 0, order 11 class 2, class 1 local 0, class 2",
        a.get(None, 0, 2, None),
        p,
        "Config at the start",
    );

    let mut a = Rig::free(2048, &two(1));
    a.set_local(0, 0x8000_0000_0000_0000);
    r.differs(
        "F 2048, T, local 0 present over an unreserved entry: drain",
        a.drain(),
        "panic \"Unreserve failed: Tree { free: 2048, reserved: false, class: C1 }\" at trees.rs:195",
        "Broken",
    );
    let mut a = Rig::free(2048, &two(1));
    a.set_entry(0, 0x1000_0800);
    a.set_local(1, 0x8000_0000_0000_0000);
    r.differs(
        "entry reserved of class 0, holder of class 1: drain",
        a.drain(),
        p,
        "Broken",
    );
    r
}

fn r5() -> Row {
    let mut r = Row::new("R5");
    let mut a = Rig::free(1, &two(1));
    a.set_entry(0, 0x2000_0002);
    r.differs(
        "F 1, T, entry free 2 over one clear bit: get",
        a.get(None, 0, 1, None),
        "frame 0 class 1",
        "Broken",
    );
    let mut a = Rig::free(1, &two(1));
    a.set_entry(0, 0x2000_0000);
    r.differs(
        "entry free 0 over one clear bit: get",
        a.get(None, 0, 1, None),
        "Memory",
        "Broken",
    );
    let mut a = Rig::free(1, &two(1));
    a.set_entry(0, 0xa000_0001);
    r.differs(
        "entry of class 5: get",
        a.get(None, 0, 1, None),
        "Memory",
        "Broken",
    );
    let mut a = Rig::free(1, &two(1));
    a.set_local(0, 1);
    r.differs(
        "absent local word 1: get",
        a.get(None, 0, 1, None),
        "frame 0 class 1",
        "Broken",
    );
    let mut a = Rig::free(1, &two(1));
    a.set_entry(0, 0x3000_0001);
    r.differs(
        "entry reserved by no one: get",
        a.get(None, 0, 1, None),
        "Memory",
        "Broken",
    );
    let a = Rig::free(2048, &two(1));
    a.lower(0, 0, Some(0));
    r.differs(
        "F 2048, entry free 2048, frame 0 held: put 0",
        a.put(0, 0, 1, None),
        "panic \"2049\" at trees.rs:336",
        "Broken",
    );
    let mut a = Rig::free(2049, &two(1));
    a.set_local(1, 0x8000_1000_0000_0040);
    r.differs(
        "F 2049, local row 64: get class 1 local 0",
        a.get(None, 0, 1, Some(0)),
        "panic \"index out of bounds: the len is 2 but the index is 2\" at lower.rs:149",
        "Broken",
    );
    r
}

fn r6() -> Row {
    let mut r = Row::new("R6");
    let go = |frames: usize, classes: &[(u8, usize)], default: u8| {
        call(|| {
            let c = classing(classes, default, t);
            start_with(frames, &c, &LLFree::metadata_size(&c, frames))
        })
    };
    r.differs(
        "F 0",
        go(0, &[(0, 1), (1, 1)], 1),
        "panic \"called `Option::unwrap()` on a `None` value\" at lower.rs:373",
        "Config",
    );
    r.differs(
        "F 2097153",
        go(2_097_153, &[(0, 1), (1, 1)], 1),
        "Done",
        "Config",
    );
    r.differs("33 locals", go(1, &[(0, 33), (1, 1)], 1), "Done", "Config");
    r.differs(
        "default 2 unconfigured",
        go(1, &[(0, 1), (1, 1)], 2),
        "Done",
        "Config",
    );
    r.differs("no class", go(1, &[], 0), "Done", "Config");
    r.differs(
        "a class 8",
        go(1, &[(0, 1), (8, 1)], 0),
        "panic \"index out of bounds: the len is 8 but the index is 8\" at local.rs:54",
        "Config",
    );
    r
}

/// One tree of the repository's lower as rows D4 to D8 describe it.
struct Model {
    held: Vec<bool>,
    huge: [bool; 4],
}

impl Model {
    fn clear(&self, at: usize, order: usize) -> bool {
        self.held[at..at + (1 << order)].iter().all(|h| !h)
    }
    fn set(&mut self, at: usize, order: usize, to: bool) {
        self.held[at..at + (1 << order)].fill(to);
        for b in (at..at + (1 << order)).step_by(512) {
            self.huge[b / 512] = to && order >= 9;
        }
    }
    /// The blocks of `order` in the order in which the repository tries them.
    fn tried(row: usize, order: usize) -> Vec<usize> {
        let len = 1 << order;
        let mut out = Vec::new();
        if order >= 9 {
            let first = row * 64 / len * len;
            out.extend((0..2048 / len).map(|i| (first + i * len) % 2048));
            return out;
        }
        for block in (0..4).map(|j| (row / 8 + j) % 4 * 512) {
            if order > 6 {
                out.extend((block..block + 512).step_by(len));
            } else {
                for r in (0..8).map(|k| block + (row + k) % 8 * 64) {
                    out.extend((r..r + 64).step_by(len));
                }
            }
        }
        out
    }
}

fn l1() -> Row {
    let mut r = Row::new("L1");
    let mut seed = 1u64;
    let mut random = |n: usize| {
        seed ^= seed << 13;
        seed ^= seed >> 7;
        seed ^= seed << 17;
        (seed >> 11) as usize % n
    };
    let (mut calls, mut other, mut wrong, mut refused, mut puts) = (0, 0, 0, 0, 0);
    for round in 0..4000 {
        let frames = [2048, 1500, 2048, 513][round % 4];
        let all_held = random(2) == 1;
        let init = if all_held {
            Init::AllocAll
        } else {
            Init::FreeAll
        };
        let a = Rig::start(frames, init, &two(1), 0);
        let mut m = Model {
            held: vec![true; 2048],
            huge: [false; 4],
        };
        m.held[..frames].fill(all_held);
        for b in 0..frames / 512 {
            m.huge[b] = all_held;
        }
        for _ in 0..500 {
            let order = if random(2) == 0 {
                random(12)
            } else {
                5 + random(7)
            };
            let at = random(2048) >> order << order;
            let row = random(32);
            let inside = at + (1 << order) <= frames;
            match random(5) {
                0 | 1 => {
                    let want = Model::tried(row, order)
                        .into_iter()
                        .find(|b| m.clear(*b, order));
                    let paper = (0..2048 >> order)
                        .map(|i| ((row * 64 >> order) + i) % (2048 >> order) << order)
                        .find(|b| m.clear(*b, order));
                    let seen = a.lower(row, order, None).parse().ok();
                    wrong += (seen != want) as u64;
                    refused += (seen.is_some() != paper.is_some()) as u64;
                    other += (seen != paper) as u64;
                    if let Some(f) = want {
                        m.set(f, order, true);
                    }
                }
                2 if inside => {
                    let want = m.clear(at, order);
                    wrong += ((a.lower(row, order, Some(at)) == at.to_string()) != want) as u64;
                    if want {
                        m.set(at, order, true);
                    }
                }
                _ if inside => {
                    let paper = m.held[at..at + (1 << order)].iter().all(|h| *h);
                    let marked = order < 9
                        || (at..at + (1 << order))
                            .step_by(512)
                            .all(|b| m.huge[b / 512]);
                    let seen = a.0.lower.put(FrameId(at), order).is_ok();
                    wrong += (seen != (paper && marked)) as u64;
                    puts += (seen != paper) as u64;
                    if seen {
                        m.set(at, order, false);
                    }
                }
                _ => continue,
            }
            calls += 1;
            let clear = m.held.iter().filter(|h| !**h).count();
            wrong += (a.0.lower.stats().free_frames != clear) as u64;
        }
    }
    r.step("answers against D4 to D8", wrong, "0");
    r.step("gets refused otherwise than 01", refused, "0");
    r.step("rows met", other > 0 && puts > 0, "true");
    r.parts.push(format!(
        "{calls} random calls of the lower, F 513, 1500 and 2048: every answer as D4 to D8 say; get refuses exactly where 01 does and names another block {other} times; put refuses what 01 accepts {puts} times, all of order 9 or above"
    ));
    r
}

fn main() {
    std::panic::set_hook(Box::new(hook));
    let rows: [fn() -> Row; 23] = [
        d1, d2, d3, d4, d5, d6, d7, d8, d9, d10, d11, d12, d13, d14, d15, d16, r1, r2, r3, r4, r5,
        r6, l1,
    ];
    let (mut shown, mut not, mut bad) = (0, 0, 0);
    for row in rows {
        let row = row();
        if row.print() {
            shown += 1;
        } else {
            not += 1;
            // D15 is the one row that no run can show.
            bad += (row.name != "D15") as i32;
        }
    }
    println!("{shown} shown, {not} not shown");
    std::process::exit((bad > 0) as i32);
}
