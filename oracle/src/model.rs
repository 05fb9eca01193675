//! The second model: document 01's rules, written plainly in its order. It shares nothing with LLFree's modules.
//!
//! `misreading` plants one wrong reading (see misread.rs); 0 is none.

use crate::coverage::{Coverage, Row};
use crate::engine::{Ask, Counted, Engine, Got, Said, Tally};
use crate::state::State;

const TREE: u64 = 2048;

#[derive(Clone, Copy, PartialEq, Eq, Debug)]
enum Policy {
    Invalid,
    Steal,
    Demote,
    Match(u8),
}
use Policy::{Demote, Invalid, Match, Steal};

#[derive(Clone, Copy)]
struct Entry {
    free: u64,
    reserved: bool,
    class: usize,
}

/// A present local.
#[derive(Clone, Copy)]
struct Held {
    row: u64,
    free: u64,
}
impl Held {
    fn tree(self) -> usize {
        (self.row / 32) as usize
    }
}

/// A route that could not return a reservation.
struct Stuck;
/// A route's frame and class, or empty.
type Route = Result<Option<(u64, usize)>, Stuck>;

/// What came of the own local: a frame, or the tree of the reservation that failed.
enum Own {
    Gives(u64, usize),
    Fails(Option<usize>),
}

#[derive(Clone, Copy, PartialEq, Eq)]
enum Search {
    Near,
    Far,
    Stealing,
}

#[derive(Clone, Copy)]
struct Listed {
    policy: Policy,
    full: bool,
    tree: usize,
}

pub struct Model {
    pub misreading: u32,
    pub coverage: Coverage,
    looks: u64,
    tries: u64,
}

// Numbers and words.

fn trees(s: &State) -> usize {
    (s.frames / TREE + (s.frames % TREE > 0) as u64) as usize
}
fn locals(s: &State, class: usize) -> usize {
    s.classes[class].unwrap_or(0) as usize
}
/// The place of a local: by class, then index.
fn place(s: &State, class: usize, index: usize) -> usize {
    (0..class).map(|c| locals(s, c)).sum::<usize>() + index
}
fn entry(s: &State, tree: usize) -> Entry {
    let w = s.trees[tree];
    Entry { free: (w & 0x0fff_ffff) as u64, reserved: w & 0x1000_0000 != 0, class: (w >> 29) as usize }
}
fn store_entry(s: &mut State, tree: usize, e: Entry) {
    s.trees[tree] = (e.free as u32 & 0x0fff_ffff) | (e.reserved as u32) << 28 | (e.class as u32) << 29;
}
fn held_word(w: u64) -> Option<Held> {
    (w >> 63 == 1).then_some(Held { row: w & ((1 << 44) - 1), free: (w >> 44) & ((1 << 19) - 1) })
}
fn local(s: &State, class: usize, index: usize) -> Option<Held> {
    held_word(s.locals[place(s, class, index)])
}
fn store_local(s: &mut State, class: usize, index: usize, held: Option<Held>) {
    let at = place(s, class, index);
    s.locals[at] = match held {
        Some(h) => 1 << 63 | (h.free & ((1 << 19) - 1)) << 44 | (h.row & ((1 << 44) - 1)),
        None => 0,
    };
}
fn policy(s: &State, requested: usize, target: usize, free: u64, above: bool) -> Policy {
    let p = s.table[requested][target];
    match p.kind {
        0 => Invalid,
        1 => Steal,
        2 => Demote,
        _ if free > p.cut as u64 || (free == p.cut as u64 && !above) => Match(p.high),
        _ => Match(p.low),
    }
}
fn good(s: &State, o: usize, e: usize) -> bool {
    s.table[o][e].kind >= 2
}

impl Model {
    pub fn new(misreading: u32) -> Self {
        Self { misreading, coverage: Coverage::new(), looks: 0, tries: 0 }
    }
    fn hit(&mut self, row: Row) {
        self.coverage.counts[row as usize] += 1;
    }
    fn wrong(&self, number: u32) -> bool {
        self.misreading == number
    }
    fn policy(&self, s: &State, requested: usize, target: usize, free: u64) -> Policy {
        policy(s, requested, target, free, self.wrong(10))
    }

    // Policy table: what a start accepts.

    pub fn accepts(&self, s: &State) -> bool {
        self.refusal(s).is_none()
    }

    /// None where header, table and lengths are accepted, else the part that is wrong.
    fn refusal(&self, s: &State) -> Option<Row> {
        if s.frames < 1 || s.frames > 2_097_152 {
            return Some(Row::ConfigFrames);
        }
        if s.classes.iter().flatten().any(|&k| k > 32) {
            return Some(Row::ConfigClass);
        }
        let d = s.default as usize;
        if d > 7 || s.classes[d].is_none() {
            return Some(Row::ConfigDefault);
        }
        let all_locals: usize = (0..8).map(|c| locals(s, c)).sum();
        if s.lent() != (trees(s), all_locals, 32 * trees(s)) {
            return Some(Row::ConfigLength);
        }
        for o in 0..8 {
            for e in 0..8 {
                let p = s.table[o][e];
                if p.kind == 3 {
                    if p.cut > 2048 {
                        return Some(Row::ConfigForm);
                    }
                } else if p.cut != 0 || p.low != 0 || p.high != 0 {
                    return Some(Row::ConfigForm);
                }
                if (s.classes[o].is_none() || s.classes[e].is_none()) && p.kind != 0 {
                    return Some(Row::ConfigForm);
                }
            }
        }
        for c in 0..8 {
            if s.classes[c].is_some() && !(good(s, c, c) && !(self.wrong(15) && s.table[c][c].kind != 3)) {
                return Some(Row::ConfigRule1);
            }
        }
        // Pairs with an unconfigured class are Invalid, so that these rules may go over all classes.
        for o in 0..8 {
            for e in 0..8 {
                let asked = if self.wrong(12) { good(s, e, d) } else { s.table[e][d].kind != 0 };
                if good(s, o, e) && asked && !good(s, o, d) && !self.wrong(13) {
                    return Some(Row::ConfigRule2);
                }
            }
        }
        for c in 0..8 {
            for o in 0..8 {
                for e in 0..8 {
                    if good(s, o, e) && s.table[c][o].kind == 2 && !good(s, c, e) && !self.wrong(14) {
                        return Some(Row::ConfigRule3);
                    }
                }
            }
        }
        None
    }

    // Standing rules.

    /// None where every standing rule holds, else one that fails.
    fn broken(&self, s: &State) -> Option<Row> {
        if self.refusal(s).is_some() {
            return Some(Row::BrokenHeader);
        }
        let n = trees(s);
        for t in 0..n {
            let e = entry(s, t);
            if e.free > TREE || s.classes[e.class].is_none() {
                return Some(Row::BrokenEntry);
            }
        }
        let mut held_free = vec![0u64; n];
        let mut holders = vec![0u8; n];
        for class in 0..8 {
            for index in 0..locals(s, class) {
                let w = s.locals[place(s, class, index)];
                let Some(h) = held_word(w) else {
                    if w != 0 && !self.wrong(83) {
                        return Some(Row::BrokenAbsent);
                    }
                    continue;
                };
                if h.row / 32 >= n as u64 || !entry(s, h.tree()).reserved {
                    return Some(Row::BrokenRow);
                }
                if self.wrong(82) && h.row * 64 >= s.frames {
                    return Some(Row::BrokenRow);
                }
                if holders[h.tree()] > 0 && !self.wrong(86) {
                    return Some(Row::BrokenRow);
                }
                holders[h.tree()] += 1;
                held_free[h.tree()] += h.free;
                let of = entry(s, h.tree()).class;
                if !good(s, class, of) || (self.wrong(85) && of != class) {
                    return Some(Row::BrokenPair);
                }
            }
        }
        for t in 0..n {
            let e = entry(s, t);
            if e.reserved && holders[t] == 0 {
                return Some(Row::BrokenHolder);
            }
            let held_bits: u64 = (0..32).map(|w| s.bitmap[32 * t + w].count_ones() as u64).sum();
            if e.free + held_free[t] + held_bits != TREE {
                return Some(Row::BrokenCount);
            }
        }
        for w in (s.frames / 64) as usize..32 * n {
            let below = s.frames.saturating_sub(64 * w as u64).min(64);
            let must = if below == 64 { 0 } else { u64::MAX << below };
            if s.bitmap[w] & must != must && !self.wrong(84) {
                return Some(Row::BrokenTail);
            }
        }
        None
    }

    fn is_broken(&mut self, s: &State) -> bool {
        match self.broken(s) {
            Some(row) => {
                self.hit(row);
                true
            }
            None => false,
        }
    }

    /// Order, Bounds, Misaligned, Class, Local, in that order.
    fn refused(&mut self, s: &State, ask: &Ask, put: bool) -> Option<u8> {
        let order = || ask.order > 11;
        let bounds = |m: &Self| {
            let Some(frame) = ask.frame.or((!m.wrong(3)).then_some(0)) else { return false };
            let size = 1u64 << ask.order;
            if m.wrong(4) {
                return frame.wrapping_add(size) > s.frames;
            }
            if m.wrong(1) && frame.checked_add(size) == Some(s.frames) {
                return true;
            }
            frame > s.frames || s.frames - frame < size
        };
        let misaligned = || ask.frame.unwrap_or(0) & ((1 << ask.order) - 1) != 0;
        let class = || ask.class > 7 || s.classes[ask.class as usize].is_none();
        if self.wrong(5) && class() {
            return Some(5);
        }
        if order() {
            return Some(2);
        }
        if self.wrong(2) && misaligned() {
            return Some(4);
        }
        if bounds(self) {
            return Some(3);
        }
        if misaligned() {
            return Some(4);
        }
        if class() {
            return Some(5);
        }
        let count = locals(s, ask.class as usize) as u64;
        if ask.local.is_some_and(|l| l >= count) && !(put && self.wrong(7)) && !(count == 0 && self.wrong(6)) {
            return Some(6);
        }
        None
    }

    /// Only misreadings 6 and 7 come here with a local out of range: they take it as none.
    fn without_local(&self, s: &State, ask: &Ask) -> Ask {
        Ask { local: ask.local.filter(|&l| l < locals(s, ask.class as usize) as u64), ..*ask }
    }

    // Single words.

    fn entry_put(&mut self, s: &mut State, tree: usize, frames: u64) {
        let mut e = entry(s, tree);
        e.free += frames;
        let d = s.default as usize;
        if e.free == TREE {
            let asked = if self.wrong(17) { self.policy(s, d, e.class, TREE) } else { self.policy(s, e.class, d, TREE) };
            if (asked != Invalid || self.wrong(18)) && !(self.wrong(16) && e.reserved) {
                if e.class != d {
                    self.hit(if e.reserved { Row::PutTurnsReserved } else { Row::PutTurns });
                    if frames == 0 {
                        self.hit(Row::PutZero);
                    }
                }
                e.class = d;
            } else {
                self.hit(Row::PutKeeps);
            }
        }
        store_entry(s, tree, e);
    }

    /// Some with the class the entry has after, where the steal is made.
    fn entry_steal(&mut self, s: &mut State, tree: usize, class: usize, frames: u64) -> Option<usize> {
        let mut e = entry(s, tree);
        if e.reserved || e.free < frames || (self.wrong(100) && e.free == frames) {
            return None;
        }
        let old = e.class;
        match self.policy(s, class, e.class, frames) {
            Match(_) if self.wrong(19) => {}
            Match(_) | Demote => e.class = class,
            Steal if self.wrong(20) => e.class = class,
            Steal => {}
            Invalid => return None,
        }
        e.free -= frames;
        store_entry(s, tree, e);
        Some(if self.wrong(91) { old } else { e.class })
    }

    /// Some with (reserved, old free, class after).
    fn entry_reserve_or_steal(&mut self, s: &mut State, tree: usize, class: usize, frames: u64) -> Option<(bool, u64, usize)> {
        let e = entry(s, tree);
        if e.reserved || e.free < frames {
            return None;
        }
        let (after, reserved) = match self.policy(s, class, e.class, frames) {
            Match(_) if self.wrong(21) => (Entry { free: 0, reserved: true, class: e.class }, true),
            Match(_) | Demote => (Entry { free: 0, reserved: true, class }, true),
            Steal => (Entry { free: e.free - frames, ..e }, false),
            Invalid => return None,
        };
        store_entry(s, tree, after);
        Some((reserved, e.free, after.class))
    }

    fn unreserve(&mut self, s: &mut State, tree: usize, holder: usize, free: u64) -> Result<(), Stuck> {
        let mut e = entry(s, tree);
        if !e.reserved {
            self.hit(Row::Stuck);
            return Err(Stuck);
        }
        let asked = if self.wrong(24) { self.policy(s, e.class, holder, free) } else { self.policy(s, holder, e.class, free) };
        match asked {
            Match(_) => {
                if e.class != holder {
                    self.hit(Row::UnreserveMatch);
                }
                if self.wrong(22) {
                    e.class = holder;
                }
            }
            Demote => {
                if e.class != holder {
                    self.hit(Row::UnreserveDemote);
                }
                if !self.wrong(23) {
                    e.class = holder;
                }
            }
            Steal | Invalid => {
                self.hit(Row::Stuck);
                return Err(Stuck);
            }
        }
        e.reserved = false;
        store_entry(s, tree, e);
        self.entry_put(s, tree, free);
        Ok(())
    }

    /// The frames taken from the entry, if any.
    fn sync(&mut self, s: &mut State, tree: usize, shortfall: u64) -> Option<u64> {
        let mut e = entry(s, tree);
        if e.reserved && e.free == shortfall && shortfall > 0 {
            self.hit(Row::OwnSyncEqual);
        }
        if !e.reserved || e.free < shortfall || (e.free == shortfall && !self.wrong(25)) {
            return None;
        }
        let taken = if self.wrong(26) { shortfall } else { e.free };
        e.free -= taken;
        store_entry(s, tree, e);
        Some(taken)
    }

    // Lower.

    fn lower_get(&mut self, s: &mut State, row: u64, order: u64, frame: Option<u64>) -> Option<u64> {
        self.tries += 1;
        let found = match frame {
            Some(f) => {
                let free = wholly_free(s, f, order);
                self.hit(if free { Row::LowerNamedGives } else { Row::LowerNamedRefused });
                free.then_some(f)
            }
            None => {
                let tree = row / 32 * TREE;
                let mut from = row * 64 >> order << order;
                if self.wrong(72) {
                    from += 1 << order;
                }
                if self.wrong(74) {
                    from = tree;
                }
                let up = first_free(s, tree, 11, order, from);
                let found = if self.wrong(73) { up } else { up.or_else(|| first_free(s, tree, 11, order, tree)) };
                match (up, found) {
                    (Some(_), _) => {
                        self.hit(Row::LowerGives);
                        if from < row * 64 {
                            self.hit(Row::LowerRoundDown);
                        }
                    }
                    (None, Some(_)) => self.hit(Row::LowerRound),
                    (None, None) => self.hit(Row::LowerRefused),
                }
                found
            }
        };
        if let Some(f) = found {
            mark(s, f, order, true);
        }
        found
    }

    // The routes of get: from a local.

    fn from_local(&mut self, s: &mut State, ask: &Ask, class: usize, index: usize, syncs: u32) -> Own {
        let frames = 1u64 << ask.order;
        let Some(h) = local(s, class, index) else {
            self.hit(Row::OwnAbsent);
            return Own::Fails(None);
        };
        let tree = h.tree();
        let other = ask.frame.is_some_and(|f| (f / TREE) as usize != tree);
        if other || h.free < frames {
            if syncs == 0 {
                return Own::Fails(Some(tree));
            }
            return self.top_up(s, ask, class, index, syncs);
        }
        store_local(s, class, index, Some(Held { free: h.free - frames, ..h }));
        match self.lower_get(s, h.row, ask.order, ask.frame) {
            Some(found) => {
                self.hit(if syncs > 0 { Row::OwnGives } else { Row::OwnSyncGives });
                if found / 64 != h.row {
                    self.hit(Row::OwnRowMoves);
                }
                if !self.wrong(30) {
                    store_local(s, class, index, Some(Held { row: found / 64, free: h.free - frames }));
                }
                Own::Gives(found, if self.wrong(71) { entry(s, tree).class } else { class })
            }
            None => {
                self.hit(if syncs > 0 { Row::OwnRefused } else { Row::OwnSyncRefused });
                if self.wrong(27) {
                    store_local(s, class, index, Some(h));
                } else {
                    self.entry_put(s, tree, frames);
                }
                if self.wrong(98) && syncs > 0 {
                    return self.top_up(s, ask, class, index, syncs);
                }
                Own::Fails(Some(tree))
            }
        }
    }

    fn top_up(&mut self, s: &mut State, ask: &Ask, class: usize, index: usize, syncs: u32) -> Own {
        let frames = 1u64 << ask.order;
        let Some(h) = local(s, class, index) else { return Own::Fails(None) };
        let tree = h.tree();
        let other = ask.frame.is_some_and(|f| (f / TREE) as usize != tree);
        if other && self.wrong(28) {
            return Own::Fails(Some(tree));
        }
        if h.free > frames && !self.wrong(29) {
            self.hit(Row::OwnOtherNegative);
            return Own::Fails(Some(tree));
        }
        let Some(taken) = self.sync(s, tree, frames.saturating_sub(h.free)) else {
            self.hit(if other { Row::OwnOtherNoSync } else { Row::OwnNoSync });
            return Own::Fails(Some(tree));
        };
        if other {
            self.hit(Row::OwnOtherSync);
        }
        store_local(s, class, index, Some(Held { free: h.free + taken, ..h }));
        self.from_local(s, ask, class, index, syncs - 1)
    }

    /// Steal globally from one tree.
    fn steal_tree(&mut self, s: &mut State, ask: &Ask, tree: usize, rows: [Row; 6]) -> Route {
        let (class, frames) = (ask.class as usize, 1u64 << ask.order);
        let before = entry(s, tree);
        let asked = self.policy(s, class, before.class, frames);
        let Some(after) = self.entry_steal(s, tree, class, frames) else {
            if ask.frame.is_some() {
                self.hit(if before.reserved {
                    Row::NamedReserved
                } else if before.free < frames {
                    Row::NamedTooFew
                } else {
                    Row::NamedInvalid
                });
            }
            if self.wrong(88) {
                self.tries += 1;
            }
            return Ok(None);
        };
        let place = match asked {
            Match(_) => 0,
            Demote => 2,
            _ => 4,
        };
        match self.lower_get(s, (tree * 32) as u64, ask.order, ask.frame) {
            Some(found) => {
                self.hit(rows[place]);
                Ok(Some((found, after)))
            }
            None => {
                self.hit(rows[place + 1]);
                self.entry_put(s, tree, frames);
                if self.wrong(58) {
                    store_entry(s, tree, before);
                }
                Ok(None)
            }
        }
    }

    // Named frame.

    fn named(&mut self, s: &mut State, ask: &Ask, frame: u64) -> Route {
        self.hit(Row::GetNamed);
        let class = ask.class as usize;
        let fewer = locals(s, class) < trees(s);
        if let Some(index) = ask.local
            && (fewer || !self.wrong(60))
        {
            if let Own::Gives(found, class) = self.from_local(s, ask, class, index as usize, 1) {
                return Ok(Some((found, class)));
            }
        }
        let rows = [
            Row::NamedMatchGives,
            Row::NamedMatchRefused,
            Row::NamedDemoteGives,
            Row::NamedDemoteRefused,
            Row::NamedStealGives,
            Row::NamedStealRefused,
        ];
        if let Some(done) = self.steal_tree(s, ask, (frame / TREE) as usize, rows)? {
            return Ok(Some(done));
        }
        self.last_routes(s, ask)
    }

    fn last_routes(&mut self, s: &mut State, ask: &Ask) -> Route {
        if self.wrong(94) {
            if let Some(done) = self.demote_local(s, ask)? {
                return Ok(Some(done));
            }
            return self.steal_local(s, ask);
        }
        if let Some(done) = self.steal_local(s, ask)? {
            return Ok(Some(done));
        }
        self.demote_local(s, ask)
    }

    // No name.

    fn unnamed(&mut self, s: &mut State, ask: &Ask) -> Route {
        let n = trees(s);
        let class = ask.class as usize;
        let count = locals(s, class);
        let mut start = match ask.local {
            Some(index) if count > 0 && self.wrong(87) => n * index as usize / count,
            Some(index) if count > 0 => n / count * index as usize,
            _ => 0,
        };
        let fewer = count < n || (self.wrong(37) && count == n);
        match ask.local {
            Some(index) if fewer && count > 0 => {
                self.hit(Row::GetReserving);
                let tries = self.tries;
                match self.from_local(s, ask, class, index as usize, 1) {
                    Own::Gives(found, class) => return Ok(Some((found, class))),
                    Own::Fails(Some(tree)) if !self.wrong(34) => {
                        self.hit(Row::StartReplaced);
                        start = tree;
                    }
                    Own::Fails(_) => {}
                }
                if self.wrong(97) && self.tries > tries {
                    return Ok(None);
                }
                if let Some(done) = self.reserving(s, ask, index as usize, start)? {
                    return Ok(Some(done));
                }
            }
            given => {
                self.hit(if given.is_some() { Row::GetStealMany } else { Row::GetStealNoLocal });
                if self.wrong(36) {
                    start = start / 8 * 8;
                }
                if let Some(done) = self.walk(s, ask, start, 0, n, 8, Search::Stealing, 0)? {
                    return Ok(Some(done));
                }
            }
        }
        self.last_routes(s, ask)
    }

    // Walk.

    fn rate(&self, s: &State, search: Search, ask: &Ask, e: Entry, whole: u64) -> Policy {
        let frames = 1u64 << ask.order;
        if e.free < frames {
            return Invalid;
        }
        let full = e.free == whole;
        let p = self.policy(s, ask.class as usize, e.class, if self.wrong(11) { frames } else { e.free });
        match (search, p) {
            (Search::Stealing, p) => p,
            (Search::Near, Match(_)) => p,
            (Search::Near, Demote) if full || self.wrong(51) => p,
            (Search::Near, Steal) if self.wrong(52) => p,
            (Search::Near, _) => Invalid,
            (Search::Far, p) if self.wrong(53) => p,
            (Search::Far, Match(_)) => Match(255),
            (Search::Far, Demote) if full || self.wrong(54) => Match(255),
            (Search::Far, Steal) if self.wrong(55) => Invalid,
            (Search::Far, Steal) if self.wrong(92) && locals(s, e.class) == 0 => Invalid,
            (Search::Far, p) => p,
        }
    }

    fn key(&self, l: &Listed) -> (u32, u32) {
        let rating = match l.policy {
            Invalid => 0,
            Steal => 1,
            Demote => 2,
            Match(r) => 3 + r as u32,
        };
        if self.wrong(47) {
            return (l.full as u32, rating);
        }
        if self.wrong(48) {
            return (1000 - rating.min(3) * 300 + rating, l.full as u32);
        }
        (rating, l.full as u32)
    }

    #[allow(clippy::too_many_arguments)]
    fn walk(&mut self, s: &mut State, ask: &Ask, start: usize, first: usize, last: usize, size: usize, search: Search, index: usize) -> Route {
        let n = trees(s);
        let mut list: Vec<Listed> = Vec::new();
        for i in first..last {
            let half = (i as i64 + 1) / 2;
            let up = if self.wrong(42) { i % 2 == 1 } else { i % 2 == 0 };
            let offset = if up { half } else { -half };
            let tree = (start as i64 + offset).rem_euclid(n as i64) as usize;
            let e = entry(s, tree);
            if !(self.wrong(43) && e.reserved) {
                self.looks += 1;
            }
            if e.reserved {
                continue;
            }
            let whole = if self.wrong(57) { TREE.min(s.frames - TREE * tree as u64) } else { TREE };
            match self.rate(s, search, ask, e, whole) {
                Invalid => {}
                Match(255) if !self.wrong(44) => {
                    let done = self.try_tree(s, ask, tree, search, true, index)?;
                    if done.is_some() {
                        return Ok(done);
                    }
                }
                policy => {
                    let size = if self.wrong(49) { usize::MAX } else { size };
                    self.admit(&mut list, size, Listed { policy, full: e.free == whole, tree }, search);
                }
            }
        }
        for (i, l) in list.iter().enumerate() {
            if list[..i].iter().any(|other| other.tree == l.tree) {
                self.hit(Row::NearTwiceTried);
            }
            let done = self.try_tree(s, ask, l.tree, search, false, index)?;
            if done.is_some() {
                return Ok(done);
            }
        }
        Ok(None)
    }

    /// The list of the best, best first.
    fn admit(&mut self, list: &mut Vec<Listed>, size: usize, new: Listed, search: Search) {
        let key = self.key(&new);
        if list.iter().any(|l| self.key(l) == key) {
            self.hit(Row::ListEquals);
        }
        if list.iter().any(|l| self.key(l).0 == key.0 && self.key(l).1 != key.1) {
            self.hit(Row::ListFullness);
        }
        if search == Search::Near && list.iter().any(|l| l.tree == new.tree) {
            self.hit(Row::NearTwice);
        }
        if list.len() == size {
            let worst = self.key(&list[size - 1]);
            if key < worst || (key == worst && !self.wrong(46)) {
                self.hit(match search {
                    Search::Near => Row::NearListFull,
                    Search::Far => Row::FarListFull,
                    Search::Stealing => Row::StealListFull,
                });
                return;
            }
            self.hit(match search {
                Search::Near => Row::NearListDrop,
                Search::Far => Row::FarListDrop,
                Search::Stealing => Row::StealListDrop,
            });
            list.pop();
        }
        let later_first = self.wrong(45);
        let at = list.iter().position(|l| self.key(l) < key || (later_first && self.key(l) == key));
        list.insert(at.unwrap_or(list.len()), new);
    }

    fn try_tree(&mut self, s: &mut State, ask: &Ask, tree: usize, search: Search, once: bool, index: usize) -> Route {
        if search != Search::Stealing {
            return self.reserve_tree(s, ask, tree, search, once, index);
        }
        let rows = if once {
            [
                Row::StealOnceGives,
                Row::StealOnceRefused,
                Row::StealOnceGives,
                Row::StealOnceRefused,
                Row::StealOnceGives,
                Row::StealOnceRefused,
            ]
        } else {
            [
                Row::StealListMatchGives,
                Row::StealListMatchRefused,
                Row::StealListDemoteGives,
                Row::StealListDemoteRefused,
                Row::StealListStealGives,
                Row::StealListStealRefused,
            ]
        };
        self.steal_tree(s, &Ask { frame: None, ..*ask }, tree, rows)
    }

    // Reserving search.

    fn reserving(&mut self, s: &mut State, ask: &Ask, index: usize, start: usize) -> Route {
        let n = trees(s);
        let sixteenth = if self.wrong(39) { n.div_ceil(16) } else { n / 16 };
        let mut near = sixteenth.max(4);
        if self.wrong(99) {
            near = near.min(n);
        }
        let mut step = 1;
        while step < 2 * near {
            step *= 2;
        }
        if self.wrong(38) {
            step = 2 * near;
        }
        let rounded = if self.wrong(35) { start } else { start - start % step };
        if rounded != start {
            self.hit(Row::StartRounded);
        }
        if ask.order < 9 || (ask.order == 9 && self.wrong(56)) {
            self.hit(Row::NearTried);
            let first = if self.wrong(40) { 0 } else { 1 };
            let last = if self.wrong(41) { near + 1 } else { near };
            let size = if self.wrong(50) { 8 } else { 3 };
            if let Some(done) = self.walk(s, ask, rounded, first, last, size, Search::Near, index)? {
                return Ok(Some(done));
            }
        } else {
            self.hit(Row::NearSkipped);
        }
        self.walk(s, ask, rounded, 0, n, 8, Search::Far, index)
    }

    fn reserve_tree(&mut self, s: &mut State, ask: &Ask, tree: usize, search: Search, once: bool, index: usize) -> Route {
        let (class, frames) = (ask.class as usize, 1u64 << ask.order);
        let before = entry(s, tree);
        let asked = self.policy(s, class, before.class, frames);
        let Some((reserved, old_free, after)) = self.entry_reserve_or_steal(s, tree, class, frames) else {
            return Ok(None);
        };
        if !reserved && locals(s, before.class) == 0 {
            self.hit(Row::FarNoLocals);
        }
        if reserved && self.wrong(93) {
            if let Some(old) = local(s, class, index) {
                store_local(s, class, index, None);
                self.unreserve(s, old.tree(), class, old.free)?;
            }
        }
        let found = self.lower_get(s, (tree * 32) as u64, ask.order, None);
        self.hit(match (search, once, asked, found.is_some()) {
            (Search::Near, true, _, true) => Row::NearOnceGives,
            (Search::Near, true, _, false) => Row::NearOnceRefused,
            (Search::Near, false, Demote, _) => Row::NearListDemoteGives,
            (Search::Near, false, _, true) => Row::NearListMatchGives,
            (Search::Near, false, _, false) => Row::NearListMatchRefused,
            (_, true, Demote, _) => Row::FarDemoteGives,
            (_, true, _, true) => Row::FarMatchGives,
            (_, true, _, false) => Row::FarMatchRefused,
            (_, false, Demote, true) => Row::FarListDemoteGives,
            (_, false, Demote, false) => Row::FarListDemoteRefused,
            (_, false, _, true) => Row::FarListStealGives,
            (_, false, _, false) => Row::FarListStealRefused,
        });
        let Some(found) = found else {
            if reserved {
                self.unreserve(s, tree, class, old_free)?;
            } else {
                self.entry_put(s, tree, frames);
            }
            if self.wrong(if reserved { 59 } else { 58 }) {
                store_entry(s, tree, before);
            }
            return Ok(None);
        };
        if reserved {
            let old = local(s, class, index);
            let row = if self.wrong(31) { found / 64 } else { (tree * 32) as u64 };
            store_local(s, class, index, Some(Held { row, free: old_free - frames }));
            match old {
                Some(old) => {
                    self.hit(Row::Replaced);
                    self.unreserve(s, old.tree(), class, old.free)?;
                }
                None => self.hit(Row::ReplacedNone),
            }
        }
        Ok(Some((found, after)))
    }

    // Locals.

    fn has_enough(&self, s: &State, ask: &Ask, class: usize, index: usize) -> Option<Held> {
        local(s, class, index)
            .filter(|h| h.free >= 1 << ask.order)
            .filter(|h| ask.frame.is_none_or(|f| (f / TREE) as usize == h.tree()))
    }

    fn steal_local(&mut self, s: &mut State, ask: &Ask) -> Route {
        let (class, frames) = (ask.class as usize, 1u64 << ask.order);
        let from = if self.wrong(62) { 0 } else { ask.local.unwrap_or(0) as usize };
        for step in 0..8 {
            let target = if self.wrong(61) { step } else { (class + step) % 8 };
            let kind = self.policy(s, class, target, frames);
            match kind {
                Steal => {}
                Match(_) if !self.wrong(65) => {}
                _ => continue,
            }
            let count = locals(s, target);
            for j in 0..count {
                let index = (from + j) % count;
                let Some(h) = self.has_enough(s, ask, target, index) else { continue };
                if target == class {
                    self.hit(Row::LocalsOwnClass);
                    if ask.local == Some(index as u64) {
                        self.hit(Row::LocalsOwnLocal);
                    }
                } else {
                    self.hit(if kind == Steal { Row::LocalsSteal } else { Row::LocalsMatch });
                }
                if index < from % count {
                    self.hit(Row::LocalsRound);
                }
                store_local(s, target, index, Some(Held { free: h.free - frames, ..h }));
                match self.lower_get(s, h.row, ask.order, ask.frame) {
                    Some(found) => {
                        self.hit(if ask.frame.is_some() { Row::LocalsGivesNamed } else { Row::LocalsGives });
                        if self.wrong(32) {
                            store_local(s, target, index, Some(Held { row: found / 64, free: h.free - frames }));
                        }
                        return Ok(Some((found, if self.wrong(64) { class } else { target })));
                    }
                    None => {
                        self.hit(Row::LocalsRefused);
                        self.entry_put(s, h.tree(), frames);
                        if self.wrong(63) {
                            continue;
                        }
                        return Ok(None);
                    }
                }
            }
        }
        self.hit(Row::LocalsNone);
        Ok(None)
    }

    fn demote_local(&mut self, s: &mut State, ask: &Ask) -> Route {
        let (class, frames) = (ask.class as usize, 1u64 << ask.order);
        let from = ask.local.unwrap_or(0) as usize;
        for step in if self.wrong(66) { 0 } else { 1 }..8 {
            let target = (class + step) % 8;
            if self.policy(s, class, target, frames) != Demote {
                continue;
            }
            let count = locals(s, target);
            for j in 0..count {
                let index = (from + j) % count;
                let Some(h) = self.has_enough(s, ask, target, index) else { continue };
                store_local(s, target, index, None);
                let moved = Held { free: h.free - frames, ..h };
                let to = if self.wrong(69) && locals(s, class) > 0 { ask.local.or(Some(0)) } else { ask.local };
                match to {
                    Some(own) if !self.wrong(67) => {
                        let own = own as usize;
                        let displaced = local(s, class, own);
                        store_local(s, class, own, Some(moved));
                        match displaced {
                            Some(old) => {
                                self.hit(Row::DemoteDisplaces);
                                let holder = if self.wrong(68) { target } else { class };
                                self.unreserve(s, old.tree(), holder, old.free)?;
                            }
                            None => self.hit(Row::DemoteMoves),
                        }
                    }
                    _ => {
                        self.hit(Row::DemoteNoLocal);
                        self.unreserve(s, moved.tree(), class, moved.free)?;
                    }
                }
                return Ok(match self.lower_get(s, h.row, ask.order, ask.frame) {
                    Some(found) => {
                        self.hit(if ask.frame.is_some() { Row::DemoteGivesNamed } else { Row::DemoteGives });
                        if let Some(own) = ask.local
                            && self.wrong(33)
                        {
                            store_local(s, class, own as usize, Some(Held { row: found / 64, ..moved }));
                        }
                        Some((found, class))
                    }
                    None => {
                        self.hit(Row::DemoteRefused);
                        match ask.local {
                            Some(own) if self.wrong(70) => store_local(s, class, own as usize, Some(h)),
                            _ => self.entry_put(s, h.tree(), frames),
                        }
                        None
                    }
                });
            }
        }
        self.hit(Row::DemoteNone);
        Ok(None)
    }

    fn count_size(&mut self, s: &State, ask: &Ask) {
        self.hit(match trees(s) {
            1 => Row::Trees1,
            2 => Row::Trees2,
            3 => Row::Trees3,
            4..80 => Row::TreesSmall,
            _ => Row::TreesBig,
        });
        if s.frames % TREE != 0 {
            self.hit(Row::FramesOdd);
        }
        match s.frames {
            2048 => self.hit(Row::Frames2048),
            2049 => self.hit(Row::Frames2049),
            _ => {}
        }
        self.hit(match s.classes.iter().flatten().count() {
            1 => Row::Classes1,
            2 => Row::Classes2,
            3..8 => Row::Classes3,
            _ => Row::Classes8,
        });
        match locals(s, ask.class as usize) {
            0 => self.hit(Row::NoLocals),
            32 => self.hit(Row::Locals32),
            _ => {}
        }
        self.coverage.counts[Row::Order0 as usize + ask.order as usize] += 1;
    }
}

fn mask(frame: u64, order: u64) -> u64 {
    if order >= 6 { u64::MAX } else { ((1 << (1 << order)) - 1) << (frame % 64) }
}
fn block(frame: u64, order: u64) -> std::ops::Range<usize> {
    let first = (frame / 64) as usize;
    first..first + if order > 6 { 1 << (order - 6) } else { 1 }
}
fn wholly_free(s: &State, frame: u64, order: u64) -> bool {
    s.bitmap[block(frame, order)].iter().all(|w| w & mask(frame, order) == 0)
}
fn wholly_held(s: &State, frame: u64, order: u64) -> bool {
    s.bitmap[block(frame, order)].iter().all(|w| !w & mask(frame, order) == 0)
}
fn mark(s: &mut State, frame: u64, order: u64, held: bool) {
    let m = mask(frame, order);
    for w in &mut s.bitmap[block(frame, order)] {
        *w = if held { *w | m } else { *w & !m };
    }
}
/// The first wholly free block of an order at or above `from`, sought by halves.
fn first_free(s: &State, frame: u64, half: u64, order: u64, from: u64) -> Option<u64> {
    if frame + (1 << half) <= from {
        return None;
    }
    if half == order {
        return wholly_free(s, frame, order).then_some(frame);
    }
    if half <= 6 && !s.bitmap[(frame / 64) as usize] & mask(frame, half) == 0 {
        return None;
    }
    let middle = frame + (1 << (half - 1));
    first_free(s, frame, half - 1, order, from).or_else(|| first_free(s, middle, half - 1, order, from))
}

impl Engine for Model {
    fn start(&mut self, s: &mut State, free: bool) -> Said<u8> {
        if let Some(row) = self.refusal(s) {
            self.hit(row);
            return Said::Is(10);
        }
        self.hit(if free { Row::StartFree } else { Row::StartHeld });
        for t in 0..trees(s) {
            let here = TREE.min(s.frames - TREE * t as u64);
            let class = if self.wrong(89) { 0 } else { s.default as usize };
            store_entry(s, t, Entry { free: if free { here } else { 0 }, reserved: false, class });
        }
        if !self.wrong(90) {
            let count = s.lent().1;
            s.locals[..count].fill(0);
        }
        for w in 0..32 * trees(s) {
            let below = s.frames.saturating_sub(64 * w as u64).min(64);
            s.bitmap[w] = if !free || below == 0 {
                u64::MAX
            } else if below == 64 {
                0
            } else {
                u64::MAX << below
            };
        }
        Said::Is(0)
    }

    fn get(&mut self, s: &mut State, ask: &Ask) -> Said<Got> {
        let refuse = |number| Said::Is(Got { number, ..Got::default() });
        if self.is_broken(s) {
            self.hit(Row::GetBroken);
            return refuse(1);
        }
        if let Some(number) = self.refused(s, ask, false) {
            self.hit(match number {
                2 => Row::GetOrder,
                3 if ask.frame.is_none() => Row::GetBoundsUnnamed,
                3 if ask.frame.unwrap().checked_add(1 << ask.order).is_none() => Row::GetBoundsWrap,
                3 => Row::GetBoundsNamed,
                4 => Row::GetMisaligned,
                5 if ask.class > 7 => Row::GetClassAbove,
                5 => Row::GetClassUnconfigured,
                _ if locals(s, ask.class as usize) == 0 => Row::GetLocalNone,
                _ => Row::GetLocal,
            });
            return refuse(number);
        }
        let ask = &self.without_local(s, ask);
        // Only misreading 4 comes here with a frame out of bounds.
        if ask.frame.is_some_and(|f| f / TREE >= trees(s) as u64) {
            return refuse(7);
        }
        self.count_size(s, ask);
        self.looks = 0;
        self.tries = 0;
        let (trees_before, locals_before) = (s.tree_words().to_vec(), s.local_words().to_vec());
        let route = match ask.frame {
            Some(frame) => self.named(s, ask, frame),
            None => self.unnamed(s, ask),
        };
        let mut got = Got { looks: self.looks, tries: self.tries, ..Got::default() };
        match route {
            Ok(Some((frame, class))) => {
                got.frame = frame;
                got.class = class as u8;
            }
            Ok(None) => {
                got.number = 7;
                let same = s.tree_words() == trees_before && s.local_words() == locals_before;
                self.hit(if same { Row::MemorySame } else { Row::MemoryChanged });
                if self.wrong(8) {
                    s.trees[..trees_before.len()].copy_from_slice(&trees_before);
                    s.locals[..locals_before.len()].copy_from_slice(&locals_before);
                }
                if self.wrong(9) {
                    (got.looks, got.tries) = (0, 0);
                }
            }
            Err(Stuck) => got.number = 9,
        }
        Said::Is(got)
    }

    fn put(&mut self, s: &mut State, ask: &Ask) -> Said<u8> {
        if self.is_broken(s) {
            self.hit(Row::PutBroken);
            return Said::Is(1);
        }
        if let Some(number) = self.refused(s, ask, true) {
            self.hit(match number {
                2 => Row::PutOrder,
                3 => Row::PutBounds,
                4 => Row::PutMisaligned,
                5 => Row::PutClass,
                _ => Row::PutLocalRefused,
            });
            return Said::Is(number);
        }
        let ask = &self.without_local(s, ask);
        let (frame, class, frames) = (ask.frame.unwrap_or(0), ask.class as usize, 1u64 << ask.order);
        // Only misreading 4 comes here with a frame out of bounds.
        if frame / TREE >= trees(s) as u64 {
            return Said::Is(8);
        }
        let tested = if self.wrong(76) { 0 } else { ask.order };
        if !wholly_held(s, frame, tested) {
            self.hit(Row::PutNotHeld);
            if wholly_held(s, frame, 0) {
                self.hit(Row::PutNotHeldFirst);
            }
            return Said::Is(8);
        }
        mark(s, frame, ask.order, false);
        let tree = (frame / TREE) as usize;
        if self.wrong(77) {
            for class in 0..8 {
                for index in 0..locals(s, class) {
                    if let Some(h) = local(s, class, index).filter(|h| h.tree() == tree) {
                        store_local(s, class, index, Some(Held { free: h.free + frames, ..h }));
                        return Said::Is(0);
                    }
                }
            }
        }
        match ask.local.filter(|&l| l < locals(s, class) as u64) {
            Some(index) if !self.wrong(75) => match local(s, class, index as usize) {
                Some(h) if h.tree() == tree => {
                    self.hit(Row::PutLocal);
                    store_local(s, class, index as usize, Some(Held { free: h.free + frames, ..h }));
                    return Said::Is(0);
                }
                Some(_) => self.hit(Row::PutEntryOther),
                None => self.hit(Row::PutEntryAbsent),
            },
            _ => self.hit(Row::PutEntryNoLocal),
        }
        self.entry_put(s, tree, frames);
        Said::Is(0)
    }

    fn drain(&mut self, s: &mut State) -> Said<u8> {
        if self.is_broken(s) {
            self.hit(Row::DrainBroken);
            return Said::Is(1);
        }
        let mut some = false;
        for class in 0..8 {
            for index in 0..locals(s, class) {
                if let Some(h) = local(s, class, index) {
                    some = true;
                    store_local(s, class, index, None);
                    if self.unreserve(s, h.tree(), class, h.free).is_err() {
                        return Said::Is(9);
                    }
                }
            }
        }
        self.hit(if some { Row::DrainSome } else { Row::DrainNone });
        Said::Is(0)
    }

    fn stats(&mut self, s: &mut State) -> Said<Counted> {
        let mut c = Counted::default();
        if self.wrong(95) && s.rows != 8 {
            return Said::Is(Counted { number: 11, ..c });
        }
        if self.is_broken(s) {
            self.hit(Row::StatsBroken);
            return Said::Is(Counted { number: 1, ..c });
        }
        let mut spare = 0;
        for t in 0..trees(s) {
            let e = entry(s, t);
            c.free += e.free;
            c.trees += e.free / TREE;
            spare += e.free % TREE;
            c.rows[e.class].free += e.free;
            c.rows[e.class].alloc += TREE - e.free;
            c.rows[e.class].used += TREE - e.free;
        }
        let mut some = false;
        for class in 0..8 {
            for index in 0..locals(s, class) {
                let Some(h) = local(s, class, index) else { continue };
                some = true;
                let of = entry(s, h.tree()).class;
                c.free += h.free;
                c.trees += h.free / TREE;
                if h.free == TREE {
                    self.hit(Row::StatsLocalTree);
                }
                spare += h.free % TREE;
                c.rows[if self.wrong(79) { of } else { class }].free += h.free;
                if self.wrong(80) {
                    c.rows[of].alloc -= h.free;
                }
                let row = &mut c.rows[if self.wrong(81) { class } else { of }];
                row.used = row.used.wrapping_sub(h.free);
            }
        }
        if self.wrong(78) {
            c.trees += spare / TREE;
        }
        if s.rows != 8 {
            self.hit(Row::StatsRows);
            if self.wrong(96) {
                return Said::Is(Counted { number: 11, rows: [Tally::default(); 8], ..c });
            }
            return Said::Is(Counted { number: 11, ..Counted::default() });
        }
        self.hit(if some { Row::StatsReserved } else { Row::StatsDone });
        Said::Is(c)
    }
}
