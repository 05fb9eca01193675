//! The line form: reading commands, carrying them out on a store, and writing answers.

use std::fmt;
use std::io::{self, Read, Write};

use crate::engine::{Ask, Counted, Engine, Got, Said, outcome};
use crate::state::{Pair, ROOM_LOCALS, ROOM_ROWS, ROOM_TREES, ROOM_WORDS, State};

#[derive(Clone, Copy, PartialEq, Eq, Debug)]
pub enum Command {
    Frames(u64),
    Default(u8),
    Class(usize, Option<u8>),
    Pair(usize, usize, Pair),
    Lend([Option<usize>; 3]),
    Rows(usize),
    Entry(usize, u32),
    Local(usize, u64),
    Word(usize, u64),
    Fill(usize, usize, u64),
    Start(bool),
    Get(Ask),
    Put(Ask),
    Drain,
    Stats,
    Dump,
    Sum,
    Look,
}

/// A number up to `most`: decimal digits, or hexadecimal digits after `0x`.
fn number(word: &str, most: u64) -> Option<u64> {
    let (digits, base) = match word.strip_prefix("0x") {
        Some(rest) => (rest, 16),
        None => (word, 10),
    };
    if digits.is_empty() || !digits.bytes().all(|b| (b as char).is_digit(base)) {
        return None;
    }
    u64::from_str_radix(digits, base).ok().filter(|&v| v <= most)
}
/// A number up to `most`, or `-`.
fn maybe(word: &str, most: u64) -> Option<Option<u64>> {
    if word == "-" { Some(None) } else { number(word, most).map(Some) }
}

/// Ok(None) where the line is passed over, Err where it is no command.
pub fn parse(line: &[u8]) -> Result<Option<Command>, ()> {
    if line.first() == Some(&b'#') {
        return Ok(None);
    }
    let text = std::str::from_utf8(line).map_err(|_| ())?;
    let words: Vec<&str> = text.split(' ').filter(|w| !w.is_empty()).collect();
    if words.is_empty() {
        return Ok(None);
    }
    command(&words).map(Some).ok_or(())
}

fn command(words: &[&str]) -> Option<Command> {
    let ask = |frame: Option<u64>, rest: &[&str]| -> Option<Ask> {
        Some(Ask {
            frame,
            order: number(rest[0], u64::MAX)?,
            class: number(rest[1], u64::MAX)?,
            local: maybe(rest[2], u64::MAX)?,
        })
    };
    Some(match words {
        ["frames", f] => Command::Frames(number(f, u64::MAX)?),
        ["default", d] => Command::Default(number(d, 200)? as u8),
        ["class", c, k] => Command::Class(number(c, 7)? as usize, maybe(k, 200)?.map(|k| k as u8)),
        ["pair", r, t, kind, cut, low, high] => Command::Pair(
            number(r, 7)? as usize,
            number(t, 7)? as usize,
            Pair {
                kind: number(kind, 3)? as u8,
                cut: number(cut, 16383)? as u16,
                low: number(low, 255)? as u8,
                high: number(high, 255)? as u8,
            },
        ),
        ["lend", t, l, b] => Command::Lend([
            maybe(t, ROOM_TREES as u64)?.map(|v| v as usize),
            maybe(l, ROOM_LOCALS as u64)?.map(|v| v as usize),
            maybe(b, ROOM_WORDS as u64)?.map(|v| v as usize),
        ]),
        ["rows", r] => Command::Rows(number(r, ROOM_ROWS as u64)? as usize),
        ["entry", i, w] => Command::Entry(number(i, ROOM_TREES as u64 - 1)? as usize, number(w, u32::MAX as u64)? as u32),
        ["local", i, w] => Command::Local(number(i, ROOM_LOCALS as u64 - 1)? as usize, number(w, u64::MAX)?),
        ["word", i, w] => Command::Word(number(i, ROOM_WORDS as u64 - 1)? as usize, number(w, u64::MAX)?),
        ["fill", from, count, w] => {
            let from = number(from, ROOM_WORDS as u64)?;
            let count = number(count, ROOM_WORDS as u64 - from)?;
            Command::Fill(from as usize, count as usize, number(w, u64::MAX)?)
        }
        ["start", "free"] => Command::Start(true),
        ["start", "held"] => Command::Start(false),
        ["get", f, rest @ ..] if rest.len() == 3 => Command::Get(ask(maybe(f, u64::MAX)?, rest)?),
        ["put", f, rest @ ..] if rest.len() == 3 => Command::Put(ask(Some(number(f, u64::MAX)?), rest)?),
        ["drain"] => Command::Drain,
        ["stats"] => Command::Stats,
        ["dump"] => Command::Dump,
        ["sum"] => Command::Sum,
        ["look"] => Command::Look,
        _ => return None,
    })
}

struct Maybe<T>(Option<T>);
impl<T: fmt::Display> fmt::Display for Maybe<T> {
    fn fmt(&self, f: &mut fmt::Formatter<'_>) -> fmt::Result {
        match &self.0 {
            Some(v) => v.fmt(f),
            None => f.write_str("-"),
        }
    }
}

/// A command as the line that says it.
impl fmt::Display for Command {
    fn fmt(&self, f: &mut fmt::Formatter<'_>) -> fmt::Result {
        let ask = |f: &mut fmt::Formatter<'_>, name, a: &Ask| {
            write!(f, "{name} {} {} {} {}", Maybe(a.frame), a.order, a.class, Maybe(a.local))
        };
        match *self {
            Command::Frames(v) => write!(f, "frames {v}"),
            Command::Default(d) => write!(f, "default {d}"),
            Command::Class(c, k) => write!(f, "class {c} {}", Maybe(k)),
            Command::Pair(r, t, p) => write!(f, "pair {r} {t} {} {} {} {}", p.kind, p.cut, p.low, p.high),
            Command::Lend([t, l, b]) => write!(f, "lend {} {} {}", Maybe(t), Maybe(l), Maybe(b)),
            Command::Rows(r) => write!(f, "rows {r}"),
            Command::Entry(i, w) => write!(f, "entry {i} {w:#x}"),
            Command::Local(i, w) => write!(f, "local {i} {w:#x}"),
            Command::Word(i, w) => write!(f, "word {i} {w:#x}"),
            Command::Fill(from, count, w) => write!(f, "fill {from} {count} {w:#x}"),
            Command::Start(true) => write!(f, "start free"),
            Command::Start(false) => write!(f, "start held"),
            Command::Get(ref a) => ask(f, "get", a),
            Command::Put(ref a) => ask(f, "put", a),
            Command::Drain => write!(f, "drain"),
            Command::Stats => write!(f, "stats"),
            Command::Dump => write!(f, "dump"),
            Command::Sum => write!(f, "sum"),
            Command::Look => write!(f, "look"),
        }
    }
}

/// An answer; Display writes its lines, each with its line end.
#[derive(Clone, PartialEq, Eq, Debug)]
pub enum Answer {
    Nothing,
    Start(Said<u8>),
    Get(Said<Got>),
    Put(Said<u8>),
    Drain(Said<u8>),
    Stats(Said<Counted>),
    Text(String),
}

impl Answer {
    /// The number of document 01, where it is an answer with one.
    pub fn number(&self) -> Option<u8> {
        match self {
            Answer::Get(Said::Is(g)) => Some(g.number),
            Answer::Put(Said::Is(n)) | Answer::Drain(Said::Is(n)) | Answer::Start(Said::Is(n)) => Some(*n),
            Answer::Stats(Said::Is(s)) => Some(s.number),
            _ => None,
        }
    }
}

fn unsaid<T>(name: &str, said: &Said<T>, f: &mut fmt::Formatter<'_>) -> fmt::Result {
    match said {
        Said::Is(_) => Ok(()),
        Said::Outside => writeln!(f, "{name} outside"),
        Said::Panic => writeln!(f, "{name} panic"),
        Said::Disagrees => writeln!(f, "{name} disagrees"),
    }
}

impl fmt::Display for Answer {
    fn fmt(&self, f: &mut fmt::Formatter<'_>) -> fmt::Result {
        let plain = |f: &mut fmt::Formatter<'_>, name, said: &Said<u8>| match said {
            Said::Is(n) => writeln!(f, "{name} {n} {}", outcome(*n)),
            other => unsaid(name, other, f),
        };
        match self {
            Answer::Nothing => Ok(()),
            Answer::Start(said) => plain(f, "start", said),
            Answer::Put(said) => plain(f, "put", said),
            Answer::Drain(said) => plain(f, "drain", said),
            Answer::Get(Said::Is(g)) => {
                let (frame, class) = if g.number == 0 { (Some(g.frame), Some(g.class)) } else { (None, None) };
                writeln!(
                    f,
                    "get {} {} frame {} class {} looks {} tries {}",
                    g.number,
                    outcome(g.number),
                    Maybe(frame),
                    Maybe(class),
                    g.looks,
                    g.tries
                )
            }
            Answer::Get(other) => unsaid("get", other, f),
            Answer::Stats(Said::Is(c)) => {
                writeln!(f, "stats {} {} free {} trees {}", c.number, outcome(c.number), c.free, c.trees)?;
                if c.number == 0 {
                    for (class, row) in c.rows.iter().enumerate() {
                        writeln!(f, "row {class} free {} alloc {} used {}", row.free, row.alloc, row.used)?;
                    }
                }
                Ok(())
            }
            Answer::Stats(other) => unsaid("stats", other, f),
            Answer::Text(text) => f.write_str(text),
        }
    }
}

/// FNV-1a, 64 bit.
fn fnv(bytes: impl Iterator<Item = u8>) -> u64 {
    bytes.fold(0xcbf29ce484222325, |h, b| (h ^ b as u64).wrapping_mul(0x100000001b3))
}

fn sum(s: &State) -> String {
    format!(
        "sum {:016x} {:016x} {:016x}\n",
        fnv(s.tree_words().iter().flat_map(|w| w.to_le_bytes())),
        fnv(s.local_words().iter().flat_map(|w| w.to_le_bytes())),
        fnv(s.bitmap_words().iter().flat_map(|w| w.to_le_bytes())),
    )
}

fn dump(s: &State) -> String {
    let mut text = String::new();
    let mut add = |name: &str, i: usize, w: u64| {
        if w != 0 {
            text += &format!("{name} {i} {w:#x}\n");
        }
    };
    s.tree_words().iter().enumerate().for_each(|(i, &w)| add("entry", i, w as u64));
    s.local_words().iter().enumerate().for_each(|(i, &w)| add("local", i, w));
    s.bitmap_words().iter().enumerate().for_each(|(i, &w)| add("word", i, w));
    text + "end\n"
}

/// A picture for people: a row a tree, a sign for each 64 frames (. free, + partly held, # held).
fn look(s: &State) -> String {
    let mut text = String::new();
    for (i, w) in s.tree_words().iter().enumerate() {
        let state = if w >> 28 & 1 == 1 { 'R' } else { ' ' };
        text += &format!("{i:4} class {} {state} free {:4} ", w >> 29, w & 0xfff_ffff);
        for word in s.bitmap_words().iter().skip(32 * i).take(32) {
            text.push(match *word {
                0 => '.',
                u64::MAX => '#',
                _ => '+',
            });
        }
        text.push('\n');
    }
    text
}

/// Carries out one command.
pub fn perform(c: &Command, s: &mut State, engine: &mut impl Engine) -> Answer {
    match *c {
        Command::Frames(v) => s.frames = v,
        Command::Default(d) => s.default = d,
        Command::Class(c, k) => s.classes[c] = k,
        Command::Pair(r, t, p) => s.table[r][t] = p,
        Command::Lend(l) => s.lend = l,
        Command::Rows(r) => s.rows = r,
        Command::Entry(i, w) => s.trees[i] = w,
        Command::Local(i, w) => s.locals[i] = w,
        Command::Word(i, w) => s.bitmap[i] = w,
        Command::Fill(from, count, w) => s.bitmap[from..from + count].fill(w),
        Command::Start(free) => return Answer::Start(engine.start(s, free)),
        Command::Get(ref a) => return Answer::Get(engine.get(s, a)),
        Command::Put(ref a) => return Answer::Put(engine.put(s, a)),
        Command::Drain => return Answer::Drain(engine.drain(s)),
        Command::Stats => return Answer::Stats(engine.stats(s)),
        Command::Dump => return Answer::Text(dump(s)),
        Command::Sum => return Answer::Text(sum(s)),
        Command::Look => return Answer::Text(look(s)),
    }
    Answer::Nothing
}

/// The answers to a whole text, written as they come.
pub fn run(text: &[u8], engine: &mut impl Engine, out: &mut impl Write) -> io::Result<()> {
    let mut s = State::new();
    for (i, line) in lines(text).enumerate() {
        match parse(line) {
            Ok(None) => {}
            Ok(Some(c)) => write!(out, "{}", perform(&c, &mut s, engine))?,
            Err(()) => writeln!(out, "? {}", i + 1)?,
        }
    }
    out.flush()
}

/// Lines end in a line feed; what follows the last one is a line if it is not empty.
pub fn lines(text: &[u8]) -> impl Iterator<Item = &[u8]> {
    text.split_inclusive(|&b| b == b'\n').map(|l| l.strip_suffix(b"\n").unwrap_or(l))
}

/// Says in one line what could not be done, and ends the program with a status that is not 0.
pub fn fail(what: &str, name: &str, e: io::Error) -> ! {
    eprintln!("cannot {what} {name}: {e}");
    std::process::exit(1)
}

pub fn read_file(name: &str) -> Vec<u8> {
    std::fs::read(name).unwrap_or_else(|e| fail("read", name, e))
}

/// The program around an engine: `PROGRAM [IN [OUT]]`, standard input and output where not given.
pub fn program(args: &[String], engine: &mut impl Engine) {
    let text = match args.first() {
        Some(name) => read_file(name),
        None => {
            let mut text = Vec::new();
            io::stdin().read_to_end(&mut text).unwrap_or_else(|e| fail("read", "standard input", e));
            text
        }
    };
    let (name, sink): (&str, Box<dyn Write>) = match args.get(1) {
        Some(name) => (name, Box::new(std::fs::File::create(name).unwrap_or_else(|e| fail("write", name, e)))),
        None => ("standard output", Box::new(io::stdout())),
    };
    let mut out = io::BufWriter::with_capacity(1 << 16, sink);
    run(&text, engine, &mut out).unwrap_or_else(|e| fail("write", name, e));
}
