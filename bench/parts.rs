//! Single parts against the same algorithm in plain Rust.

use std::hint::black_box;

use crate::measure::both;
use crate::report::Report;
use crate::side::{Header, MATCH, table};

unsafe extern "C" {
    fn bench_clear(words: *const u64, n: usize) -> usize;
    fn bench_lower_get(words: *mut u64, n: usize, row: usize) -> usize;
    fn bench_accepts(h: Header, table: *const u32) -> bool;
}

/// The same algorithms as the crates lower_words, lower and test_accept have.
pub mod plain {
    use crate::side::Header;

    #[inline(never)]
    pub fn clear(words: &[u64]) -> usize {
        let mut sum = 0usize;
        for tree in words.chunks_exact(32) {
            let mut held = 0usize;
            for w in tree {
                held += w.count_ones() as usize;
            }
            sum = sum.wrapping_add(2048 - held);
        }
        sum
    }

    fn part(w: u64, s: usize, n: usize) -> u64 {
        (w >> s) & ((1u64 << n) - 1)
    }
    fn seek_word(w: u64, order: usize, want: usize, index: usize) -> usize {
        if order == want {
            return if part(w, index << order, 1 << order) == 0 { index } else { 64 };
        }
        let n = 1 << (order - 1);
        if part(w, index * 2 * n, n) != (1u64 << n) - 1 {
            let i = seek_word(w, order - 1, want, index * 2);
            if i < 64 {
                return i;
            }
        }
        seek_word(w, order - 1, want, index * 2 + 1)
    }
    fn seek_row(words: &[u64], want: usize, row: usize) -> Option<usize> {
        match seek_word(words[row], 6, want, 0) {
            i if i < 64 => Some((row << (6 - want)) + i),
            _ => None,
        }
    }
    fn is_free(words: &[u64], order: usize, block: usize) -> bool {
        let b = block << order;
        if order < 6 { part(words[b / 64], b % 64, 1 << order) == 0 } else { words[b / 64..][..1 << (order - 6)].iter().all(|&w| w == 0) }
    }
    fn is_held(words: &[u64], order: usize, block: usize) -> bool {
        let b = block << order;
        words[b / 64..][..1 << (order - 6)].iter().all(|&w| w == !0)
    }
    fn seek(words: &[u64], order: usize, want: usize, index: usize, row: usize) -> Option<usize> {
        if order == want {
            return is_free(words, order, index).then_some(index);
        }
        if order == 6 {
            return seek_row(words, want, index);
        }
        let (left, right) = (index * 2, index * 2 + 1);
        if left < row >> (order - 7) || is_held(words, order - 1, left) {
            return seek(words, order - 1, want, right, row);
        }
        seek(words, order - 1, want, left, row).or_else(|| seek(words, order - 1, want, right, row))
    }
    fn upward(words: &[u64], row: usize, want: usize) -> Option<usize> {
        if want < 6 {
            let end = row / 32 * 32 + 32;
            let open = (row..end).find(|&r| words[r] != !0)?;
            return seek_row(words, want, open).or_else(|| seek(words, 11, want, row / 32, row));
        }
        seek(words, 11, want, row / 32, row)
    }
    #[inline(never)]
    pub fn lower_get(words: &mut [u64], row: usize, want: usize) -> Option<usize> {
        if words.len() > 32768 || row / 32 >= words.len() / 32 {
            return None;
        }
        let from = row * 64 >> want;
        let block = if is_free(words, want, from) { from } else { upward(words, row, want).or_else(|| upward(words, row / 32 * 32, want))? };
        let b = block << want;
        if want < 6 {
            words[b / 64] |= ((1u64 << (1 << want)) - 1) << (b % 64);
        } else {
            words[b / 64..][..1 << (want - 6)].fill(!0);
        }
        Some(b)
    }

    #[inline(never)]
    pub fn accepts(h: Header, table: &[u32; 64]) -> bool {
        if h.frames < 1 || h.frames > 2097152 || h.places.iter().any(|&p| p > 33) || h.default >= 8 || h.places[h.default] == 0 {
            return false;
        }
        let kind = |o: usize, e: usize| table[o * 8 + e] % 4;
        for o in 0..8 {
            if h.places[o] == 0 {
                if (0..8).any(|e| table[o * 8 + e] != 0) {
                    return false;
                }
                continue;
            }
            if kind(o, o) < 2 {
                return false;
            }
            for e in 0..8 {
                let w = table[o * 8 + e];
                if if w % 4 == 3 { w / 4 % 16384 > 2048 } else { w >= 4 } {
                    return false;
                }
                if h.places[e] == 0 {
                    if kind(o, e) != 0 {
                        return false;
                    }
                    continue;
                }
                if kind(o, e) >= 2 {
                    if kind(e, h.default) > 0 && kind(o, h.default) < 2 {
                        return false;
                    }
                    if (0..8).any(|k| kind(k, o) == 2 && kind(k, e) < 2) {
                        return false;
                    }
                }
            }
        }
        true
    }
}

/// The lower's get of order 0 from a row, its bit clear again.
fn lower(to: &mut Report, name: &str, words: &[u64], row: usize) {
    let (mut a, mut b) = (words.to_vec(), words.to_vec());
    let times = || both(
        || {
            let f = unsafe { bench_lower_get(a.as_mut_ptr(), a.len(), black_box(row)) };
            a[f / 64] &= !(1 << (f % 64));
            f
        },
        || {
            let f = plain::lower_get(&mut b, black_box(row), black_box(0)).unwrap();
            b[f / 64] &= !(1 << (f % 64));
            f
        },
    );
    to.part(name, times);
}

/// The acceptance test of a header and a table.
fn accept(to: &mut Report, name: &str, h: Header, t: &[u32; 64]) {
    let times = || both(|| unsafe { bench_accepts(black_box(h), black_box(t.as_ptr())) as usize }, || plain::accepts(black_box(h), black_box(t)) as usize);
    to.part(name, times);
}

pub fn run(to: &mut Report) {
    let mut r = 0x9E3779B97F4A7C15u64;
    let words: Vec<u64> = (0..32768)
        .map(|_| {
            r ^= r << 13;
            r ^= r >> 7;
            r ^= r << 17;
            r
        })
        .collect();
    let times = || both(|| unsafe { bench_clear(black_box(words.as_ptr()), words.len()) }, || plain::clear(black_box(&words)));
    to.part("clear bits of 32,768 words", times);
    lower(to, "lower get, order 0, hint at a free frame", &[0; 32 * 8], 100);
    let mut last = vec![!0u64; 32 * 8];
    last[127] = !0 >> 1;
    lower(to, "lower get, order 0, only the tree's last frame free, hint at its first row", &last, 96);
    lower(to, "the same, hint at its last row", &last, 127);
    accept(to, "acceptance test, table T", Header { frames: 16384, default: 1, places: [3, 3, 0, 0, 0, 0, 0, 0] }, &table());
    let eight = Header { frames: 2097152, default: 7, places: [33; 8] };
    accept(to, "acceptance test, eight classes, every pair Match", eight, &[MATCH; 64]);
    let demote: [u32; 64] = std::array::from_fn(|i| if i / 8 == i % 8 { 3 } else { 2 });
    accept(to, "acceptance test, eight classes, Demote but for the own", eight, &demote);
}
